#!/usr/bin/env python3
"""Prints the entries of a store file, a line for each: the key and the value, as hexadecimal digits. It writes nothing.

    read_store.py [--rules | --postings] FILE

It reads the file as docs/STORE.md says ("Recovery"), also where a crash has left it in the midst of a commit. With --rules it prints the
rows of all rule indexes instead, each with its rule as it is stored, in words ("Stored queries"). With --postings it prints of each CONTEXT
index how tidy it is, and behind which term an optimisation goes on, and then its rows of words and of sections with their documents.
"""
import sys

PAGE = 4096
sys.setrecursionlimit(5000)  # a stored query has up to 1024 nodes, one within the other


class NoStore(Exception):
    pass


def need(holds, why):
    if not holds:
        raise NoStore(why)


def number(data, at, size):
    return int.from_bytes(data[at : at + size], "big")


def home_pages(image):
    """Returns the home pages from 3 on by their numbers, and the number of the page at the top of the directory, or 0."""
    need(len(image) >= 3 * PAGE and image[1:PAGE] == b"CTXSTORE" + bytes(PAGE - 9), "the mark isn't there")
    page = lambda i: image[PAGE * i : PAGE * i + PAGE]
    batch, end = {}, len(image) // PAGE
    if image[PAGE] == 1:
        first, count = number(image, PAGE + 8, 4), number(image, PAGE + 12, 4)
        images = first + (count + 1023) // 1024
        need(count >= 1 and PAGE * (images + count) <= len(image), "the batch isn't inside the file")
        numbers = [number(image, PAGE * first + 4 * i, 4) for i in range(count)]
        need(not any(image[PAGE * first + 4 * count : PAGE * images]), "the numbers of the batch aren't filled with zeros")
        need(all(a < b for a, b in zip([1, *numbers], [*numbers, first])), "the numbers of the batch don't rise")
        batch, end = {it: page(images + i) for i, it in enumerate(numbers)}, first
    root = batch.get(2, page(2))
    homes = number(root, 4, 4)
    need(root[:4] == b"\4\0\0\0" and not any(root[12:]) and 3 <= homes <= min(end, 2**31), "there is no root")
    return {i: batch.get(i, page(i)) for i in range(3, homes)}, number(root, 8, 4)


def strings(page):
    """Returns the strings of a slotted page."""
    count, end, found = number(page, 2, 2), PAGE, []
    need(8 + 4 * count <= PAGE, "a page has too many slots")
    for slot in range(8, 8 + 4 * count, 4):
        place, length = number(page, slot, 2), number(page, slot + 2, 2)
        need(place + length == end and place >= 8 + 4 * count, "a slot is wrong")
        found.append(page[place:end])
        end = place
    need(page[1] == 0 and number(page, 4, 2) == end and not any(page[6:8]) and not any(page[8 + 4 * count : end]), "a slotted page is wrong")
    return found


def long_page(page):
    """Returns the number of the next long page, and the bytes."""
    following, used = number(page, 1, 4), number(page, 5, 2)
    need(1 <= used <= 4088 and (used == 4088 or following == 0) and page[7] == 0 and not any(page[8 + used :]), "a long page is wrong")
    return following, page[8 : 8 + used]


def directory_page(page):
    """Returns how far a page of the directory is above the leaves, and its items: places of entries, in a leaf, or else pages of the
    directory, each with the place of the least entry below it. A place is the number of a page and that of a string on it."""
    level, count = page[1], number(page, 2, 2)
    size, most = (6, 681) if level == 0 else (10, 408)
    end = 8 + size * count
    need(1 <= count <= most and not any(page[4:8]) and not any(page[end:]), "a page of the directory is wrong")
    place = lambda at: (number(page, at, 4), number(page, at + 4, 2))
    return level, [place(at) if level == 0 else (number(page, at, 4), place(at + 4)) for at in range(8, end, size)]


def places(pages, top, level=None, least=None):
    """Returns the places that the leaves below a page of the directory name, from left to right, and takes its pages out of these."""
    need(top in pages, "a page isn't one of the directory, or stands in it twice")
    its_level, items = pages.pop(top)
    need(level in (None, its_level), "a page of the directory is on a wrong level")
    need(least in (None, items[0] if its_level == 0 else items[0][1]), "an entry isn't the least one below a page of the directory")
    return items if its_level == 0 else [it for child, first in items for it in places(pages, child, its_level - 1, first)]


def entries(image):
    """Returns the map of the file's entries."""
    if len(image) <= 1 or (image[0] == 0 and len(image) <= 3 * PAGE):
        return {}
    pages, top = home_pages(image)
    texts = {(i, slot): text for i, it in pages.items() if it[0] == 1 for slot, text in enumerate(strings(it))}
    chains = {i: long_page(it) for i, it in pages.items() if it[0] == 2}
    directory = {i: directory_page(it) for i, it in pages.items() if it[0] == 3}
    need(all(it[0] in (1, 2, 3) or not any(it) for it in pages.values()), "a page is of no kind")
    found, keys = {}, {}
    for at, text in texts.items():
        need(len(text) >= 3 and text[0] in (0, 1), "a string is no entry")
        end = 3 + number(text, 1, 2)
        key, value = text[3:end], text[end:]
        need(1 <= len(key) == end - 3 <= 600 and key not in found, "a key is wrong")
        if text[0] == 0:
            need(len(text) <= 4084, "a short entry is too long")
        else:
            need(len(value) == 8, "a long entry is wrong")
            length, following, value = number(value, 0, 4), number(value, 4, 4), b""
            while following:
                need(following in chains, "a long page isn't there, or is taken twice")
                following, more = chains.pop(following)
                value += more
            need(len(value) == length and 3 + len(key) + length > 4084, "a long entry has the wrong length")
        need(len(value) <= 2**26, "a value is too long")
        found[key], keys[at] = value, key
    need(not chains, "a long page belongs to no entry")
    named = places(directory, top) if top else sorted(keys, key=keys.get)
    need(not directory, "a page of the directory isn't in it")
    # (keys are different, so the lists are the same only where each entry is named once)
    need([keys.get(it) for it in named] == sorted(found), "the directory doesn't name just the entries, in order of key")
    return found


class Fields:
    """Reads the fields of a value, one after the other."""

    def __init__(self, data):
        self.data, self.at = data, 0

    def bytes(self, count):
        self.at += count
        need(self.at <= len(self.data), "a value ends too early")
        return self.data[self.at - count : self.at]

    def byte(self):
        return self.bytes(1)[0]

    def varint(self):
        found, shift = 0, 0
        while True:
            it = self.byte()
            found |= (it & 127) << shift
            shift += 7
            if it < 128:
                need((it or shift == 7) and found < 2**32, "a number is spelt wrongly")
                return found

    def text(self):
        return self.bytes(self.varint()).decode()

    def list(self, item):
        return [item() for _ in range(self.varint())]

    def named(self, *names):
        """Returns the name of a byte, which counts from 1."""
        it = self.byte()
        need(1 <= it <= len(names), "a byte stands for nothing")
        return names[it - 1]


JOINED = {2: "AND", 3: "OR", 4: "NOT", 5: "MINUS"}


def step(fields):
    found = fields.named("number", "DISCRETE", "OCCURRENCE", "+", "-", "*")
    return str(number(fields.bytes(2), 0, 2)) if found == "number" else found


def pattern(fields):
    bits = fields.list(lambda: {"text": fields.text, "_": lambda: "_", "%": lambda: "%"}[fields.named("text", "_", "%")]())
    return "".join(bits)


def slot(fields):
    if fields.byte() == 0:
        return "(any word)"
    return "=".join([*fields.list(fields.text), *fields.list(lambda: pattern(fields))])


def term(fields):
    phrases = fields.list(lambda: " ".join(fields.list(lambda: slot(fields))))
    return phrases[0] if len(phrases) == 1 else f"({' | '.join(phrases)})"


def place(fields):
    """Returns where a Within looks: in a section, or in the stream of a field."""
    kind = fields.named("zone", "field", "sentence", "paragraph")
    return fields.text() if kind == "zone" else f"field {fields.byte()}" if kind == "field" else kind


def node(fields):
    """Returns a query in words, and goes past it."""
    tag = fields.byte()
    if tag == 1:
        return term(fields)
    if tag in JOINED:
        left = node(fields)
        return f"({left} {JOINED[tag]} {node(fields)})"
    if tag in (6, 7):
        count = fields.byte()
        sign = f"* {count / 10:g}" if tag == 6 else f"> {count}"
        return f"({node(fields)} {sign})"
    if tag == 8:
        span, is_ordered = fields.byte(), fields.byte()
        return f"NEAR(({', '.join(fields.list(lambda: term(fields)))}), {span}{', TRUE' if is_ordered else ''})"
    if tag == 9:
        where = place(fields)
        return f"({node(fields)} WITHIN {where})"
    need(tag == 10, "a node is of no kind")
    inner = term(fields)
    return f"DEFINESCORE({inner}, {' '.join(fields.list(lambda: step(fields)))})"


def query(value):
    fields = Fields(value)
    found = "nothing" if value == b"\0" else node(fields)
    need(value == b"\0" or fields.at == len(value), "a query has bytes behind it")
    return found


def rules(found):
    """Returns the rows of all rule indexes, each with what became of its rule."""
    indexes = {key[1:] for key, value in found.items() if key[0] == 0x20 and value[:1] == b"\3"}
    shown = {0x23: lambda _: "waits", 0x2A: query, 0x2C: lambda value: "faulty: " + value.decode()}
    rows = [(key[1 : 2 + key[1]], number(key, 2 + key[1], 8) - 2**63, shown[key[0]](value)) for key, value in found.items() if key[0] in shown]
    return sorted((index[1:].decode(), key, rule) for index, key, rule in rows if index in indexes)


def term_at(fields):
    """Returns a term in words, and goes past it: a stream with a token, or a section. None where it is no term."""
    stream = fields.byte()
    text = fields.text()
    need(stream in (0, 255) or (1 <= stream <= 64 and text), "a place is none")
    return None if not text else f"section {text}" if stream == 255 else f"{stream} {text}"


def context_end(value):
    """Returns how tidy a CONTEXT index is, and behind which term an optimisation goes on, by its entry."""
    fields = Fields(value)
    fields.bytes(1)
    fields.text()
    fields.bytes(2)
    fields.list(lambda: (fields.text(), fields.text()))
    fields.list(fields.text)
    fields.bytes(2)
    fields.list(lambda: (fields.text(), fields.byte(), fields.list(fields.text)))
    fields.list(lambda: fields.list(fields.text))
    fields.bytes(4)
    tidiness = fields.byte()
    need(tidiness <= 2, "an index is tidy in no way")
    place = term_at(fields)
    need(fields.at == len(value), "the entry of an index has bytes behind it")
    return ["not tidy", "packed", "clean"][tidiness], place or "the first term"


def postings(found):
    """Returns the ends of the entries of all CONTEXT indexes, and their rows of words and of sections, in order of their keys."""
    shown = [(key[2:].decode(), *context_end(value)) for key, value in found.items() if key[0] == 0x20 and value[:1] == b"\1"]
    for key in sorted(key for key in found if key[0] in (0x24, 0x25)):
        index, behind = key[2 : 2 + key[1]].decode(), key[2 + key[1] : -4]
        token = f"{behind[0]} {behind[2:].decode()}" if key[0] == 0x24 else f"section {behind[1:].decode()}"
        fields, last, documents = Fields(found[key]), 0, []
        for _ in range(fields.varint()):
            last += fields.varint()
            numbers = 1 if key[0] == 0x24 else 2
            count = fields.varint()
            for _ in range(numbers * count):
                fields.varint()
            documents.append(last)
        need(fields.at == len(found[key]) and documents[:1] == [number(key[-4:], 0, 4)], "a row is spelt wrongly")
        shown.append((index, token, " ".join(map(str, documents))))
    return shown


def main():
    *options, path = sys.argv[1:]
    try:
        with open(path, "rb") as it:
            found = entries(it.read())
        if options == ["--rules"]:
            for row in rules(found):
                print(*row, sep="|")
            return
        if options == ["--postings"]:
            for row in postings(found):
                print(*row, sep="|")
            return
    except NoStore as why:
        sys.exit(f"{path} is no store: {why}")
    for key in sorted(found):
        print(key.hex(), found[key].hex())


if __name__ == "__main__":
    main()
