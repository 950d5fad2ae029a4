"""Documents: what an index takes a text for, by the preferences that it has copied."""

from __future__ import annotations

import re
from collections.abc import Iterable, Iterator, Sequence
from dataclasses import dataclass, replace
from functools import lru_cache
from typing import Literal

from texts import DEFAULT_OPTIONS, LexerOptions, Token, tokens

MAIN_STREAM = 0

SectionKind = Literal["zone", "field", "visible field"]


@dataclass(frozen=True)
class Section:
    name: str
    kind: SectionKind
    tags: tuple[str, ...]  # in lower case


@dataclass(frozen=True)
class Group:
    """A section group. One that is null has no sections of its own, but may have the special ones."""

    is_null: bool = True
    sections: tuple[Section, ...] = ()  # in the order of adding
    specials: frozenset[str] = frozenset()  # sentence and paragraph

    @property
    def tags(self) -> list[str]:
        return [tag for section in self.sections for tag in section.tags]

    @property
    def fields(self) -> list[Section]:
        return [section for section in self.sections if section.kind != "zone"]

    def section(self, name: str) -> Section | None:
        return next((section for section in self.sections if section.name == name), None)

    def section_of(self, tag: str) -> Section:
        return next(section for section in self.sections if tag in section.tags)

    def with_tag(self, name: str, kind: SectionKind, tag: str) -> Group:
        """Returns the group where a section, which is made if it isn't there, has one more tag."""
        if self.section(name) is None:
            return replace(self, sections=(*self.sections, Section(name, kind, (tag,))))
        longer = (replace(it, tags=(*it.tags, tag)) if it.name == name else it for it in self.sections)
        return replace(self, sections=tuple(longer))


@dataclass(frozen=True)
class Prefs:
    """What an index has copied of the preferences that it was created with."""

    lexer: LexerOptions = DEFAULT_OPTIONS
    stop_keys: frozenset[str] = frozenset()
    group: Group = Group()


@dataclass(frozen=True)
class Word:
    key: str | None  # a stopword has none
    streams: frozenset[int]  # the main one, and the fields that have it, numbered from 1


Instance = tuple[str, int, int]  # of a section: its name, and the positions of the first and the last word in it


@dataclass(frozen=True)
class Document:
    words: tuple[Word, ...]  # at the positions from 1 on
    instances: frozenset[Instance]  # of the zones and the special sections. Those of fields show in the streams

    def positions(self) -> dict[tuple[int, str], list[int]]:
        """Returns the positions of each key in each stream that has it, in rising order."""
        positions: dict[tuple[int, str], list[int]] = {}
        for position, word in enumerate(self.words, start=1):
            if word.key is not None:
                for stream in word.streams:
                    positions.setdefault((stream, word.key), []).append(position)
        return positions

    def pairs(self) -> dict[str, list[tuple[int, int]]]:
        """Returns the first and last positions of each section's instances, in rising order."""
        pairs: dict[str, list[tuple[int, int]]] = {}
        for section, first, last in sorted(self.instances):
            pairs.setdefault(section, []).append((first, last))
        return pairs


@dataclass(frozen=True)
class Tag:
    name: str
    is_opening: bool
    start: int  # the place of its first byte in the text
    end: int  # the place behind its last byte


TAG = re.compile(rb"<(/?)([A-Za-z0-9_-]+)>")


def tags_in(group: Group, text: bytes) -> list[Tag]:
    """Returns the tags of a group in a text. What looks like a tag of another name is none."""
    found = (Tag(it[2].decode().lower(), it[1] == b"", it.start(), it.end()) for it in TAG.finditer(text))
    return [tag for tag in found if tag.name in group.tags]


def blanked(text: bytes, tags: list[Tag]) -> bytes:
    """Returns a text with spaces in place of the tags."""
    for tag in tags:
        text = text[: tag.start] + b" " * (tag.end - tag.start) + text[tag.end :]
    return text


def closing_tag(tags: list[Tag], opening: int) -> Tag | None:
    """Returns the first later closing tag of the name, so that the tags of this name between are as many opening as closing."""
    balance = 0
    for tag in tags[opening + 1 :]:
        if tag.name != tags[opening].name:
            continue
        if not tag.is_opening and balance == 0:
            return tag
        balance += 1 if tag.is_opening else -1
    return None


def runs(name: str, ends: list[bool]) -> Iterator[Instance]:
    """Yields the runs of words up to and with one that ends a run, and a last one."""
    first = 1
    for position, is_end in enumerate(ends, start=1):
        if is_end or position == len(ends):
            yield name, first, position
            first = position + 1


def instances_of_tags(group: Group, tags: list[Tag], found: Sequence[Token]) -> Iterator[Instance]:
    """Yields the sections between tags that have words. A tag that isn't closed runs to the end of the text."""
    for place, tag in enumerate(tags):
        closing = closing_tag(tags, place)
        between = [
            position
            for position, token in enumerate(found, start=1)
            if tag.end <= token.start and (closing is None or token.end <= closing.start)
        ]
        if tag.is_opening and between:
            yield group.section_of(tag.name).name, between[0], between[-1]


def streams_at(position: int, group: Group, instances: Iterable[Instance]) -> frozenset[int]:
    """Returns the streams of a word: the fields that have it, and the main one where none of them is invisible."""
    names = {name for name, first, last in instances if first <= position <= last}
    its_fields = [(stream, field) for stream, field in enumerate(group.fields, start=1) if field.name in names]
    is_main = all(field.kind == "visible field" for _, field in its_fields)
    return frozenset([*(stream for stream, _ in its_fields), *([MAIN_STREAM] if is_main else [])])


@lru_cache(maxsize=4096)
def document(prefs: Prefs, text: str) -> Document:
    group, encoded = prefs.group, text.encode()
    tags = tags_in(group, encoded)
    found = tokens(blanked(encoded, tags).decode(), prefs.lexer)
    by_tags = frozenset(instances_of_tags(group, tags, found))
    words = []
    for position, token in enumerate(found, start=1):
        key = None if token.key in prefs.stop_keys else token.key
        words.append(Word(key, streams_at(position, group, by_tags)))
    fields = [field.name for field in group.fields]
    instances = {instance for instance in by_tags if instance[0] not in fields}
    if "sentence" in group.specials:
        instances.update(runs("sentence", [token.ends_sentence for token in found]))
    if "paragraph" in group.specials:
        instances.update(runs("paragraph", [token.ends_paragraph for token in found]))
    return Document(tuple(words), frozenset(instances))
