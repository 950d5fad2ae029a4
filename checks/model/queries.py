"""Query texts: how they are cut, and the tree of each, or its fault with the place.

Which lexeme is the first that is wrong is found by keeping all ways in which the lexemes so far may be read; the tree of a text
without a fault is then read from left to right.
"""

from __future__ import annotations

import re
import sys
from collections import deque
from collections.abc import Callable, Iterator, Sequence
from dataclasses import dataclass
from enum import Enum
from functools import lru_cache
from typing import Literal

from lexemes import is_name
from texts import WHITE_SPACE, ascii_lower, ascii_upper

BYTE_LIMIT = 4000
LEXEME_LIMIT = 1024
OPEN_LIMIT = 32
OPERAND_LIMIT = 16  # of a nearness
OPERATOR_LIMIT = 8  # of a sum
DEFAULT_SPAN = 100
DEFAULT_LEVEL = 1
DEFAULT_THESAURUS = "default"

sys.setrecursionlimit(10_000)  # a tree is as deep as a chain of operators is long, which may be over 500 of them

# Lexemes

SIGNS = {"&": "AND", "|": "OR", "~": "NOT", "-": "MINUS", "=": "EQUIV", ";": "NEAR", "*": "*", ">": ">", "(": "(", ")": ")", ",": ","}
REFUSED_SIGNS = "[]?!$"
OPERATORS = ("AND", "OR", "NOT", "MINUS", "EQUIV", "NEAR", "WITHIN")
FUNCTIONS = ("DEFINESCORE", "SYN", "PT", "BT", "NT")  # where a ( stands behind
REFUSED_OPERATOR = "ACCUM"
REFUSED_FUNCTIONS = (
    *("ABOUT", "FUZZY", "HASPATH", "INPATH", "MDATA", "SDATA", "NDATA", "SQE", "RT", "TT", "TR", "TRSYN"),
    *("BTG", "BTP", "BTI", "NTG", "NTP", "NTI"),
)
UNSCORED = ("COMPLETION", "IGNORE", "RELEVANCE")  # the words that a sum refuses by a cause of their own

PLAIN = rf"[^{WHITE_SPACE}{{}}\\{re.escape(''.join(SIGNS) + REFUSED_SIGNS)}]"
BRACED = r"\{(?:[^}]|\}\})*+\}"
LEXEME = re.compile(rf"(?P<blank>[{WHITE_SPACE}]+)|(?P<word>(?:{PLAIN}|\\.|{BRACED})+)|(?P<sign>.)", re.DOTALL)
PIECE = re.compile(rf"(?P<plain>{PLAIN})|\\(?P<escaped>.)|(?P<braced>{BRACED})", re.DOTALL)


class Wildcard(Enum):
    ONE = "_"  # any one character
    MANY = "%"  # any characters, or none


Bit = str | Wildcard


@dataclass(frozen=True)
class Word:
    place: int  # of its first byte in the text, from 1 on
    bits: tuple[Bit, ...]  # of which no two texts stand side by side, and none is empty

    @property
    def has_wildcard(self) -> bool:
        return any(isinstance(bit, Wildcard) for bit in self.bits)

    @property
    def text(self) -> str:
        """Returns the text of a word without wildcards."""
        return "".join(bit for bit in self.bits if isinstance(bit, str))


@dataclass(frozen=True)
class Lexeme:
    kind: str  # an operator, a sign, a function, or one of word, refused and bad
    place: int  # of its first byte in the text, from 1 on
    spelling: str

    @property
    def is_plain(self) -> bool:
        """Returns whether it is a word of plain characters alone."""
        return self.kind == "word" and is_plain(self.spelling)

    @property
    def word(self) -> Word:
        return Word(self.place, bits_of(self.spelling))

    def is_fixed(self, *words: str) -> bool:
        """Returns whether it is one of these words, in any case."""
        return self.is_plain and ascii_upper(self.spelling) in words


def is_plain(spelling: str) -> bool:
    return re.fullmatch(f"{PLAIN}+", spelling) is not None


def bits_of(spelling: str) -> tuple[Bit, ...]:
    bits: list[Bit] = []
    for piece in PIECE.finditer(spelling):
        if piece["plain"] in ("_", "%"):
            bits.append(Wildcard(piece["plain"]))
            continue
        literal = piece["plain"] or piece["escaped"] or piece["braced"][1:-1].replace("}}", "}")
        before = bits.pop() if bits and isinstance(bits[-1], str) else ""
        bits += [f"{before}{literal}"] if before or literal else []
    return tuple(bits)


def kind_of(spelling: str, is_word: bool, after: str) -> str:
    """Returns the kind of a lexeme with this one after it."""
    if not is_word:
        return SIGNS.get(spelling) or ("refused" if spelling in REFUSED_SIGNS else "bad")
    upper = ascii_upper(spelling) if is_plain(spelling) else ""
    if upper in OPERATORS or after == "(" and upper in FUNCTIONS:
        return upper
    return "refused" if upper == REFUSED_OPERATOR or after == "(" and upper in REFUSED_FUNCTIONS else "word"


def lexemes_of(text: str) -> list[Lexeme]:
    """Returns the lexemes of a text. What begins none is a bad lexeme of one character."""
    found = [match for match in LEXEME.finditer(text) if match.lastgroup != "blank"]
    afters = [*(match[0] for match in found[1:]), ""]
    return [
        Lexeme(kind_of(match[0], match.lastgroup == "word", after), len(text[: match.start()].encode()) + 1, match[0])
        for match, after in zip(found, afters)
    ]


def deepest(lexemes: Sequence[Lexeme]) -> int:
    """Returns how many parentheses are open at most. One that closes none is passed over."""
    depths = [0]
    for lexeme in lexemes:
        depths.append(max(0, depths[-1] + (lexeme.kind == "(") - (lexeme.kind == ")")))
    return max(depths)


# The grammar

Grammar = dict[str, list[tuple[str, ...]]]


def whole_in(low: int, high: int, lexeme: Lexeme) -> bool:
    return re.fullmatch("[0-9]+", lexeme.spelling) is not None and low <= int(lexeme.spelling.lstrip("0")[:5] or "0") <= high


def tenths(spelling: str) -> int | None:
    """Returns a number with at most one digit behind its point, in tenths."""
    match = re.fullmatch(r"([0-9]+)|([0-9]*)\.([0-9])", spelling)
    if match is None:
        return None
    digits = match[1] + "0" if match[1] else match[2] + match[3]
    return int(digits.lstrip("0")[:5] or "0")


# what is said of single lexemes, beside their kinds
TERMINALS: dict[str, Callable[[Lexeme], bool]] = {
    "a word": lambda it: it.kind == "word",
    "a literal word": lambda it: it.kind == "word" and not it.word.has_wildcard,
    "a name": lambda it: it.is_plain and is_name(it.spelling),
    "tenths": lambda it: it.is_plain and 1 <= (tenths(it.spelling) or 0) <= 100,
    "a threshold or span": lambda it: it.is_plain and whole_in(0, 100, it),
    "a level": lambda it: it.is_plain and whole_in(1, 99, it),
    "a number of a sum": lambda it: it.is_plain and whole_in(0, 1000, it),
    "TRUE or FALSE": lambda it: it.is_fixed("TRUE", "FALSE"),
    "DISCRETE or OCCURRENCE": lambda it: it.is_fixed("DISCRETE", "OCCURRENCE"),
    "plus": lambda it: it.is_fixed("+"),
    "the sign -": lambda it: it.spelling == "-",
}
NUMBERS = ("tenths", "a threshold or span", "a level", "a number of a sum")


def list_rules(head: str, item: str, separator: str) -> list[tuple[str, ...]]:
    return [(item,), (head, separator, item)]


def counted_list_rules(name: str, item: str, separator: str, limit: int) -> Grammar:
    """Returns the rules of lists of so many items, each number with a head of its own."""
    rules: Grammar = {f"{name} 1": [(item,)]}
    return rules | {f"{name} {count}": [(f"{name} {count - 1}", separator, item)] for count in range(2, limit + 1)}


def sum_rules(limit: int) -> Grammar:
    """Returns the rules of sums of so many operators, each number with heads of its own."""
    rules: Grammar = {}
    for count in range(limit + 1):
        sides = [(left, count - 1 - left) for left in range(count)]
        added = [(f"sum {left}", sign, f"product {right}") for left, right in sides for sign in ("plus", "the sign -")]
        rules[f"sum {count}"] = [(f"product {count}",), *added]
        rules[f"product {count}"] = [(f"atom {count}",), *((f"product {left}", "*", f"atom {right}") for left, right in sides)]
        numbers = [("a number of a sum",), ("DISCRETE or OCCURRENCE",)] if count == 0 else []
        rules[f"atom {count}"] = [*numbers, ("(", f"sum {count}", ")")]
    return rules


def grammar(operands: int, operators: int) -> Grammar:
    """Returns the grammar with these limits on the operands of a nearness and on the operators of a sum."""
    nearness = [("NEAR", "(", "(", f"operands {count}", ")") for count in range(2, operands + 1)]
    spans = [(",", "a threshold or span"), (",", "a threshold or span", ",", "TRUE or FALSE")]
    thesaurus = [("term words",), ("term words", ",", "a name")]
    levels = [("term words", ",", "a level"), ("term words", ",", "a level", ",", "a name")]
    return {
        "query": [("or",)],
        "or": list_rules("or", "and", "OR"),
        "and": list_rules("and", "within", "AND"),
        "within": [("not",), ("within", "WITHIN", "a name")],
        "not": list_rules("not", "minus", "NOT"),
        "minus": list_rules("minus", "post", "MINUS"),
        "post": [("near",), ("post", "*", "tenths"), ("post", ">", "a threshold or span")],
        "near": [*((f"chain {count}",) for count in range(1, operands + 1)), ("(", "or", ")"), ("function",), ("define",)],
        "term": [("phrase",), ("expansion",), ("(", "terms", ")")],
        "terms": list_rules("terms", "term", "OR"),
        "phrase": [("slot",), ("phrase", "slot")],
        "slot": list_rules("slot", "a word", "EQUIV"),
        "function": [(*head, *end, ")") for head in nearness for end in [(), *spans]],
        "define": [("DEFINESCORE", "(", "terms", ",", f"sum {count}", ")") for count in range(operators + 1)],
        "expansion": [
            *((name, "(", *arguments, ")") for name in ("SYN", "PT") for arguments in thesaurus),
            *((name, "(", *arguments, ")") for name in ("BT", "NT") for arguments in [*thesaurus, *levels]),
        ],
        "term words": [("a literal word",), ("term words", "a literal word")],
        **counted_list_rules("chain", "term", "NEAR", operands),
        **counted_list_rules("operands", "terms", ",", operands),
        **sum_rules(operators),
    }


GRAMMAR = grammar(OPERAND_LIMIT, OPERATOR_LIMIT)
ONE_MORE = grammar(OPERAND_LIMIT + 1, OPERATOR_LIMIT + 1)


@dataclass(frozen=True)
class Item:
    """A rule that has been read up to a part of its body, from a lexeme on."""

    head: str
    body: tuple[str, ...]
    done: int
    start: int

    @property
    def next(self) -> str | None:
        return self.body[self.done] if self.done < len(self.body) else None

    @property
    def moved(self) -> Item:
        return Item(self.head, self.body, self.done + 1, self.start)


class Items:
    """All ways in which the lexemes before a place may be read."""

    def __init__(self, rules: Grammar, at: int, earlier: list[Items], first: list[Item]) -> None:
        self.by_next: dict[str | None, list[Item]] = {}
        known, rest = set(first), deque(first)
        while rest:
            item = rest.popleft()
            is_new = item.next not in self.by_next
            self.by_next.setdefault(item.next, []).append(item)
            found: list[Item] = []
            if item.next is None:
                found = [it.moved for it in earlier[item.start].by_next.get(item.head, [])]
            elif is_new and item.next in rules:
                found = [Item(item.next, body, 0, at) for body in rules[item.next]]
            fresh = [it for it in dict.fromkeys(found) if it not in known]
            known.update(fresh)
            rest.extend(fresh)

    def all(self) -> Iterator[Item]:
        return (item for items in self.by_next.values() for item in items)

    def behind(self, lexeme: Lexeme) -> list[Item]:
        """Returns the ways that go on with a lexeme."""
        fits = [it for it in self.by_next if it is not None and (TERMINALS[it](lexeme) if it in TERMINALS else it == lexeme.kind)]
        return [item.moved for it in fits for item in self.by_next[it]]


def ways(lexemes: Sequence[Lexeme], rules: Grammar) -> list[Items]:
    """Returns the ways of reading before each lexeme, up to the first one with which none goes on, and before the end."""
    found: list[Items] = []
    first = [Item("query", body, 0, 0) for body in rules["query"]]
    for at in range(len(lexemes) + 1):
        found.append(Items(rules, at, found, first))
        first = found[at].behind(lexemes[at]) if at < len(lexemes) else []
        if not first:
            break
    return found


def is_read(found: list[Items]) -> bool:
    """Returns whether the lexemes before the last place are a whole query by one of these ways."""
    return any(item.head == "query" for item in found[-1].by_next.get(None, []))


# Faults


@dataclass(frozen=True)
class Fault:
    number: int
    place: int | None = None  # in bytes, from 1 on


def is_in_sum(items: Items) -> bool:
    """Returns whether the next lexeme stands behind the comma of a DEFINESCORE that isn't closed yet."""
    sums = ("sum", "product", "atom")
    begun = [item for item in items.all() if item.done > 0]
    return any(item.head.split()[0] in sums or item.head == "define" and 4 <= item.done < len(item.body) for item in begun)


def number_at(lexemes: Sequence[Lexeme], found: list[Items]) -> int:
    """Returns the number of the fault at the lexeme with which none of these ways goes on: the first cause that fits."""
    at, items = len(found) - 1, found[-1]
    lexeme = lexemes[at]
    if len(ways(lexemes[: at + 1], ONE_MORE)) > len(found):
        return 22  # it is behind the last operand of a nearness, or is an operator behind the last one of a sum
    if lexeme.kind in ("refused", ",") or is_in_sum(items) and lexeme.is_fixed(*UNSCORED):
        return 21
    return 22 if lexeme.is_plain and any(it in NUMBERS for it in items.by_next) else 20


def fault_of(text: str, lexemes: Sequence[Lexeme]) -> Fault | None:
    """Returns the fault of a text, if it is no query."""
    if len(lexemes) > LEXEME_LIMIT or deepest(lexemes) > OPEN_LIMIT:
        return Fault(26)
    found = ways(lexemes, GRAMMAR)
    if len(found) <= len(lexemes):
        return Fault(number_at(lexemes, found), lexemes[len(found) - 1].place)
    return None if is_read(found) else Fault(20, len(text.encode()) + 1)


# Trees

Relation = Literal["SYN", "PT", "BT", "NT"]


@dataclass(frozen=True)
class Phrase:
    slots: tuple[tuple[Word, ...], ...]  # in each the words of which one is to stand there


@dataclass(frozen=True)
class Expansion:
    """The terms that a thesaurus has for one."""

    relation: Relation
    words: tuple[Word, ...]
    level: int
    thesaurus: str


Leaf = Phrase | Expansion


@dataclass(frozen=True)
class Joined:
    operator: Literal["OR", "AND", "NOT", "MINUS"]
    left: Query
    right: Query


@dataclass(frozen=True)
class Weighted:
    tenths: int
    inner: Query


@dataclass(frozen=True)
class Above:
    number: int
    inner: Query


@dataclass(frozen=True)
class Near:
    operands: tuple[tuple[Leaf, ...], ...]  # of each its phrases
    span: int
    is_ordered: bool


@dataclass(frozen=True)
class Within:
    section: str
    inner: Query


Step = int | Literal["DISCRETE", "OCCURRENCE", "+", "-", "*"]


@dataclass(frozen=True)
class Scored:
    operand: tuple[Leaf, ...]
    steps: tuple[Step, ...]  # the sum, each operator behind its two sides


Query = Phrase | Expansion | Joined | Weighted | Above | Near | Within | Scored


def leaves(query: Query) -> tuple[Leaf, ...]:
    """Returns the phrases of what is an operand of a nearness or of a sum."""
    if isinstance(query, Joined):
        return (*leaves(query.left), *leaves(query.right))
    assert isinstance(query, (Phrase, Expansion))
    return (query,)


class Reader:
    """Reads the tree of lexemes that are a query."""

    def __init__(self, lexemes: Sequence[Lexeme]) -> None:
        self.rest = deque(lexemes)

    def is_at(self, *kinds: str) -> bool:
        return bool(self.rest) and self.rest[0].kind in kinds

    def takes(self, kind: str) -> bool:
        is_next = self.is_at(kind)
        if is_next:
            self.rest.popleft()
        return is_next

    def spelling(self) -> str:
        return self.rest.popleft().spelling

    def name(self) -> str:
        return ascii_lower(self.spelling())

    def joined(self, level: int = 0) -> Query:
        """Returns a query of operators that bind as tightly as this level does, or more."""
        operators: tuple[Literal["OR", "AND", "NOT", "MINUS"], ...] = ("OR", "AND", "NOT", "MINUS")
        if level == len(operators):
            return self.changed()
        query = self.joined_or_within(level + 1)
        while self.takes(operators[level]):
            query = Joined(operators[level], query, self.joined_or_within(level + 1))
        return query

    def joined_or_within(self, level: int) -> Query:
        query = self.joined(level)
        while level == 2 and self.takes("WITHIN"):
            query = Within(self.name(), query)
        return query

    def changed(self) -> Query:
        """Returns a query with its weights and thresholds."""
        query = self.near()
        while self.is_at("*", ">"):
            if self.takes("*"):
                query = Weighted(tenths(self.spelling()) or 0, query)
            else:
                self.takes(">")
                query = Above(int(self.spelling()), query)
        return query

    def near(self) -> Query:
        if self.takes("NEAR"):
            return self.near_function()
        if self.takes("DEFINESCORE"):
            return self.scored()
        query = self.single()
        if not self.is_at("NEAR"):
            return query
        operands = [leaves(query)]
        while self.takes("NEAR"):
            operands.append(leaves(self.single()))
        return Near(tuple(operands), DEFAULT_SPAN, is_ordered=False)

    def single(self) -> Query:
        if self.takes("("):
            query = self.joined()
            self.takes(")")
            return query
        return self.expansion() if self.is_at("SYN", "PT", "BT", "NT") else self.phrase()

    def phrase(self) -> Phrase:
        slots = []
        while self.is_at("word"):
            words = [self.rest.popleft().word]
            while self.takes("EQUIV"):
                words.append(self.rest.popleft().word)
            slots.append(tuple(words))
        return Phrase(tuple(slots))

    def expansion(self) -> Expansion:
        relation = self.rest.popleft().kind
        assert relation in ("SYN", "PT", "BT", "NT") and self.takes("(")
        words = []
        while self.is_at("word"):
            words.append(self.rest.popleft().word)
        arguments = []
        while self.takes(","):
            arguments.append(self.name())
        self.takes(")")
        level = int(arguments.pop(0)) if arguments and arguments[0].isdigit() else DEFAULT_LEVEL
        return Expansion(relation, tuple(words), level, arguments[0] if arguments else DEFAULT_THESAURUS)

    def near_function(self) -> Near:
        self.takes("(")
        self.takes("(")
        operands = [leaves(self.joined())]
        while self.takes(","):
            operands.append(leaves(self.joined()))
        self.takes(")")
        span = int(self.spelling()) if self.takes(",") else DEFAULT_SPAN
        is_ordered = self.takes(",") and ascii_upper(self.spelling()) == "TRUE"
        self.takes(")")
        return Near(tuple(operands), span, is_ordered)

    def scored(self) -> Scored:
        self.takes("(")
        operand = leaves(self.joined())
        self.takes(",")
        steps = self.sum()
        self.takes(")")
        return Scored(operand, tuple(steps))

    def sum(self) -> list[Step]:
        steps = self.product()
        while not self.is_at(")"):
            sign: Step = "-" if self.spelling() == "-" else "+"
            steps = [*steps, *self.product(), sign]
        return steps

    def product(self) -> list[Step]:
        steps = self.atom()
        while self.takes("*"):
            steps = [*steps, *self.atom(), "*"]
        return steps

    def atom(self) -> list[Step]:
        if self.takes("("):
            steps = self.sum()
            self.takes(")")
            return steps
        spelling = ascii_upper(self.spelling())
        return ["DISCRETE" if spelling == "DISCRETE" else "OCCURRENCE" if spelling == "OCCURRENCE" else int(spelling)]


@lru_cache(maxsize=4096)
def read(text: str) -> Query | Fault:
    """Returns the tree of a query text, or its fault."""
    if len(text.encode()) > BYTE_LIMIT:
        return Fault(26)
    lexemes = lexemes_of(text)
    fault = fault_of(text, lexemes)
    return Reader(lexemes).joined() if fault is None else fault
