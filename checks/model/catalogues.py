"""The texts of CATSEARCH: query texts and structured queries, each as what it asks for, or its fault with the place.

As in a query text of CONTAINS, the first lexeme that is wrong is found by keeping all ways in which the lexemes so far may be read.
What a query text asks for is a tree of words side by side (AND), `-` (NOT) and `|` (OR), as CONTAINS has them.
"""

from __future__ import annotations

import re
from collections import deque
from collections.abc import Sequence
from dataclasses import dataclass
from functools import lru_cache

import lexemes as of_statements
from conditions import COMPARISONS, Condition
from lexemes import KEYWORDS, is_name, whole
from queries import (
    BYTE_LIMIT,
    LEXEME_LIMIT,
    OPEN_LIMIT,
    Fault,
    Grammar,
    Joined,
    Lexeme,
    Phrase,
    Query,
    Wildcard,
    Word,
    deepest,
    is_read,
    list_rules,
    ways,
)
from state import Operand
from texts import WHITE_SPACE, ascii_lower, ascii_upper

LEAST = 2**63  # the least number without its sign, which no number is that has none


def place_of(text: str, at: int) -> int:
    """Returns the place of a character in bytes, from 1 on."""
    return len(text[:at].encode()) + 1


# Query texts

QUERY_LEXEME = re.compile(rf"""(?P<blank>[{WHITE_SPACE}]+)|(?P<text>"[^"]*")|(?P<word>[^{WHITE_SPACE}()|"]+)|(?P<sign>.)""", re.DOTALL)
QUERY_GRAMMAR: Grammar = {
    "query": [("or",)],
    "or": list_rules("or", "and", "OR"),
    "and": [("item",), ("and", "item"), ("and", "NOT", "item")],
    "item": [("word",), ("text",), ("(", "or", ")")],
}


def kind_of(text: str, match: re.Match[str]) -> str:
    """Returns the kind of a lexeme of a query text. A `-` is a sign where white space or an end of the text stands on both sides of it."""
    if match.lastgroup == "text":
        return "text"
    if match.lastgroup == "sign":
        return {"|": "OR", '"': "bad"}.get(match[0], match[0])
    beside = text[: match.start()][-1:] + text[match.end() :][:1]
    if match[0] == "-" and all(char in WHITE_SPACE for char in beside):
        return "NOT"
    return "bad" if match[0].startswith("*") else "word"


def lexemes_of_query(text: str) -> list[Lexeme]:
    """Returns the lexemes of a query text. A `"` that isn't closed is bad by itself."""
    found = (match for match in QUERY_LEXEME.finditer(text) if match.lastgroup != "blank")
    return [Lexeme(kind_of(text, match), place_of(text, match.start()), match[0]) for match in found]


def phrase_of(lexeme: Lexeme) -> Phrase:
    """Returns the phrase of a word, in which a `*` is any characters, or of a text between quotes, in which it is none but itself."""
    pieces = [lexeme.spelling[1:-1]] if lexeme.kind == "text" else re.split(r"(\*)", lexeme.spelling)
    bits = (Wildcard.MANY if piece == "*" and lexeme.kind == "word" else piece for piece in pieces)
    return Phrase(((Word(lexeme.place, tuple(bit for bit in bits if bit)),),))


class QueryReader:
    """Reads the tree of lexemes that are a query."""

    def __init__(self, lexemes: Sequence[Lexeme]) -> None:
        self.rest = deque(lexemes)

    def is_at(self, *kinds: str) -> bool:
        return bool(self.rest) and self.rest[0].kind in kinds

    def either(self) -> Query:
        query = self.both()
        while self.is_at("OR"):
            self.rest.popleft()
            query = Joined("OR", query, self.both())
        return query

    def both(self) -> Query:
        query = self.item()
        while self.is_at("NOT", "word", "text", "("):
            if self.is_at("NOT"):
                self.rest.popleft()
                query = Joined("NOT", query, self.item())
            else:
                query = Joined("AND", query, self.item())
        return query

    def item(self) -> Query:
        lexeme = self.rest.popleft()
        if lexeme.kind != "(":
            return phrase_of(lexeme)
        query = self.either()
        self.rest.popleft()
        return query


@lru_cache(maxsize=4096)
def read(text: str) -> Query | Fault:
    """Returns the tree of a query text, or its fault."""
    lexemes = lexemes_of_query(text)
    if len(text.encode()) > BYTE_LIMIT or len(lexemes) > LEXEME_LIMIT or deepest(lexemes) > OPEN_LIMIT:
        return Fault(26)
    found = ways(lexemes, QUERY_GRAMMAR)
    if len(found) <= len(lexemes):
        return Fault(20, lexemes[len(found) - 1].place)
    return QueryReader(lexemes).either() if is_read(found) else Fault(20, place_of(text, len(text)))


# Structured queries


@dataclass(frozen=True)
class Order:
    column: str
    is_descending: bool


@dataclass(frozen=True)
class Structured:
    """What a structured query asks for: rows that meet all conditions, in this order."""

    conditions: tuple[Condition, ...] = ()
    orders: tuple[Order, ...] = ()


STRUCTURED_GRAMMAR: Grammar = {
    "query": [("conditions",), ("order by",), ("conditions", "order by")],
    "conditions": list_rules("conditions", "condition", "AND"),
    "condition": [
        *(("name", sign, "value") for sign in COMPARISONS),
        ("name", "BETWEEN", "value", "AND", "value"),
        ("name", "IN", "(", "values", ")"),
    ],
    "values": list_rules("values", "value", ","),
    "value": [("text",), ("number",), ("-", "number"), ("-", "least")],
    "order by": [("ORDER", "BY", "orders")],
    "orders": list_rules("orders", "order", ","),
    "order": [("name",), ("name", "ASC"), ("name", "DESC")],
}


def kind_in_statement(kind: str, spelling: str) -> str:
    """Returns the kind of a lexeme as the grammar has it: that of a keyword or a sign is itself, and numbers are told by how large they are."""
    if kind == "name" and ascii_upper(spelling) in KEYWORDS:
        return ascii_upper(spelling)
    if kind == "name":
        return "name" if is_name(spelling) else "bad"
    if kind == "number":
        return "number" if isinstance(whole(spelling), int) else "least" if whole(spelling, is_negative=True) == -LEAST else "beyond"
    return spelling if kind == "sign" else kind


def lexemes_of_structured(text: str) -> list[Lexeme]:
    """Returns the lexemes of a structured query, which are those of statements, up to one that is bad."""
    found: list[Lexeme] = []
    at = 0
    while at < len(text) and not (found and found[-1].kind == "bad"):
        match = of_statements.LEXEME.match(text, at)
        if match is None:
            return [*found, Lexeme("bad", place_of(text, at), text[at])]
        if match.lastgroup != "blank":
            found.append(Lexeme(kind_in_statement(str(match.lastgroup), match[0]), place_of(text, at), match[0]))
        at = match.end()
    return found


class StructuredReader:
    """Reads what lexemes ask for that are a structured query."""

    def __init__(self, lexemes: Sequence[Lexeme]) -> None:
        self.rest = deque(lexemes)

    def takes(self, kind: str) -> bool:
        is_next = bool(self.rest) and self.rest[0].kind == kind
        if is_next:
            self.rest.popleft()
        return is_next

    def structured(self) -> Structured:
        conditions: list[Condition] = []
        orders: list[Order] = []
        if self.rest and self.rest[0].kind != "ORDER":
            conditions.append(self.condition())
            while self.takes("AND"):
                conditions.append(self.condition())
        if self.takes("ORDER"):
            self.takes("BY")
            orders.append(self.order())
            while self.takes(","):
                orders.append(self.order())
        return Structured(tuple(conditions), tuple(orders))

    def name(self) -> str:
        return ascii_lower(self.rest.popleft().spelling)

    def condition(self) -> Condition:
        column, comparison = self.name(), ascii_upper(self.rest.popleft().spelling)
        if comparison == "IN":
            self.takes("(")
            values = [self.value()]
            while self.takes(","):
                values.append(self.value())
            self.takes(")")
            return Condition(column, comparison, tuple(values))
        first = self.value()
        if comparison != "BETWEEN":
            return Condition(column, comparison, (first,))
        self.takes("AND")
        return Condition(column, comparison, (first, self.value()))

    def value(self) -> Operand:
        is_negative = self.takes("-")
        lexeme = self.rest.popleft()
        if lexeme.kind == "text":
            return lexeme.spelling[1:-1].replace("''", "'")
        return whole(lexeme.spelling, is_negative)

    def order(self) -> Order:
        column = self.name()
        is_descending = self.takes("DESC")
        self.takes("ASC")
        return Order(column, is_descending)


@lru_cache(maxsize=4096)
def read_structured(text: str) -> Structured | Fault:
    """Returns what a structured query asks for, which is nothing where it has no lexeme; or its fault.

    A number that is out of range is a fault of its own where a number may stand.
    """
    lexemes = lexemes_of_structured(text)
    if not lexemes:
        return Structured()
    found = ways(lexemes, STRUCTURED_GRAMMAR)
    if len(found) <= len(lexemes):
        lexeme = lexemes[len(found) - 1]
        is_out_of_range = lexeme.kind in ("least", "beyond") and "number" in found[-1].by_next
        return Fault(22 if is_out_of_range else 20, lexeme.place)
    return StructuredReader(lexemes).structured() if is_read(found) else Fault(20, place_of(text, len(text)))
