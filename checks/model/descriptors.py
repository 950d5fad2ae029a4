"""Descriptors: what CTX_QUERY.RESULT_SET is asked to show of the rows that a query finds."""

from __future__ import annotations

import re
from collections import deque
from dataclasses import dataclass

from lexemes import is_name
from texts import WHITE_SPACE, ascii_lower

PART_LIMIT = 8
HIT_LIMIT = 100_000

LEXEME = re.compile(rf"[{WHITE_SPACE}]*(?:(?P<sign>[/,])|(?P<number>[0-9]+)|(?P<word>[A-Za-z][A-Za-z0-9_$#]*))")


@dataclass(frozen=True)
class Key:
    """What hits are ordered by: a column, or the score where there is none."""

    column: str | None
    is_descending: bool


@dataclass(frozen=True)
class Count:
    @property
    def columns(self) -> tuple[str, ...]:
        return ()


@dataclass(frozen=True)
class Hits:
    """The hits from a number to another in their order, counted from 1."""

    first: int
    last: int
    keys: tuple[Key, ...] = ()

    @property
    def columns(self) -> tuple[str, ...]:
        return tuple(key.column for key in self.keys if key.column is not None)

    @property
    def is_out_of_range(self) -> bool:
        return not 1 <= self.first <= self.last <= HIT_LIMIT


@dataclass(frozen=True)
class Group:
    """How many hits there are of each value of a column."""

    column: str

    @property
    def columns(self) -> tuple[str, ...]:
        return (self.column,)


Part = Count | Hits | Group


class NoDescriptor(Exception):
    """The text isn't of the form of a descriptor."""


class Reader:
    """Reads a descriptor from left to right. Its words may be in any case, and none of them is kept from being a name."""

    def __init__(self, text: str) -> None:
        self.rest: deque[str] = deque()
        at, end = 0, len(text.rstrip(WHITE_SPACE))
        while at < end:
            match = LEXEME.match(text, at)
            if match is None:
                raise NoDescriptor
            self.rest.append(ascii_lower(match[0].lstrip(WHITE_SPACE)))
            at = match.end()

    def takes(self, *words: str) -> bool:
        """Goes past one of these words or signs, where one is next, and returns whether it was."""
        is_next = bool(self.rest) and self.rest[0] in words
        if is_next:
            self.rest.popleft()
        return is_next

    def expect(self, word: str) -> None:
        if not self.takes(word):
            raise NoDescriptor

    def parts(self) -> list[Part]:
        parts = [self.part()]
        while self.takes("/"):
            parts.append(self.part())
        if self.rest or len(parts) > PART_LIMIT:
            raise NoDescriptor
        return parts

    def part(self) -> Part:
        if self.takes("count"):
            return Count()
        if self.takes("group"):
            return Group(self.name())
        self.expect("hits")
        first = self.number()
        self.expect("to")
        last = self.number()
        if not self.takes("order"):
            return Hits(first, last)
        self.expect("by")
        keys = [self.key()]
        while self.takes(","):
            keys.append(self.key())
        return Hits(first, last, tuple(keys))

    def number(self) -> int:
        if not self.rest or not self.rest[0].isdigit():
            raise NoDescriptor
        digits = self.rest.popleft().lstrip("0")
        return int(digits or "0") if len(digits) < 20 else HIT_LIMIT + 1

    def name(self) -> str:
        if not self.rest or not is_name(self.rest[0]):
            raise NoDescriptor
        return self.rest.popleft()

    def key(self) -> Key:
        name = self.name()
        is_descending = self.takes("desc")
        if not is_descending:
            self.takes("asc")
        return Key(None if name == "score" else name, is_descending)


def read_descriptor(text: str) -> list[Part] | None:
    """Returns the parts of a descriptor in their order, or None where the text isn't of that form."""
    try:
        return Reader(text).parts()
    except NoDescriptor:
        return None
