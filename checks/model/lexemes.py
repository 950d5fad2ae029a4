"""Scripts as statements, and statements as lexemes."""

from __future__ import annotations

import re
from dataclasses import dataclass
from typing import Literal

from texts import WHITE_SPACE

NAME_LIMIT = 30

STATEMENT_END = re.compile(rb";[ \t\r]*(?:\n|\Z)")


def cut(script: bytes) -> tuple[list[bytes], bytes]:
    """Returns the statements of a script without their `;`, and the rest after the last one.

    A statement ends at the first `;` with only spaces, tabs and carriage returns after it up to the end of its line.
    """
    statements, start = [], 0
    for end in STATEMENT_END.finditer(script):
        statements.append(script[start : end.start()])
        start = end.end()
    return statements, script[start:]


class NotUnderstood(Exception):
    """The text is no statement of what is built."""


KEYWORDS = frozenset(
    """
    AND ASC BETWEEN BY CATSEARCH CLOB COMMIT CONTAINS CONTEXT COUNT CREATE CTXCAT CTXRULE CTXSYS DELETE DESC DROP EXEC EXECUTE
    FALSE FROM IN INDEX INDEXTYPE INSERT INTO IS KEY MATCHES NULL NUMBER ON ORDER PARALLEL PARAMETERS PRIMARY SCORE SELECT SET
    TABLE TRUE UPDATE VALUES VARCHAR2 WHERE
    """.split()
)
LEXEME = re.compile(
    "|".join([
        rf"(?P<blank>[{WHITE_SPACE}]+|--[^\n]*)",
        r"(?P<text>'(?:[^']|'')*+')",
        r"(?P<number>[0-9]+)",
        r"(?P<name>[A-Za-z][A-Za-z0-9_$#]*)",
        r"(?P<sign><=|>=|[(),.*=<>-])",
    ])
)


@dataclass(frozen=True)
class Lexeme:
    kind: Literal["keyword", "name", "number", "sign", "text"]
    value: str  # a keyword in upper case, a name in lower case, a text as it is meant


def lexeme_of(kind: str, spelling: str) -> Lexeme:
    if kind == "text":
        return Lexeme("text", spelling[1:-1].replace("''", "'"))
    if kind == "name" and spelling.upper() in KEYWORDS:
        return Lexeme("keyword", spelling.upper())
    if kind == "name":
        if len(spelling) > NAME_LIMIT:
            raise NotUnderstood
        return Lexeme("name", spelling.lower())
    return Lexeme("number" if kind == "number" else "sign", spelling)


def lexemes(text: str) -> list[Lexeme]:
    """Returns the lexemes of a statement, each the longest that begins at its place."""
    found, at = [], 0
    while at < len(text):
        match = LEXEME.match(text, at)
        if match is None:
            raise NotUnderstood
        if match.lastgroup != "blank":
            found.append(lexeme_of(str(match.lastgroup), match[0]))
        at = match.end()
    return found


def is_name(text: str) -> bool:
    """Returns whether a text is spelt as a name. Keywords are, too: only a statement knows them."""
    return len(text) <= NAME_LIMIT and re.fullmatch(r"[A-Za-z][A-Za-z0-9_$#]*", text) is not None


@dataclass(frozen=True)
class Beyond:
    """A number that with its sign is outside the 64 bits of a number. All of them count as one."""


Whole = int | Beyond


def whole(digits: str, is_negative: bool = False) -> Whole:
    significant = digits.lstrip("0") or "0"
    if len(significant) > 19:
        return Beyond()
    number = -int(significant) if is_negative else int(significant)
    return number if -(2**63) <= number < 2**63 else Beyond()
