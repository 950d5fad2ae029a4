"""Words of texts: characters, keys and tokens."""

from __future__ import annotations

import unicodedata
from collections.abc import Callable
from dataclasses import dataclass
from functools import lru_cache
from itertools import accumulate
from typing import Literal

KEY_LIMIT = 255
SCORE_LIMIT = 100

# The characters with Unicode's property White_Space. (`str.isspace` takes four more.)
WHITE_SPACE = (
    "\t\n\v\f\r \x85\xa0\u1680\u2000\u2001\u2002\u2003\u2004\u2005\u2006\u2007\u2008\u2009\u200a\u2028\u2029\u202f\u205f\u3000"
)


def is_word(char: str) -> bool:
    """Returns whether it is a letter, a number, or a nonspacing or spacing mark."""
    category = unicodedata.category(char)
    return category[0] in "LN" or category in ("Mn", "Mc")


def is_digit(char: str) -> bool:
    return unicodedata.category(char) == "Nd"


@dataclass(frozen=True)
class LexerOptions:
    """How a text is cut into tokens, and which of them count as the same."""

    printjoins: frozenset[str] = frozenset()
    skipjoins: frozenset[str] = frozenset()
    startjoins: frozenset[str] = frozenset()
    endjoins: frozenset[str] = frozenset()
    punctuations: frozenset[str] = frozenset(".?!")
    numjoin: str = "."  # one character or none
    numgroup: str = ","
    base_letter: bool = False
    mixed_case: bool = False


DEFAULT_OPTIONS = LexerOptions()


def key_of(chars: str, options: LexerOptions) -> str:
    """Returns the key by which words are compared.

    It is decomposed, folded in full unless case is kept, without nonspacing marks where base letters alone count, composed, and
    cut where a character ends.
    """
    key = unicodedata.normalize("NFD", chars)
    if not options.mixed_case:
        key = key.casefold()
    if options.base_letter:
        key = "".join(char for char in key if unicodedata.category(char) != "Mn")
    return unicodedata.normalize("NFC", key).encode()[:KEY_LIMIT].decode(errors="ignore")


@dataclass(frozen=True)
class Token:
    key: str
    start: int  # the place of its first byte in the text
    end: int  # the place behind its last byte
    ends_sentence: bool
    ends_paragraph: bool


Role = Literal["core", "skip", "number", "start", "end", "out"]


def role(before: str, char: str, after: str, options: LexerOptions) -> Role:
    """Returns the role of a character between two others, which are empty at the ends of the text: the first that fits."""

    def is_core(neighbour: str) -> bool:
        return neighbour != "" and (is_word(neighbour) or neighbour in options.printjoins)

    def is_between(fits: Callable[[str], bool]) -> bool:
        return before != "" and after != "" and fits(before) and fits(after)

    if is_core(char):
        return "core"
    if char in options.skipjoins and is_between(is_core):
        return "skip"
    if char in (options.numjoin, options.numgroup) and is_between(is_digit):
        return "number"
    if char in options.startjoins and is_core(after):
        return "start"
    return "end" if char in options.endjoins and is_core(before) else "out"


def ends_sentence(after: str, options: LexerOptions) -> bool:
    """Returns whether a token ends a sentence, by the characters after it: a mark of punctuation, and a blank or nothing."""
    return after[:1] in options.punctuations and (len(after) == 1 or after[1] in WHITE_SPACE)


def ends_paragraph(after: str, options: LexerOptions) -> bool:
    """Returns whether a token ends a paragraph, by the characters after it: a mark of punctuation, a newline, and a blank."""
    return len(after) >= 3 and after[0] in options.punctuations and after[1] == "\n" and after[2] in WHITE_SPACE


@lru_cache(maxsize=4096)
def tokens(text: str, options: LexerOptions) -> tuple[Token, ...]:
    """Returns the tokens of a text: the longest runs of places that aren't out, where they have a key.

    A run is cut before each place with the role of a start, and behind each with that of an end.
    """
    roles = [role(*places, options) for places in zip(["", *text], text, [*text[1:], ""])]
    runs: list[list[int]] = []
    for at, its_role in enumerate(roles):
        if its_role == "out":
            continue
        if at == 0 or roles[at - 1] in ("out", "end") or its_role == "start":
            runs.append([])
        runs[-1].append(at)
    byte_places = [0, *accumulate(len(char.encode()) for char in text)]
    found = []
    for run in runs:
        key = key_of("".join(text[at] for at in run if roles[at] != "skip"), options)
        if key:
            end = run[-1] + 1
            after = text[end : end + 3]
            ends = (ends_sentence(after, options), ends_paragraph(after, options))
            found.append(Token(key, byte_places[run[0]], byte_places[end], *ends))
    return tuple(found)


def ascii_upper(text: str) -> str:
    return "".join(char.upper() if char.isascii() else char for char in text)


def ascii_lower(text: str) -> str:
    return "".join(char.lower() if char.isascii() else char for char in text)
