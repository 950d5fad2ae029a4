"""Attributes of preferences: which values they take, and what they mean to the lexer."""

from __future__ import annotations

from collections.abc import Iterable, Mapping

from texts import DEFAULT_OPTIONS, WHITE_SPACE, LexerOptions, ascii_upper, is_word, key_of

SETS = ("printjoins", "skipjoins", "startjoins", "endjoins", "punctuations")
SINGLES = ("numjoin", "numgroup")
FLAGS = ("base_letter", "mixed_case")
WITHOUT_EFFECT = {"index_themes": "NO", "index_text": "YES"}  # each with the only value that it takes
ATTRIBUTES = (*SETS, *SINGLES, *FLAGS, *WITHOUT_EFFECT)

SET_LIMIT = 64


def takes(attribute: str, value: str) -> bool:
    """Returns whether an attribute is known and takes a value."""
    if attribute in SETS or attribute in SINGLES:
        size = SET_LIMIT if attribute in SETS else 1
        return len(value) <= size and not any(is_word(char) or char in WHITE_SPACE for char in value)
    if attribute in FLAGS:
        return ascii_upper(value) in ("YES", "NO")
    return attribute in WITHOUT_EFFECT and ascii_upper(value) == WITHOUT_EFFECT[attribute]


def lexer_options(preference: Mapping[str, str]) -> LexerOptions:
    """Returns the options by a preference's values of attributes. Those that aren't set have their defaults."""
    sets = {name: frozenset(preference[name]) for name in SETS if name in preference}
    singles = {name: preference[name] for name in SINGLES if name in preference}
    flags = {name: ascii_upper(preference[name]) == "YES" for name in FLAGS if name in preference}
    return LexerOptions(**sets, **singles, **flags)


def changed_options(options: LexerOptions) -> dict[str, str]:
    """Returns the options that differ from the defaults, each as an index keeps it: a set in order, and a flag as YES."""
    values = {name: "".join(sorted(getattr(options, name))) for name in (*SETS, *SINGLES)}
    values.update((name, "YES") for name in FLAGS)
    return {name: value for name, value in values.items() if getattr(options, name) != getattr(DEFAULT_OPTIONS, name)}


def stop_keys(stoplist: Iterable[str], options: LexerOptions) -> frozenset[str]:
    """Returns the keys of the words of a stoplist, those that are empty left out."""
    return frozenset(key_of(word, options) for word in stoplist) - {""}
