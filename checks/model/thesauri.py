"""Thesauri: terms, how they are related, and which terms an operator of a query reaches from one."""

from __future__ import annotations

import re
from typing import Literal

from texts import DEFAULT_OPTIONS, WHITE_SPACE, key_of

TERM_SIZE = 255  # bytes of a term, before it is keyed
PAIR_LIMIT = 10_000  # of one thesaurus
EXPANSION_LIMIT = 1024  # of the terms that an operator reaches

RELATIONS = ("SYN", "BT", "NT", "PT", "USE")

# Two terms: they mean the same, or the second is broader than the first, or is preferred to it.
Pair = tuple[Literal["SYN", "BT", "PT"], str, str]
Thesaurus = frozenset[Pair]


def term_of(text: str) -> str | None:
    """Returns the term that a text is, by which terms are compared; or None where the text is empty or too long.

    Runs of white space count as one blank, and are left out at the ends.
    """
    squeezed = re.sub(f"[{WHITE_SPACE}]+", " ", text).strip(" ")
    return key_of(squeezed, DEFAULT_OPTIONS) if 1 <= len(squeezed.encode()) <= TERM_SIZE else None


def pair_of(first: str, relation: str, second: str) -> Pair | None:
    """Returns the pair that a relation of two terms is, if there is such a relation.

    What is narrower than a term has that as its broader one, USE is another word for PT, and synonyms have no order.
    """
    if relation == "SYN":
        return "SYN", min(first, second), max(first, second)
    if relation == "BT":
        return "BT", first, second
    if relation == "NT":
        return "BT", second, first
    return ("PT", first, second) if relation in ("PT", "USE") else None


def preferred_to(thesaurus: Thesaurus, term: str) -> list[str]:
    """Returns the term that is preferred to this one, if any."""
    return [second for kind, first, second in thesaurus if kind == "PT" and first == term]


def has(thesaurus: Thesaurus, pair: Pair) -> bool:
    """Returns whether a pair is there, or its first term has a preferred one already."""
    kind, first, _ = pair
    return pair in thesaurus or kind == "PT" and preferred_to(thesaurus, first) != []


def steps_of(thesaurus: Thesaurus, operator: str) -> list[tuple[str, str]]:
    """Returns the pairs of terms along which an operator goes, each from the first to the second."""
    kind = "BT" if operator == "NT" else operator
    pairs = [(first, second) for its_kind, first, second in thesaurus if its_kind == kind]
    turned = [(second, first) for first, second in pairs]
    return [*pairs, *turned] if operator == "SYN" else turned if operator == "NT" else pairs


def expansion(thesaurus: Thesaurus, operator: str, term: str, level: int) -> list[str]:
    """Returns the terms that an operator has for one, each once, in the order of their bytes.

    BT and NT go so many steps, SYN as many as there are, and PT one, if there is one.
    """
    if operator == "PT":
        return preferred_to(thesaurus, term) or [term]
    steps, reached = steps_of(thesaurus, operator), {term}
    for _ in range(len(steps) if operator == "SYN" else level):
        further = {second for first, second in steps if first in reached} - reached
        if not further:
            break
        reached |= further
    return sorted(reached)
