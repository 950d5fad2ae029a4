"""Rules: what becomes of the query text of a row in an index of rules, how long it is stored, and under which words it is looked up."""

from __future__ import annotations

from collections.abc import Iterable
from dataclasses import dataclass
from functools import lru_cache

from lengths import list_length, text_length
from queries import Wildcard
from reduction import Above, AnyWord, Both, Context, Define, Flat, Near, NotSearched, Pattern, Phrase, Slot, Takes, Term, Weight, Within, searched

NODE_LIMIT = 1024
BYTE_LIMIT = 2**26
SPECIALS = ("sentence", "paragraph")


@dataclass(frozen=True)
class Faulty:
    """What becomes of a rule that can't be read, reduced or stored: the text of its fault."""

    text: str


Outcome = Flat | Faulty | None  # None is a rule that is nothing


# Stored queries. A node is one byte for its kind, and what follows it; the terms of a NEAR and of a DEFINESCORE are no nodes.


def pattern_length(pattern: Pattern) -> int:
    return list_length(1 if isinstance(bit, Wildcard) else 1 + text_length(bit) for bit in pattern)


@lru_cache(maxsize=65536)
def slot_length(slot: Slot) -> int:
    if isinstance(slot, AnyWord):
        return 1
    return 1 + list_length(map(text_length, slot.keys)) + list_length(map(pattern_length, slot.patterns))


@lru_cache(maxsize=65536)
def phrase_length(phrase: Phrase) -> int:
    return list_length(map(slot_length, phrase))


def term_length(term: Term) -> int:
    return list_length(map(phrase_length, term.phrases))


def own_length(flat: Flat) -> int:
    """Returns the bytes of a node without those of the nodes in it."""
    if isinstance(flat, Term):
        return 1 + term_length(flat)
    if isinstance(flat, Both):
        return 1
    if isinstance(flat, (Weight, Above)):
        return 1 + 1
    if isinstance(flat, Near):
        return 1 + 1 + 1 + list_length(map(term_length, flat.operands))
    if isinstance(flat, Define):
        return 1 + term_length(flat.operand) + list_length(3 if isinstance(step, int) else 1 for step in flat.steps)
    if flat.section is None:
        return 1 + 1 + 1  # the number of the field's stream
    return 1 + 1 + (0 if flat.section in SPECIALS else text_length(flat.section))


def nodes_of(flat: Flat | None) -> list[Flat]:
    """Returns the nodes of a query, each before those in it; none of one that is nothing."""
    nodes: list[Flat] = []
    rest = [] if flat is None else [flat]
    while rest:
        node = rest.pop()
        nodes.append(node)
        if isinstance(node, Both):
            rest += [node.right, node.left]
        elif isinstance(node, (Weight, Above, Within)):
            rest.append(node.inner)
    return nodes


def stored_length(flat: Flat | None) -> int:
    """Returns the bytes of a stored query. One that is nothing is one byte."""
    return 1 if flat is None else sum(map(own_length, nodes_of(flat)))


# Words by which a rule is looked up

EVERYWHERE = None  # of a rule that has to be looked at for every document
Anchors = frozenset[str] | None


def united(several: Iterable[Anchors]) -> Anchors:
    found: frozenset[str] = frozenset()
    for anchors in several:
        if anchors is EVERYWHERE:
            return EVERYWHERE
        found |= anchors
    return found


def anchors_of_phrase(phrase: Phrase) -> Anchors:
    first = next(slot for slot in phrase if isinstance(slot, Takes))
    return EVERYWHERE if first.patterns else first.keys


def anchors_of(flat: Flat | None) -> Anchors:
    """Returns words of which a document has one wherever the query has a score above 0 on it."""
    if flat is None:
        return frozenset()
    if isinstance(flat, Term):
        return united(map(anchors_of_phrase, flat.phrases))
    if isinstance(flat, Near):
        return anchors_of(flat.operands[0])
    if isinstance(flat, Define):
        return anchors_of(flat.operand)
    if not isinstance(flat, Both):
        return anchors_of(flat.inner)
    left = anchors_of(flat.left)
    if flat.operator == "OR":
        return united([left, anchors_of(flat.right)])
    return anchors_of(flat.right) if flat.operator == "AND" and left is EVERYWHERE else left


# What becomes of a rule


def outcome_of(text: str, context: Context) -> Outcome:
    """Returns what becomes of the text of a rule, by the thesauri as they are now."""
    try:
        flat = searched(text, context)
    except NotSearched as fault:
        return Faulty(f"E{fault.number}: {fault.text}")
    if len(nodes_of(flat)) > NODE_LIMIT or stored_length(flat) > BYTE_LIMIT:
        return Faulty("E31: limit reached")
    return flat
