"""Scores: what a reduced query is worth on a document, by going over all its words."""

from __future__ import annotations

from dataclasses import dataclass
from functools import lru_cache

from documents import MAIN_STREAM, Document
from reduction import Above, AnyWord, Both, Define, Flat, Near, Phrase, Slot, Term, Weight, Within, fits
from texts import SCORE_LIMIT

Span = tuple[int, int]  # the first and the last position of an occurrence


@dataclass(frozen=True)
class Range:
    """Where a query is looked for: the words of a document in a stream, from a position to another."""

    document: Document
    stream: int
    first: int
    last: int

    def takes(self, slot: Slot, position: int) -> bool:
        if isinstance(slot, AnyWord):
            return True
        word = self.document.words[position - 1]
        if word.key is None or self.stream not in word.streams:
            return False
        key = word.key
        return key in slot.keys or any(fits(pattern, key) for pattern in slot.patterns)

    def starts(self, phrase: Phrase) -> list[int]:
        """Returns the positions at which a phrase begins, in rising order."""
        starts = range(self.first, self.last - len(phrase) + 2)
        return [start for start in starts if all(self.takes(slot, start + place) for place, slot in enumerate(phrase))]

    def spans(self, term: Term) -> list[Span]:
        """Returns the occurrences of the phrases of a term, each once, in the order of their starts."""
        return sorted({(start, start + len(phrase) - 1) for phrase in term.phrases for start in self.starts(phrase)})


def score(flat: Flat | None, document: Document) -> int:
    """Returns the score of a document, which is 0 where the query is nothing."""
    return 0 if flat is None else score_in(flat, Range(document, MAIN_STREAM, 1, len(document.words)))


def score_in(flat: Flat, where: Range) -> int:
    if isinstance(flat, Term):
        return max(min(SCORE_LIMIT, len(where.starts(phrase))) for phrase in flat.phrases)
    if isinstance(flat, Both):
        return score_of_both(flat, where)
    if isinstance(flat, Weight):
        return min(SCORE_LIMIT, -(-score_in(flat.inner, where) * flat.tenths // 10))
    if isinstance(flat, Above):
        inner = score_in(flat.inner, where)
        return inner if inner > flat.number else 0
    if isinstance(flat, Near):
        return SCORE_LIMIT if is_near(flat, where) else 0
    if isinstance(flat, Within):
        return score_within(flat, where)
    return score_by_sum(flat, where)


def score_of_both(flat: Both, where: Range) -> int:
    left, right = score_in(flat.left, where), score_in(flat.right, where)
    if flat.operator == "NOT":
        return left if right == 0 else 0
    if flat.operator == "MINUS":
        return max(0, left - right)
    return min(left, right) if flat.operator == "AND" else max(left, right)


def is_near(flat: Near, where: Range) -> bool:
    """Returns whether an occurrence of each operand can be chosen, from some position on, that ends within the span behind it."""
    spans = [where.spans(operand) for operand in flat.operands]
    return any(is_near_from(first, flat, spans) for first in range(where.first, where.last + 1))


def is_near_from(first: int, flat: Near, spans: list[list[Span]]) -> bool:
    before = first - 1
    for its_spans in spans:
        starts = [start for start, end in its_spans if start > before and end <= first + flat.span]
        if not starts:
            return False
        if flat.is_ordered:
            before = starts[0]
    return True


@lru_cache(maxsize=4096)  # of WITHIN in WITHIN the inner one is asked for over one range by each instance around it
def score_within(flat: Within, where: Range) -> int:
    """Returns the score in a field's stream, or the greatest one in an instance of a section."""
    if flat.stream is not None:
        return score_in(flat.inner, Range(where.document, flat.stream, where.first, where.last))
    instances = [(first, last) for name, first, last in where.document.instances if name == flat.section]
    inside = [(first, last) for first, last in instances if where.first <= first and last <= where.last]
    return max((score_in(flat.inner, Range(where.document, where.stream, *instance)) for instance in inside), default=0)


def score_by_sum(flat: Define, where: Range) -> int:
    count = len(where.spans(flat.operand))
    if count == 0:
        return 0
    values: list[int] = []
    for step in flat.steps:
        if step == "DISCRETE" or step == "OCCURRENCE" or isinstance(step, int):
            values.append(SCORE_LIMIT if step == "DISCRETE" else min(SCORE_LIMIT, count) if step == "OCCURRENCE" else step)
            continue
        right, left = values.pop(), values.pop()
        values.append(left + right if step == "+" else left - right if step == "-" else left * right)
    return max(1, min(SCORE_LIMIT, values[0]))
