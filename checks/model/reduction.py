"""Reduction: what a query text is to an index, by its lexer, its stopwords, its sections and the thesauri; or its first fault."""

from __future__ import annotations

from collections.abc import Iterable, Iterator, Mapping
from dataclasses import dataclass, field
from functools import lru_cache
from typing import Literal

import queries
from documents import MAIN_STREAM, Prefs
from queries import Bit, Expansion, Fault, Joined, Leaf, Query, Scored, Step, Weighted, Wildcard, Word, read
from texts import key_of, tokens
from thesauri import EXPANSION_LIMIT, Thesaurus, expansion, term_of

# What queries may have that is read, and is searched only where it is built (`model.BUILT`). The last two are told by the reduced query
# alone: that there are several words to search for, or a weight or threshold; and that words are to stand side by side.
SEARCHES = frozenset({"WILDCARDS", "THESAURI", "DEFINESCORE", "NEAR", "WITHIN", "OPERATORS", "PHRASES"})


class NotSearched(Exception):
    """A query text can't be searched for."""

    def __init__(self, number: int, text: str) -> None:
        super().__init__(text)
        self.number = number
        self.text = text


@dataclass(frozen=True)
class Context:
    """What a query is reduced by: what an index has copied, and the thesauri that there are."""

    prefs: Prefs = Prefs()
    thesauri: Mapping[str, Thesaurus] = field(default_factory=dict)


# Reduced queries

Pattern = tuple[Bit, ...]


@dataclass(frozen=True)
class Takes:
    """A slot that takes a word with one of these keys, or with a key that fits one of these patterns."""

    keys: frozenset[str]
    patterns: tuple[Pattern, ...]


@dataclass(frozen=True)
class AnyWord:
    """A slot that takes any word."""


Slot = Takes | AnyWord
Phrase = tuple[Slot, ...]


@dataclass(frozen=True)
class Term:
    phrases: tuple[Phrase, ...]


@dataclass(frozen=True)
class Both:
    operator: Literal["OR", "AND", "NOT", "MINUS"]
    left: Flat
    right: Flat


@dataclass(frozen=True)
class Weight:
    tenths: int
    inner: Flat


@dataclass(frozen=True)
class Above:
    number: int
    inner: Flat


@dataclass(frozen=True)
class Near:
    operands: tuple[Term, ...]
    span: int
    is_ordered: bool


@dataclass(frozen=True)
class Within:
    """What is to stand in one instance of a section, or in the stream of a field."""

    section: str | None
    stream: int | None
    inner: Flat


@dataclass(frozen=True)
class Define:
    operand: Term
    steps: tuple[Step, ...]


Flat = Term | Both | Weight | Above | Near | Within | Define


# Words


def pattern_of(word: Word, prefs: Prefs) -> Pattern:
    """Returns the pattern of a word with wildcards: its texts are keyed each by itself, and left out where they have no key."""
    keyed = []
    for bit in word.bits:
        if isinstance(bit, Wildcard):
            keyed.append(bit)
            continue
        key = key_of("".join(char for char in bit if char not in prefs.lexer.skipjoins), prefs.lexer)
        keyed += [key] if key else []
    return tuple(keyed)


def fits(pattern: Pattern, key: str) -> bool:
    """Returns whether a key is of a pattern. Each bit leads from the places where the ones before it may end to those of its own."""
    ends = {0}
    for bit in pattern:
        if bit is Wildcard.MANY:
            ends = {end for start in ends for end in range(start, len(key) + 1)}
        elif bit is Wildcard.ONE:
            ends = {start + 1 for start in ends if start < len(key)}
        else:
            ends = {start + len(bit) for start in ends if key.startswith(bit, start)}
    return len(key) in ends


def slots_of_text(text: str, prefs: Prefs) -> list[Slot]:
    """Returns a slot for each token of a text. That of a stopword takes any word."""
    keys = [token.key for token in tokens(text, prefs.lexer)]
    return [AnyWord() if key in prefs.stop_keys else Takes(frozenset([key]), ()) for key in keys]


def slots_of_word(word: Word, prefs: Prefs) -> list[Slot]:
    """Returns a slot for each token of a word, or one with the pattern of a word with wildcards."""
    return [Takes(frozenset(), (pattern_of(word, prefs),))] if word.has_wildcard else slots_of_text(word.text, prefs)


def slot_of_words(words: Iterable[Word], prefs: Prefs) -> Slot:
    """Returns the slot of words of which one is to stand there. Each without wildcards has to be one token."""
    keys, patterns = set(), []
    for word in words:
        if word.has_wildcard:
            patterns.append(pattern_of(word, prefs))
            continue
        its_tokens = tokens(word.text, prefs.lexer)
        if len(its_tokens) != 1:
            raise NotSearched(29, f"not one word at {word.place}")
        keys.add(its_tokens[0].key)
    keys -= prefs.stop_keys
    return Takes(frozenset(keys), tuple(patterns)) if keys or patterns else AnyWord()


def trimmed(slots: list[Slot]) -> Phrase:
    """Returns the slots of a phrase, from the first to the last one that doesn't take any word."""
    told = [place for place, slot in enumerate(slots) if isinstance(slot, Takes)]
    return tuple(slots[told[0] : told[-1] + 1]) if told else ()


def terms_of(leaf: Expansion, thesauri: Mapping[str, Thesaurus]) -> list[str]:
    """Returns the terms that a thesaurus has for one, none where the words are none: they are empty or too long."""
    thesaurus = thesauri.get(leaf.thesaurus)
    if thesaurus is None:
        raise NotSearched(25, f"unknown thesaurus {leaf.thesaurus}")
    term = term_of(" ".join(word.text for word in leaf.words))
    terms = [] if term is None else expansion(thesaurus, leaf.relation, term, leaf.level)
    if len(terms) > EXPANSION_LIMIT:
        raise NotSearched(28, "too many expanded terms")
    return terms


@lru_cache(maxsize=4096)  # a query may ask for the same terms again and again
def phrase_of_term(term: str, prefs: Prefs) -> Phrase:
    return trimmed(slots_of_text(term, prefs))


def phrases_of(leaf: Leaf, context: Context) -> list[Phrase]:
    """Returns a phrase, or those of the terms that a thesaurus has for one, each of its tokens."""
    if isinstance(leaf, Expansion):
        return [phrase_of_term(term, context.prefs) for term in terms_of(leaf, context.thesauri)]
    slots: list[Slot] = []
    for words in leaf.slots:
        slots += slots_of_word(words[0], context.prefs) if len(words) == 1 else [slot_of_words(words, context.prefs)]
    return [trimmed(slots)]


def term_of_leaves(its_leaves: Iterable[Leaf], context: Context) -> Term | None:
    """Returns the term of several phrases, those without slots left out, or None where none is left."""
    kept = tuple(phrase for leaf in its_leaves for phrase in phrases_of(leaf, context) if phrase)
    return Term(kept) if kept else None


# Queries


def reduced(query: Query, context: Context) -> Flat | None:
    """Returns what a query is in this context, or None where it finds nothing."""
    return reduced_within(query, context, is_inside=False)


def reduced_within(query: Query, context: Context, is_inside: bool) -> Flat | None:
    """Reduces a query, which stands inside a WITHIN or doesn't. Its parts are looked at in the order of the text."""
    if isinstance(query, Joined):
        return joined(query, context, is_inside)
    if isinstance(query, queries.Near):
        return near(query, context)
    if isinstance(query, Scored):
        term = term_of_leaves(query.operand, context)
        return None if term is None else Define(term, query.steps)
    if isinstance(query, queries.Within):
        inner = reduced_within(query.inner, context, is_inside=True)
        return within(query.section, inner, context.prefs, is_inside)
    if isinstance(query, (Weighted, queries.Above)):
        inner = reduced_within(query.inner, context, is_inside)
        if inner is None:
            return None
        return Weight(query.tenths, inner) if isinstance(query, Weighted) else Above(query.number, inner)
    return term_of_leaves([query], context)


def joined(query: Joined, context: Context, is_inside: bool) -> Flat | None:
    left = reduced_within(query.left, context, is_inside)
    right = reduced_within(query.right, context, is_inside)
    if left is not None and right is not None:
        return Both(query.operator, left, right)
    return right if left is None and query.operator in ("OR", "AND") else left


def near(query: queries.Near, context: Context) -> Flat | None:
    terms = [term_of_leaves(operand, context) for operand in query.operands]
    kept = tuple(term for term in terms if term is not None)
    if len(kept) > 1:
        return Near(kept, query.span, query.is_ordered)
    return kept[0] if kept else None


def within(name: str, inner: Flat | None, prefs: Prefs, is_inside: bool) -> Flat | None:
    section = prefs.group.section(name)
    if section is None and name not in prefs.group.specials:
        raise NotSearched(23, f"unknown section {name}")
    is_field = section is not None and section.kind != "zone"
    if is_field and is_inside:
        raise NotSearched(24, f"field {name} inside WITHIN")
    if inner is None:
        return None
    if is_field:
        return Within(None, MAIN_STREAM + 1 + [field.name for field in prefs.group.fields].index(name), inner)
    return Within(name, None, inner)


# What is searched


def parts(tree: Query | Flat) -> Iterator[Query | Flat]:
    """Yields a tree, and each tree in it."""
    rest = [tree]
    while rest:
        part = rest.pop()
        yield part
        rest += [getattr(part, name) for name in ("left", "right", "inner") if hasattr(part, name)]


def leaves_in(query: Query) -> Iterator[Leaf]:
    for part in parts(query):
        if isinstance(part, queries.Near):
            yield from (leaf for operand in part.operands for leaf in operand)
        elif isinstance(part, Scored):
            yield from part.operand
        elif isinstance(part, (queries.Phrase, Expansion)):
            yield part


def searches_of(query: Query) -> frozenset[str]:
    """Returns what a tree has that may be not built."""
    kinds = {queries.Near: "NEAR", queries.Within: "WITHIN", Scored: "DEFINESCORE"}
    found = {name for part in parts(query) for kind, name in kinds.items() if isinstance(part, kind)}
    for leaf in leaves_in(query):
        if isinstance(leaf, Expansion):
            found.add("THESAURI")
        elif any(word.has_wildcard for words in leaf.slots for word in words):
            found.add("WILDCARDS")
    return frozenset(found)


def terms_in(flat: Flat) -> Iterator[Term]:
    for part in parts(flat):
        if isinstance(part, Near):
            yield from part.operands
        elif isinstance(part, Define):
            yield part.operand
        elif isinstance(part, Term):
            yield part


def takes_one(slot: Slot) -> bool:
    """Returns whether a slot takes any word, those of one key, or those of one pattern."""
    return isinstance(slot, AnyWord) or len(slot.keys) + len(slot.patterns) == 1


def searches_of_reduced(flat: Flat) -> frozenset[str]:
    """Returns what a reduced query has that may be not built. Without any of it, it is one key or pattern alone."""
    phrases = [phrase for term in terms_in(flat) for phrase in term.phrases]
    is_joined = any(isinstance(part, (Both, Weight, Above)) for part in parts(flat))
    found = {"OPERATORS"} if is_joined or not all(takes_one(slot) for phrase in phrases for slot in phrase) else set()
    return frozenset(found | {"PHRASES" for phrase in phrases if len(phrase) > 1})


FAULT_TEXTS = {
    20: "query syntax at {}",
    21: "operator not in profile at {}",
    22: "number out of range at {}",
    26: "query too large",
}


def fault_text(fault: Fault) -> str:
    return FAULT_TEXTS[fault.number].format(fault.place)


def searched(text: str, context: Context, unbuilt: frozenset[str] = frozenset()) -> Flat | None:
    """Returns the query that a text is in a context, or None where it finds nothing.

    A query with something that isn't built is refused as a whole: behind the faults of its text, and where only the reduced query has
    it, behind those of its reduction.
    """
    query = read(text)
    if isinstance(query, Fault):
        raise NotSearched(query.number, fault_text(query))
    if searches_of(query) & unbuilt:
        raise NotSearched(21, FAULT_TEXTS[21].format(1))
    flat = reduced(query, context)
    if flat is not None and searches_of_reduced(flat) & unbuilt:
        raise NotSearched(21, FAULT_TEXTS[21].format(1))
    return flat
