"""Calls of procedures: which refusals of each hold, and what it does and replies where none does."""

from __future__ import annotations

import re
from abc import abstractmethod
from collections.abc import Container, Mapping
from dataclasses import dataclass, replace
from typing import ClassVar

from descriptors import Count, Hits, Part, read_descriptor
from documents import Group, SectionKind
from lexemes import Beyond, is_name
from preferences import lexer_options, takes
from state import TEXT_LIMIT, State, Table
from statements import (
    BAD_VALUE,
    LIMIT_REACHED,
    NO_INDEX,
    OUT_OF_RANGE,
    TOO_LONG_VALUE,
    WAITING_KINDS,
    WRONG_VALUES,
    Contains,
    OrderItem,
    Refusals,
    Score,
    Scored,
    Statement,
    exists,
    line,
    lines_or_none,
    ordered_rows,
    printed,
    unknown,
    unknown_columns,
)
from texts import DEFAULT_OPTIONS, WHITE_SPACE, ascii_lower, ascii_upper, tokens
from thesauri import PAIR_LIMIT, Pair, has, pair_of, term_of

LIST_LIMIT = 256  # of preferences, of stoplists, of section groups, of index sets and of thesauri
STOPWORD_LIMIT = 4096
STOPWORD_SIZE = 64
ZONE_LIMIT = 64
FIELD_LIMIT = 64
TAG_LIMIT = 256
SPECIALS = ("sentence", "paragraph")
SUB_INDEX_LIMIT = 16
SUB_COLUMN_LIMIT = 3
TERM_LIMIT = 1_000_000  # how many terms a call of OPTIMIZE_INDEX may be asked to handle

DONE = "PL/SQL procedure successfully completed.\n"

Argument = str | int | Beyond | bool


@dataclass(frozen=True)
class Call(Statement):
    """A call of a procedure. Its names are the texts at their places that are spelt as names, however many arguments there are."""

    arguments: tuple[Argument, ...]
    takes_room = True

    def text(self, place: int) -> str | None:
        """Returns the argument at a place, counted from 0, where it is a text."""
        argument = self.arguments[place] if place < len(self.arguments) else None
        return argument if isinstance(argument, str) else None

    def name(self, place: int) -> str | None:
        """Returns the name at a place in lower case, where one stands there."""
        text = self.text(place)
        return text.lower() if text is not None and is_name(text) else None

    def has_texts(self, *counts: int) -> bool:
        """Returns whether the arguments are all texts, and so many of them."""
        return len(self.arguments) in counts and all(isinstance(argument, str) for argument in self.arguments)

    def unknown_name(self, place: int, there: Container[str]) -> Refusals:
        name = self.name(place)
        if name is not None and name not in there:
            yield unknown(name)


class Create(Call):
    """Makes something that has a name, and a type where there are several."""

    types: ClassVar[tuple[str, ...]] = ()
    counts: ClassVar[tuple[int, ...]] = (2,)  # of arguments

    @abstractmethod
    def there(self, state: State) -> Mapping[str, object]:
        """Returns what is there of its kind."""

    @property
    def type(self) -> str:
        return ascii_upper(self.text(1) or "")

    def refusals(self, state: State) -> Refusals:
        name, there = self.name(0), self.there(state)
        if name is not None and name in there:
            yield exists(name)
        if not self.has_texts(*self.counts):
            yield WRONG_VALUES
            return
        if name is None or (len(self.arguments) == 2 and self.type not in self.types):
            yield BAD_VALUE
        if len(there) >= LIST_LIMIT:
            yield LIMIT_REACHED


class CreatePreference(Create):
    types = ("BASIC_LEXER",)

    def there(self, state: State) -> Mapping[str, object]:
        return state.preferences

    def effect(self, state: State) -> str:
        state.preferences[self.name(0) or ""] = {}
        return DONE


class CreateStoplist(Create):
    types = ("BASIC_STOPLIST",)
    counts = (1, 2)

    def there(self, state: State) -> Mapping[str, object]:
        return state.stoplists

    def effect(self, state: State) -> str:
        state.stoplists[self.name(0) or ""] = frozenset()
        return DONE


class CreateSectionGroup(Create):
    types = ("BASIC_SECTION_GROUP", "NULL_SECTION_GROUP")

    def there(self, state: State) -> Mapping[str, object]:
        return state.groups

    def effect(self, state: State) -> str:
        state.groups[self.name(0) or ""] = Group(is_null=self.type == "NULL_SECTION_GROUP")
        return DONE


class CreateIndexSet(Create):
    counts = (1,)

    def there(self, state: State) -> Mapping[str, object]:
        return state.index_sets

    def effect(self, state: State) -> str:
        state.index_sets[self.name(0) or ""] = ()
        return DONE


class SetAttribute(Call):
    """Sets an attribute of a preference. Its name is kept in lower case, and its value as it is given."""

    @property
    def attribute(self) -> str:
        return ascii_lower(self.text(1) or "")

    def refusals(self, state: State) -> Refusals:
        yield from self.unknown_name(0, state.preferences)
        if not self.has_texts(3):
            yield WRONG_VALUES
        elif self.name(0) is None or not takes(self.attribute, self.text(2) or ""):
            yield BAD_VALUE

    def effect(self, state: State) -> str:
        state.preferences[self.name(0) or ""][self.attribute] = self.text(2) or ""
        return DONE


class AddStopword(Call):
    """Adds a word to a stoplist. Words are the same where their bytes are."""

    def refusals(self, state: State) -> Refusals:
        yield from self.unknown_name(0, state.stoplists)
        words, word = state.stoplists.get(self.name(0) or "", frozenset()), self.text(1)
        if word is not None and word in words:
            yield exists(printed(word))
        if not self.has_texts(2):
            yield WRONG_VALUES
            return
        if self.name(0) is None or not 1 <= len((word or "").encode()) <= STOPWORD_SIZE:
            yield BAD_VALUE
        if len(words) >= STOPWORD_LIMIT:
            yield LIMIT_REACHED

    def effect(self, state: State) -> str:
        name = self.name(0) or ""
        state.stoplists[name] |= {self.text(1) or ""}
        return DONE


class AddSection(Call):
    """Adds a tag to a section of a group, which is made where it isn't there."""

    @property
    @abstractmethod
    def kind(self) -> SectionKind:
        """Returns the kind of the section, also where the arguments are wrong."""

    @property
    def tag(self) -> str:
        return ascii_lower(self.text(2) or "")

    def are_of_their_kind(self) -> bool:
        """Returns whether there are as many arguments as there must be, each of the right kind."""
        return self.has_texts(3)

    def refusals(self, state: State) -> Refusals:
        yield from self.unknown_name(0, state.groups)
        group, name = state.groups.get(self.name(0) or "", Group()), self.name(1)
        section = group.section(name or "")
        if section is not None and section.kind != self.kind:
            yield exists(section.name)
        if self.tag in group.tags:
            yield exists(self.tag)
        if not self.are_of_their_kind():
            yield WRONG_VALUES
            return
        is_good = self.name(0) is not None and name is not None and name not in SPECIALS
        if not is_good or group.is_null or not re.fullmatch("[a-z0-9_-]{1,30}", self.tag):
            yield BAD_VALUE
        if len(group.tags) >= TAG_LIMIT or (section is None and self.has_all_sections(group)):
            yield LIMIT_REACHED

    def has_all_sections(self, group: Group) -> bool:
        """Returns whether no section of this kind can be made any more."""
        zones = len(group.sections) - len(group.fields)
        return zones >= ZONE_LIMIT if self.kind == "zone" else len(group.fields) >= FIELD_LIMIT

    def effect(self, state: State) -> str:
        group = self.name(0) or ""
        state.groups[group] = state.groups[group].with_tag(self.name(1) or "", self.kind, self.tag)
        return DONE


class AddZoneSection(AddSection):
    @property
    def kind(self) -> SectionKind:
        return "zone"


class AddFieldSection(AddSection):
    @property
    def kind(self) -> SectionKind:
        is_visible = any(argument is True for argument in self.arguments[3:4])
        return "visible field" if is_visible else "field"

    def are_of_their_kind(self) -> bool:
        is_visibility = all(isinstance(argument, bool) for argument in self.arguments[3:])
        return len(self.arguments) in (3, 4) and AddFieldSection(self.arguments[:3]).has_texts(3) and is_visibility


class AddSpecialSection(Call):
    """Makes sentences or paragraphs sections of a group, which may be null."""

    @property
    def special(self) -> str:
        return ascii_lower(self.text(1) or "")

    def refusals(self, state: State) -> Refusals:
        yield from self.unknown_name(0, state.groups)
        if self.special in state.groups.get(self.name(0) or "", Group()).specials:
            yield exists(self.special)
        if not self.has_texts(2):
            yield WRONG_VALUES
        elif self.name(0) is None or self.special not in SPECIALS:
            yield BAD_VALUE

    def effect(self, state: State) -> str:
        group = state.groups[self.name(0) or ""]
        state.groups[self.name(0) or ""] = replace(group, specials=group.specials | {self.special})
        return DONE


class AddIndex(Call):
    """Adds a sub-index to an index set. Whether a table has its columns isn't looked up, and one may stand there twice."""

    @property
    def columns(self) -> tuple[str, ...] | None:
        """Returns the columns in lower case, where the text is a list of names."""
        columns = [column.strip(WHITE_SPACE) for column in (self.text(1) or "").split(",")]
        return tuple(column.lower() for column in columns) if all(map(is_name, columns)) else None

    def refusals(self, state: State) -> Refusals:
        yield from self.unknown_name(0, state.index_sets)
        if not self.has_texts(2):
            yield WRONG_VALUES
            return
        if self.name(0) is None or self.columns is None:
            yield BAD_VALUE
        if len(self.columns or ()) > SUB_COLUMN_LIMIT or len(state.index_sets.get(self.name(0) or "", ())) >= SUB_INDEX_LIMIT:
            yield LIMIT_REACHED

    def effect(self, state: State) -> str:
        assert self.columns is not None
        state.index_sets[self.name(0) or ""] += (self.columns,)
        return DONE


class CreateThesaurus(Call):
    """Makes a thesaurus. FALSE says that case doesn't count in its terms, which is so anyway."""

    def refusals(self, state: State) -> Refusals:
        name, flags = self.name(0), self.arguments[1:]
        if name is not None and name in state.thesauri:
            yield exists(name)
        if self.text(0) is None or len(flags) > 1 or not all(isinstance(flag, bool) for flag in flags):
            yield WRONG_VALUES
            return
        if name is None or any(flags):
            yield BAD_VALUE
        if len(state.thesauri) >= LIST_LIMIT:
            yield LIMIT_REACHED

    def effect(self, state: State) -> str:
        state.thesauri[self.name(0) or ""] = frozenset()
        return DONE


class CreateRelation(Call):
    """Relates two terms. One that has a preferred term gets no second one."""

    @property
    def first(self) -> str | None:
        """Returns the first term, if there is one."""
        return term_of(self.text(1) or "")

    @property
    def pair(self) -> Pair | None:
        """Returns the pair that is to be added, where there are two terms and the relation is one."""
        second = term_of(self.text(3) or "")
        return None if self.first is None or second is None else pair_of(self.first, ascii_upper(self.text(2) or ""), second)

    def refusals(self, state: State) -> Refusals:
        yield from self.unknown_name(0, state.thesauri)
        thesaurus = state.thesauri.get(self.name(0) or "", frozenset())
        if self.has_texts(4) and self.first is not None and self.pair is not None and has(thesaurus, self.pair):
            yield exists(printed(self.first))
        if not self.has_texts(4):
            yield WRONG_VALUES
            return
        if self.name(0) is None or self.pair is None:
            yield BAD_VALUE
        if len(thesaurus) >= PAIR_LIMIT:
            yield LIMIT_REACHED

    def effect(self, state: State) -> str:
        assert self.pair is not None
        state.thesauri[self.name(0) or ""] |= {self.pair}
        return DONE


class SyncIndex(Call):
    """Takes the rows that wait into an index of the kind CONTEXT or CTXRULE. No row waits in a catalogue, which is refused."""

    def refusals(self, state: State) -> Refusals:
        yield from self.unknown_name(0, state.indexes)
        index = state.indexes.get(self.name(0) or "")
        if index is not None and index.kind not in WAITING_KINDS:
            yield NO_INDEX
        if not self.has_texts(1, 2):
            yield WRONG_VALUES
        elif self.name(0) is None or not all(re.fullmatch("[0-9]+[KMGkmg]", str(memory)) for memory in self.arguments[1:]):
            yield BAD_VALUE

    def effect(self, state: State) -> str:
        state.synchronise(state.indexes[self.name(0) or ""])
        return DONE


class OptimizeIndex(Call):
    """Puts what a CONTEXT index has stored of texts in order. No reply tells of it; FULL without a limit drops all texts that the index has lost.

    The store may weigh more after it, at each level: postings that are split anew may weigh more, and with a limit the index keeps the place
    where the call stopped.
    """

    may_lengthen = True

    @property
    def level(self) -> str:
        return ascii_upper(self.text(1) or "")

    @property
    def limit(self) -> int | Beyond | None:
        """Returns the third argument, where it is a number."""
        argument = self.arguments[2] if len(self.arguments) > 2 else None
        return None if isinstance(argument, bool | str) else argument

    def are_of_their_kind(self) -> bool:
        """Returns whether the arguments are two texts, and for any level but FAST perhaps a number."""
        texts = [argument for argument in self.arguments[:2] if isinstance(argument, str)]
        has_limit = self.limit is not None and self.level != "FAST"
        return len(texts) == 2 and len(self.arguments) == (3 if has_limit else 2)

    def refusals(self, state: State) -> Refusals:
        yield from self.unknown_name(0, state.indexes)
        index = state.indexes.get(self.name(0) or "")
        if index is not None and index.kind != "CONTEXT":
            yield NO_INDEX
        if not self.are_of_their_kind():
            yield WRONG_VALUES
            return
        if self.name(0) is None or self.level not in ("FAST", "FULL"):
            yield BAD_VALUE
        if isinstance(self.limit, Beyond) or (self.limit is not None and not 1 <= self.limit <= TERM_LIMIT):
            yield OUT_OF_RANGE

    def effect(self, state: State) -> str:
        if self.level == "FULL" and self.limit is None:
            state.indexes[self.name(0) or ""].lost.clear()
        return DONE


@dataclass(frozen=True)
class PolicyTokens(Call):
    """Shows the tokens of a text. A preference may stand before it, once these are built."""

    knows_preferences: bool = True
    takes_room = False

    @property
    def has_preference(self) -> bool:
        return self.knows_preferences and len(self.arguments) > 1

    def refusals(self, state: State) -> Refusals:
        if self.has_preference:
            yield from self.unknown_name(0, state.preferences)
        if not self.has_texts(1, 2):
            yield WRONG_VALUES
            return
        if len(str(self.arguments[-1]).encode()) > TEXT_LIMIT:
            yield TOO_LONG_VALUE
        if self.has_preference and self.name(0) is None:
            yield BAD_VALUE

    def effect(self, state: State) -> str:
        options = lexer_options(state.preferences[self.name(0) or ""]) if self.has_preference else DEFAULT_OPTIONS
        found = tokens(str(self.arguments[-1]), options)
        return lines_or_none([line([token.key, token.start, token.end - token.start]) for token in found])


class ResultSet(Call):
    """Shows what a descriptor asks for of the rows that a query of an index finds: how many there are, some of them, or how many by a value."""

    takes_room = False

    @property
    def parts(self) -> list[Part] | None:
        """Returns the parts of the descriptor, where it is of its form."""
        text = self.text(2)
        return None if text is None else read_descriptor(text)

    def columns(self) -> list[str]:
        """Returns the columns that the descriptor names, in the order of its text."""
        return [column for part in self.parts or () for column in part.columns]

    def refusals(self, state: State) -> Refusals:
        yield from self.unknown_name(0, state.indexes)
        index = state.indexes.get(self.name(0) or "")
        if index is not None:
            table = state.tables[index.table]
            yield from unknown_columns(table, self.columns())
            if index.kind != "CONTEXT":
                yield NO_INDEX
            if any(column.sort == "CLOB" for column in table.columns if column.name in self.columns()):
                yield WRONG_VALUES
        if not self.has_texts(3):
            yield WRONG_VALUES
            return
        if self.name(0) is None or self.parts is None:
            yield BAD_VALUE
        if any(part.is_out_of_range for part in self.parts or () if isinstance(part, Hits)):
            yield OUT_OF_RANGE
        if index is not None:
            yield from self.contains().refusals(state, index)

    def contains(self) -> Contains:
        return Contains("", self.text(1) or "", None, 0, frozenset())

    def lines(self, part: Part, table: Table, found: list[Scored]) -> list[str]:
        """Returns what a part shows of all rows that are found, which come in order of key."""
        if isinstance(part, Count):
            return [f"count={len(found)}\n"]
        if isinstance(part, Hits):
            keys = [OrderItem(key.column or Score(1), key.is_descending) for key in part.keys]
            chosen = ordered_rows(table, found, keys)[part.first - 1 : part.last]
            return [line(["hit", key, score]) for key, score in chosen]
        place = table.names.index(part.column)
        values = [table.rows[key][place] for key, _ in found]
        return [line(["group", value, values.count(value)]) for value in sorted(set(values))]

    def effect(self, state: State) -> str:
        index = state.indexes[self.name(0) or ""]
        found = self.contains().found(state, index)
        return lines_or_none([it for part in self.parts or () for it in self.lines(part, state.tables[index.table], found)])
