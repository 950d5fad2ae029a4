"""The state that statements lead from and to: tables with their rows, preferences, index sets, thesauri, and indexes."""

from __future__ import annotations

from collections.abc import Iterator
from dataclasses import dataclass, field, replace
from typing import Literal

from documents import Group, Prefs
from lexemes import Beyond, Whole
from reduction import Context
from rules import Outcome, outcome_of
from thesauri import Thesaurus

TEXT_LIMIT = 4000
SUB_TEXT_LIMIT = 100  # how many bytes a text in a column of a sub-index has at most

Operand = str | int | Beyond
Value = str | int
SubIndexes = tuple[tuple[str, ...], ...]  # the columns of each, in order of adding
Kind = Literal["CONTEXT", "CTXCAT", "CTXRULE"]  # of an index


@dataclass(frozen=True)
class Column:
    name: str
    sort: Literal["NUMBER", "VARCHAR2", "CLOB"]
    size: Whole = TEXT_LIMIT  # how many bytes a text has at most

    @property
    def is_text(self) -> bool:
        return self.sort != "NUMBER"

    def takes(self, operand: Operand) -> bool:
        return isinstance(operand, str) == self.is_text

    @property
    def fits_sub_index(self) -> bool:
        """Returns whether a sub-index of a catalogue may have it."""
        return not self.is_text or (self.sort == "VARCHAR2" and isinstance(self.size, int) and self.size <= SUB_TEXT_LIMIT)

    def is_too_long(self, operand: Operand) -> bool:
        return isinstance(operand, str) and isinstance(self.size, int) and len(operand.encode()) > self.size


@dataclass
class Table:
    columns: tuple[Column, ...]
    rows: dict[int, tuple[Value, ...]] = field(default_factory=dict)  # by their key, which is the first value too

    @property
    def names(self) -> list[str]:
        return [column.name for column in self.columns]

    def place(self, name: str) -> int | None:
        """Returns the place of the column of this name."""
        return self.names.index(name) if name in self.names else None

    def column(self, name: str) -> Column | None:
        return next((column for column in self.columns if column.name == name), None)


@dataclass
class Index:
    """An index. One of the kind CONTEXT or CTXRULE has the rows that are synchronised, and a catalogue always has all rows of its table."""

    kind: Kind
    table: str
    place: int  # of its column
    prefs: Prefs
    sub_indexes: SubIndexes = ()  # of a catalogue
    pending: set[int] = field(default_factory=set)  # the keys of the rows that wait; the other rows of the table are synchronised
    lost: list[str] = field(default_factory=list)  # the texts that a CONTEXT index has lost, whose postings may still be stored
    rules: dict[int, Outcome] = field(default_factory=dict)  # of an index of rules: what became of those that don't wait

    def copy(self) -> Index:
        return replace(self, pending=set(self.pending), lost=list(self.lost), rules=dict(self.rules))


@dataclass
class State:
    tables: dict[str, Table] = field(default_factory=dict)
    preferences: dict[str, dict[str, str]] = field(default_factory=dict)  # the values of attributes
    stoplists: dict[str, frozenset[str]] = field(default_factory=dict)
    groups: dict[str, Group] = field(default_factory=dict)
    index_sets: dict[str, SubIndexes] = field(default_factory=dict)
    thesauri: dict[str, Thesaurus] = field(default_factory=dict)
    indexes: dict[str, Index] = field(default_factory=dict)

    def copy(self) -> State:
        tables = {name: replace(table, rows=dict(table.rows)) for name, table in self.tables.items()}
        preferences = {name: dict(preference) for name, preference in self.preferences.items()}
        indexes = {name: index.copy() for name, index in self.indexes.items()}
        lists = dict(self.stoplists), dict(self.groups), dict(self.index_sets), dict(self.thesauri)
        return State(tables, preferences, *lists, indexes)

    def indexes_of(self, table: str, *kinds: Kind) -> list[Index]:
        """Returns the indexes on a table, of one of these kinds where some are given."""
        return [index for index in self.indexes.values() if index.table == table and (not kinds or index.kind in kinds)]

    def index_on(self, table: str, place: int | None, kind: Kind) -> Index | None:
        """Returns the index of this kind on a column, of which there is one at most."""
        return next((index for index in self.indexes_of(table, kind) if index.place == place), None)

    def synchronised_texts(self, index: Index) -> Iterator[tuple[int, str]]:
        for key, values in self.tables[index.table].rows.items():
            if key not in index.pending:
                yield key, str(values[index.place])

    def lose_document(self, index: Index, key: int) -> None:
        """Takes a row out of an index of the kind CONTEXT or CTXRULE, whether it waits or is synchronised."""
        index.rules.pop(key, None)
        if key in index.pending:
            index.pending.remove(key)
        elif index.kind == "CONTEXT":
            index.lost.append(str(self.tables[index.table].rows[key][index.place]))

    def synchronise(self, index: Index) -> None:
        """Takes the rows that wait into an index of the kind CONTEXT or CTXRULE. Rules are taken by the thesauri as they are now."""
        if index.kind == "CTXRULE":
            context = Context(index.prefs, self.thesauri)
            rows = self.tables[index.table].rows
            index.rules.update((key, outcome_of(str(rows[key][index.place]), context)) for key in index.pending)
        index.pending.clear()
