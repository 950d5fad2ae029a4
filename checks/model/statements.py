"""Statements: which refusals of each hold, and what it does and replies where none does."""

from __future__ import annotations

import re
from abc import ABC, abstractmethod
from collections.abc import Iterable, Iterator, Sequence
from dataclasses import dataclass
from typing import ClassVar, Literal

import catalogues
from catalogues import Order, Structured, read_structured
from conditions import Condition
from documents import Group, Prefs, document
from lexemes import Beyond, Whole, is_name
from preferences import lexer_options, stop_keys
from queries import Fault
from reduction import Context, NotSearched, fault_text, reduced, searched
from rules import Faulty
from scores import score
from state import TEXT_LIMIT, Column, Index, Kind, Operand, State, SubIndexes, Table, Value
from texts import SCORE_LIMIT, WHITE_SPACE, ascii_lower, ascii_upper

TABLE_LIMIT = 64
COLUMN_LIMIT = 16
INDEX_LIMIT = 16
THREAD_LIMIT = 16  # how many threads PARALLEL may give
ROW_LIMIT = 100_000
VIEWS = ("ctx_user_pending", "ctx_user_index_errors")

# Replies


def printed(value: Value) -> str:
    """Returns a value as a line has it: what separates fields and lines is escaped in a text."""
    if isinstance(value, int):
        return str(value)
    for char, escaped in (("\\", "\\\\"), ("|", "\\|"), ("\n", "\\n"), ("\r", "\\r")):
        value = value.replace(char, escaped)
    return value


def line(fields: Iterable[Value]) -> str:
    return "|".join(map(printed, fields)) + "\n"


def lines_or_none(lines: list[str]) -> str:
    return "".join(lines) or "no rows selected\n"


def count_of(number: int, done: str) -> str:
    return f"{number} row{'' if number == 1 else 's'} {done}.\n"


# Refusals


@dataclass(frozen=True)
class Refusal:
    number: int
    text: str
    is_of_query: bool = False  # whether its cause is in the text of a query

    @property
    def reply(self) -> str:
        return f"E{self.number}: {self.text}\n"


NOT_UNDERSTOOD = Refusal(10, "statement not understood")
NO_INDEX = Refusal(27, "no index of that kind")
WRONG_VALUES = Refusal(13, "wrong type or number of values")
TOO_LONG_VALUE = Refusal(16, "value too long")
TOO_LONG_STATEMENT = Refusal(19, "statement too long")
BAD_VALUE = Refusal(30, "bad attribute or value")
OUT_OF_RANGE = Refusal(22, "number out of range")
LIMIT_REACHED = Refusal(31, "limit reached")
STORE_FULL = Refusal(80, "store full")

# The refusals of a statement that is understood, in their order: of all that hold the first one is the reply. Those of query texts
# come last, in the order in which they are looked for.
ORDER = (11, 27, 12, 13, 14, 16, 30, 22, 31)


def rank(refusal: Refusal) -> int:
    return len(ORDER) if refusal.is_of_query else ORDER.index(refusal.number)



Refusals = Iterator[Refusal]


def unknown(name: str) -> Refusal:
    return Refusal(11, f"unknown name {name}")


def exists(name: str) -> Refusal:
    return Refusal(12, f"{name} exists already")


def key_exists(key: int) -> Refusal:
    return Refusal(14, f"key {key} exists")


def unknown_columns(table: Table, names: Iterable[str]) -> Refusals:
    return (unknown(name) for name in names if table.column(name) is None)


# Statements


class Statement(ABC):
    """A statement that is understood."""

    # whether it is refused where the store has no room for what it does
    takes_room = False

    # whether the store may weigh more after it, though the least that it may weigh is the same
    may_lengthen = False

    @abstractmethod
    def refusals(self, state: State) -> Refusals:
        """Yields every refusal that holds; those of one number in the order in which their causes stand in the statement."""

    @abstractmethod
    def effect(self, state: State) -> str:
        """Changes the state, where no refusal holds, and returns the reply."""


@dataclass(frozen=True)
class CreateTable(Statement):
    name: str
    columns: tuple[Column, ...]
    is_primary: tuple[bool, ...]  # of each column
    takes_room = True

    def refusals(self, state: State) -> Refusals:
        if self.name in state.tables or self.name in VIEWS:
            yield exists(self.name)
        names = {column.name for column in self.columns}
        has_key = self.columns[0].sort == "NUMBER" and self.is_primary[0] and not any(self.is_primary[1:])
        if not has_key or len(names) < len(self.columns):
            yield WRONG_VALUES
        if any(not isinstance(column.size, int) or not 1 <= column.size <= TEXT_LIMIT for column in self.columns):
            yield OUT_OF_RANGE
        if len(self.columns) > COLUMN_LIMIT or len(state.tables) >= TABLE_LIMIT:
            yield LIMIT_REACHED

    def effect(self, state: State) -> str:
        state.tables[self.name] = Table(self.columns)
        return "Table created.\n"


@dataclass(frozen=True)
class DropTable(Statement):
    name: str

    def refusals(self, state: State) -> Refusals:
        if self.name not in state.tables:
            yield unknown(self.name)

    def effect(self, state: State) -> str:
        state.indexes = {name: index for name, index in state.indexes.items() if index.table != self.name}
        del state.tables[self.name]
        return "Table dropped.\n"


# what an index may copy: each is named in PARAMETERS by these words and a name, or by the name of the default, if there is one
PARAMETERS = {
    "LEXER": "CTXSYS.DEFAULT_LEXER",
    "STOPLIST": "CTXSYS.EMPTY_STOPLIST",
    "SECTION GROUP": "CTXSYS.NULL_SECTION_GROUP",
    "INDEX SET": None,
}
PARAMETERS_OF: dict[Kind, tuple[str, ...]] = {
    "CONTEXT": ("LEXER", "STOPLIST", "SECTION GROUP"),
    "CTXCAT": ("LEXER", "STOPLIST", "INDEX SET"),
    "CTXRULE": ("LEXER", "STOPLIST", "SECTION GROUP"),
}
WAITING_KINDS: tuple[Kind, ...] = ("CONTEXT", "CTXRULE")  # of indexes that take rows in when they are synchronised


def read_parameters(text: str, index_kind: Kind) -> dict[str, str | None] | None:
    """Returns what a text of PARAMETERS names, in its order, with None for a default; or None where it isn't of the form that this kind takes."""
    words = re.sub(f"[{WHITE_SPACE}]+", " ", text).strip(" ")
    names: dict[str, str | None] = {}
    while words:
        kind = next((it for it in PARAMETERS_OF[index_kind] if ascii_upper(words).startswith(it + " ")), None)
        if kind is None or kind in names:
            return None
        name, _, words = words[len(kind) + 1 :].partition(" ")
        is_default = ascii_upper(name) == PARAMETERS[kind]
        if not is_default and not is_name(name):
            return None
        names[kind] = None if is_default else ascii_lower(name)
    return names


@dataclass(frozen=True)
class CreateIndex(Statement):
    name: str
    table: str
    column: str
    kind: Kind
    parameters: str = ""
    parallel: Whole | None = None  # how many threads may work on it, of which no reply tells
    takes_room = True

    @property
    def names(self) -> dict[str, str | None]:
        """Returns what the parameters name. A text that isn't of its form names nothing."""
        return read_parameters(self.parameters, self.kind) or {}

    def unknown_parameters(self, state: State) -> Refusals:
        there = {"LEXER": state.preferences, "STOPLIST": state.stoplists, "SECTION GROUP": state.groups, "INDEX SET": state.index_sets}
        for kind, name in self.names.items():
            if name is not None and name not in there[kind]:
                yield unknown(name)

    def prefs(self, state: State) -> Prefs:
        """Returns a copy of the preferences that the parameters name."""
        lexer, stoplist, group = (self.names.get(kind) for kind in ("LEXER", "STOPLIST", "SECTION GROUP"))
        options = lexer_options(state.preferences[lexer] if lexer is not None else {})
        words = state.stoplists[stoplist] if stoplist is not None else ()
        return Prefs(options, stop_keys(words, options), state.groups[group] if group is not None else Group())

    def sub_indexes(self, state: State) -> SubIndexes:
        """Returns a copy of the sub-indexes of the index set that the parameters name; none where they name no set that is there."""
        return state.index_sets.get(self.names.get("INDEX SET") or "", ())

    def sub_columns(self, state: State) -> list[str]:
        return [column for columns in self.sub_indexes(state) for column in columns]

    def refusals(self, state: State) -> Refusals:
        table = state.tables.get(self.table)
        if table is None:
            yield unknown(self.table)
            return
        yield from unknown_columns(table, [self.column])
        yield from self.unknown_parameters(state)
        # the columns of the set don't stand in the statement, and so come behind the names that do
        yield from unknown_columns(table, self.sub_columns(state))
        if self.name in state.indexes or state.index_on(self.table, table.place(self.column), self.kind) is not None:
            yield exists(self.name)
        column = table.column(self.column)
        if column is not None and not column.is_text:
            yield WRONG_VALUES
        if read_parameters(self.parameters, self.kind) is None:
            yield BAD_VALUE
        if not all(column.fits_sub_index for column in map(table.column, self.sub_columns(state)) if column is not None):
            yield BAD_VALUE
        if isinstance(self.parallel, Beyond) or (self.parallel is not None and not 1 <= self.parallel <= THREAD_LIMIT):
            yield OUT_OF_RANGE
        if len(state.indexes_of(self.table)) >= INDEX_LIMIT:
            yield LIMIT_REACHED

    def effect(self, state: State) -> str:
        place = state.tables[self.table].place(self.column)
        assert place is not None
        index = Index(self.kind, self.table, place, self.prefs(state), self.sub_indexes(state))
        state.indexes[self.name] = index
        if self.kind in WAITING_KINDS:
            index.pending.update(state.tables[self.table].rows)
            state.synchronise(index)
        return "Index created.\n"


@dataclass(frozen=True)
class DropIndex(Statement):
    name: str

    def refusals(self, state: State) -> Refusals:
        if self.name not in state.indexes:
            yield unknown(self.name)

    def effect(self, state: State) -> str:
        del state.indexes[self.name]
        return "Index dropped.\n"


@dataclass(frozen=True)
class Insert(Statement):
    table: str
    columns: tuple[str, ...] | None
    values: tuple[Operand, ...]
    takes_room = True

    def row(self, table: Table) -> list[Operand] | None:
        """Returns the values in the order of the columns, or None where they aren't one for each column."""
        listed = table.names if self.columns is None else list(self.columns)
        if sorted(listed) != sorted(table.names) or len(self.values) != len(listed):
            return None
        by_name = dict(zip(listed, self.values))
        return [by_name[name] for name in table.names]

    def refusals(self, state: State) -> Refusals:
        table = state.tables.get(self.table)
        if table is None:
            yield unknown(self.table)
            return
        yield from unknown_columns(table, self.columns or ())
        row = self.row(table)
        if row is None or not all(column.takes(value) for column, value in zip(table.columns, row)):
            yield WRONG_VALUES
            return
        key = row[0]
        if isinstance(key, int) and key in table.rows:
            yield key_exists(key)
        if any(column.is_too_long(value) for column, value in zip(table.columns, row)):
            yield TOO_LONG_VALUE
        if Beyond() in row:
            yield OUT_OF_RANGE
        if len(table.rows) >= ROW_LIMIT:
            yield LIMIT_REACHED

    def effect(self, state: State) -> str:
        table = state.tables[self.table]
        row = tuple(value for value in self.row(table) or () if not isinstance(value, Beyond))
        key = row[0]
        assert isinstance(key, int)
        table.rows[key] = row
        for index in state.indexes_of(self.table, *WAITING_KINDS):
            index.pending.add(key)
        return count_of(1, "created")


def wrong_conditions(table: Table, conditions: Iterable[Condition]) -> Refusals:
    """Yields what holds of conditions beside an unknown column. A CLOB is in none."""
    for condition in conditions:
        column = table.column(condition.column)
        if column is not None and (column.sort == "CLOB" or not condition.fits(column)):
            yield WRONG_VALUES
        if condition.has_beyond:
            yield OUT_OF_RANGE


def keys_that_meet(table: Table, conditions: Iterable[Condition]) -> list[int]:
    """Returns the keys of the rows that meet all conditions, in rising order."""
    values_of = {key: dict(zip(table.names, values)) for key, values in table.rows.items()}
    return [key for key in sorted(table.rows) if all(it.holds(values_of[key][it.column]) for it in conditions)]


@dataclass(frozen=True)
class Update(Statement):
    table: str
    assigns: tuple[tuple[str, Operand], ...]
    conditions: tuple[Condition, ...]
    takes_room = True

    def refusals(self, state: State) -> Refusals:
        table = state.tables.get(self.table)
        if table is None:
            yield unknown(self.table)
            return
        names = [name for name, _ in self.assigns]
        yield from unknown_columns(table, [*names, *(condition.column for condition in self.conditions)])
        columns = [(table.column(name), value) for name, value in self.assigns]
        known = [(column, value) for column, value in columns if column is not None]
        is_twice = len(set(names)) < len(names)
        if table.columns[0].name in names or is_twice or not all(column.takes(value) for column, value in known):
            yield WRONG_VALUES
        if any(column.is_too_long(value) for column, value in known):
            yield TOO_LONG_VALUE
        if any(isinstance(value, Beyond) for _, value in self.assigns):
            yield OUT_OF_RANGE
        yield from wrong_conditions(table, self.conditions)

    def effect(self, state: State) -> str:
        table = state.tables[self.table]
        changes = {table.place(name): value for name, value in self.assigns if not isinstance(value, Beyond)}
        met = keys_that_meet(table, self.conditions)
        for key in met:
            for index in state.indexes_of(self.table, *WAITING_KINDS):
                if index.place in changes:
                    state.lose_document(index, key)
                    index.pending.add(key)
            table.rows[key] = tuple(changes.get(place, value) for place, value in enumerate(table.rows[key]))
        return count_of(len(met), "updated")


@dataclass(frozen=True)
class Delete(Statement):
    table: str
    conditions: tuple[Condition, ...]

    def refusals(self, state: State) -> Refusals:
        table = state.tables.get(self.table)
        if table is None:
            yield unknown(self.table)
            return
        yield from unknown_columns(table, (condition.column for condition in self.conditions))
        yield from wrong_conditions(table, self.conditions)

    def effect(self, state: State) -> str:
        table = state.tables[self.table]
        met = keys_that_meet(table, self.conditions)
        for key in met:
            for index in state.indexes_of(self.table, *WAITING_KINDS):
                state.lose_document(index, key)
            del table.rows[key]
        return count_of(len(met), "deleted")


@dataclass(frozen=True)
class Commit(Statement):
    def refusals(self, state: State) -> Refusals:
        yield from ()

    def effect(self, state: State) -> str:
        return "Commit complete.\n"


@dataclass(frozen=True)
class Score:
    label: Whole


Scored = tuple[int, int]  # the key of a row, and its score


@dataclass(frozen=True)
class Contains:
    kind: ClassVar[Kind] = "CONTEXT"  # of the index that it asks
    column: str
    query: str
    label: Whole | None
    above: Whole
    unbuilt: frozenset[str]  # what queries may not have yet

    def refusals(self, state: State, index: Index | None) -> Refusals:
        """Yields what holds beside an unknown column and an index that isn't there."""
        if isinstance(self.label, Beyond) or not isinstance(self.above, int) or self.above > SCORE_LIMIT:
            yield OUT_OF_RANGE
        try:
            searched(self.query, Context(Prefs() if index is None else index.prefs, state.thesauri), self.unbuilt)
        except NotSearched as fault:
            yield Refusal(fault.number, fault.text, is_of_query=True)

    def found(self, state: State, index: Index) -> list[Scored]:
        """Returns the rows that it finds, in order of key."""
        assert isinstance(self.above, int)
        query = searched(self.query, Context(index.prefs, state.thesauri), self.unbuilt)
        scores = ((key, score(query, document(index.prefs, text))) for key, text in state.synchronised_texts(index))
        return sorted((key, its_score) for key, its_score in scores if its_score > self.above)


def in_order(table: Table, keys: Iterable[int], orders: tuple[Order, ...]) -> list[int]:
    """Returns the keys of rows by these columns, the first one first, and rows of the same values by rising key."""
    ordered = sorted(keys)
    for order in reversed(orders):
        place = table.names.index(order.column)
        ordered.sort(key=lambda key: table.rows[key][place], reverse=order.is_descending)  # which leaves those of one value as they are
    return ordered


@dataclass(frozen=True)
class Catsearch:
    kind: ClassVar[Kind] = "CTXCAT"
    column: str
    query: str
    structured: str | None

    @property
    def asked(self) -> Structured | Fault:
        return read_structured(self.structured or "")

    def refusals(self, state: State, index: Index | None) -> Refusals:
        """Yields what holds beside an unknown column and an index that isn't there: of the query text, then of the structured query."""
        asked = self.asked
        for read in (catalogues.read(self.query), asked):
            if isinstance(read, Fault):
                yield Refusal(read.number, fault_text(read), is_of_query=True)
        if index is not None and isinstance(asked, Structured):
            yield from self.wrong_columns(state.tables[index.table], index, asked)

    def wrong_columns(self, table: Table, index: Index, asked: Structured) -> Refusals:
        """Yields what holds of the columns of a structured query, in the order in which they stand there."""
        sub_columns = {name for columns in index.sub_indexes for name in columns}
        for part in (*asked.conditions, *asked.orders):
            column = table.column(part.column)
            if column is None or column.name not in sub_columns:
                yield Refusal(33, f"column {part.column} in no sub-index", is_of_query=True)
            elif isinstance(part, Condition) and not part.fits(column):
                yield Refusal(WRONG_VALUES.number, WRONG_VALUES.text, is_of_query=True)

    def found(self, state: State, index: Index) -> list[Scored]:
        """Returns the rows of the table that it finds, in the order that it asks for. None has a score; in a catalogue a word stands or doesn't."""
        query, asked, table = catalogues.read(self.query), self.asked, state.tables[index.table]
        assert not isinstance(query, Fault) and isinstance(asked, Structured)
        flat = reduced(query, Context(index.prefs))
        texts = ((key, str(table.rows[key][index.place])) for key in keys_that_meet(table, asked.conditions))
        keys = [key for key, text in texts if score(flat, document(index.prefs, text)) > 0]
        return [(key, 0) for key in in_order(table, keys, asked.orders)]


@dataclass(frozen=True)
class Matches:
    kind: ClassVar[Kind] = "CTXRULE"
    column: str
    document: str

    def refusals(self, state: State, index: Index | None) -> Refusals:
        """Yields what holds beside an unknown column and an index that isn't there."""
        if len(self.document.encode()) > TEXT_LIMIT:
            yield TOO_LONG_VALUE

    def found(self, state: State, index: Index) -> list[Scored]:
        """Returns the rules that hold of the document, in order of key. None has a score."""
        its_document = document(index.prefs, self.document)
        taken = ((key, rule) for key, rule in index.rules.items() if not isinstance(rule, Faulty))
        return sorted((key, 0) for key, rule in taken if score(rule, its_document) > 0)


Search = Contains | Catsearch | Matches
Item = str | Score


@dataclass(frozen=True)
class OrderItem:
    """What a SELECT orders its rows by: a column, or the score."""

    item: Item
    is_descending: bool


def ordered_rows(table: Table, found: Iterable[Scored], orders: Sequence[OrderItem]) -> list[Scored]:
    """Returns rows by these columns and scores, the first one first, and those of the same ones by rising key."""
    ordered = sorted(found)
    for order in reversed(orders):
        item = order.item
        place = None if isinstance(item, Score) else table.names.index(item)
        # which leaves those of one value as they are
        ordered.sort(key=lambda row: row[1] if place is None else table.rows[row[0]][place], reverse=order.is_descending)
    return ordered


SelectList = Literal["*", "COUNT(*)"] | tuple[Item, ...]


@dataclass(frozen=True)
class Select(Statement):
    shown: SelectList
    table: str
    predicates: tuple[Condition | Search, ...]
    orders: tuple[OrderItem, ...] = ()

    @property
    def items(self) -> tuple[Item, ...]:
        return self.shown if isinstance(self.shown, tuple) else ()

    @property
    def conditions(self) -> list[Condition]:
        return [predicate for predicate in self.predicates if isinstance(predicate, Condition)]

    @property
    def search(self) -> Search | None:
        return next((predicate for predicate in self.predicates if not isinstance(predicate, Condition)), None)

    @property
    def scores(self) -> list[Score]:
        return [item for item in (*self.items, *self.sorted_by) if isinstance(item, Score)]

    @property
    def sorted_by(self) -> list[Item]:
        return [order.item for order in self.orders]

    def index(self, state: State) -> Index | None:
        """Returns the index that is asked, where it is there."""
        if self.search is None:
            return None
        return state.index_on(self.table, state.tables[self.table].place(self.search.column), self.search.kind)

    def refusals(self, state: State) -> Refusals:
        table = state.tables.get(self.table)
        if table is None:
            yield unknown(self.table)
            return
        names = [item for item in self.items if isinstance(item, str)]
        sorted_by = [item for item in self.sorted_by if isinstance(item, str)]
        yield from unknown_columns(table, [*names, *(predicate.column for predicate in self.predicates), *sorted_by])
        if self.search is not None and self.index(state) is None:
            yield NO_INDEX
        label = self.search.label if isinstance(self.search, Contains) else None
        if any(item.label != label for item in self.scores):
            yield WRONG_VALUES
        if any(column.sort == "CLOB" for column in table.columns if column.name in sorted_by):
            yield WRONG_VALUES
        yield from wrong_conditions(table, self.conditions)
        if self.search is not None:
            yield from self.search.refusals(state, self.index(state))

    def found(self, state: State) -> list[Scored]:
        """Returns the rows to be shown, in their order: that of the SELECT itself, where it has one."""
        found = self.met(state)
        return ordered_rows(state.tables[self.table], found, self.orders) if self.orders else found

    def met(self, state: State) -> list[Scored]:
        """Returns the rows that meet the predicates: by rising key, or in the order that its search asks for."""
        keys, index = keys_that_meet(state.tables[self.table], self.conditions), self.index(state)
        if self.search is None or index is None:
            return [(key, 0) for key in keys]
        met = frozenset(keys)
        return [(key, its_score) for key, its_score in self.search.found(state, index) if key in met]

    def effect(self, state: State) -> str:
        table, found = state.tables[self.table], self.found(state)
        if self.shown == "COUNT(*)":
            return line([len(found)])
        items = table.names if self.shown == "*" else self.items
        lines = []
        for key, its_score in found:
            values = dict(zip(table.names, table.rows[key]))
            lines.append(line(its_score if isinstance(item, Score) else values[item] for item in items))
        return lines_or_none(lines)


@dataclass(frozen=True)
class SelectView(Statement):
    """A SELECT from one of the views: of the rows that wait, or of the rules that are faulty."""

    shown: SelectList
    has_more: bool  # predicates, or an order
    is_of_errors: bool = False

    def refusals(self, state: State) -> Refusals:
        if isinstance(self.shown, tuple) or self.has_more:
            yield WRONG_VALUES

    def rows(self, name: str, index: Index) -> list[list[Value]]:
        """Returns the lines of an index, in order of key."""
        if not self.is_of_errors:
            return [[name, key] for key in sorted(index.pending)]
        faults = {key: rule.text for key, rule in index.rules.items() if isinstance(rule, Faulty)}
        return [[name, key, faults[key]] for key in sorted(faults)]

    def effect(self, state: State) -> str:
        rows = [row for name in sorted(state.indexes) for row in self.rows(name, state.indexes[name])]
        return line([len(rows)]) if self.shown == "COUNT(*)" else lines_or_none([line(row) for row in rows])
