"""What the entries weigh that stand for a state."""

from __future__ import annotations

from collections.abc import Iterable

from documents import MAIN_STREAM, Group, Prefs, document
from lengths import list_length, text_length, varint_length
from preferences import changed_options
from rules import Faulty, anchors_of, stored_length
from state import Index, State, SubIndexes, Table, Value
from texts import KEY_LIMIT
from thesauri import Thesaurus

LEAST_WEIGHT = 64
ROW_KEY = 8
DOCUMENT = 4
LAST_DOCUMENT = 5  # the greatest number of a document, as a varint
NO_RESUME_PLACE = 2
LONGEST_RESUME_PLACE = 1 + 2 + KEY_LIMIT


def entry_weight(key: int, value: int) -> int:
    return max(LEAST_WEIGHT, key + value)


def name_length(name: str) -> int:
    """Returns the bytes of a name or token in a key: its length in one byte, and its bytes."""
    return 1 + len(name.encode())


def attributes_length(attributes: dict[str, str]) -> int:
    return list_length(text_length(name) + text_length(value) for name, value in attributes.items())


def group_length(group: Group) -> int:
    """Returns the bytes of a group in a value: one each for its type and its flags, and its sections."""
    sections = ((section.name, list_length(map(text_length, section.tags))) for section in group.sections)
    return 1 + 1 + list_length(text_length(name) + 1 + tags for name, tags in sections)


def sub_indexes_length(sub_indexes: SubIndexes) -> int:
    """Returns the bytes of the sub-indexes of an index set in a value."""
    return list_length(list_length(map(text_length, columns)) for columns in sub_indexes)


# Postings


def steps(numbers: Iterable[int]) -> list[int]:
    """Returns each number without the one before it, where 0 stands before the first."""
    rising = list(numbers)
    return [after - before for before, after in zip([0, *rising], rising)]


def row_of_one(count: int, numbers: Iterable[int]) -> int:
    """Returns the bytes of a row of the last document alone, which has so many positions or pairs, told by these numbers."""
    return varint_length(1) + LAST_DOCUMENT + varint_length(count) + sum(map(varint_length, numbers))


def document_cost(index: str, prefs: Prefs, text: str) -> int:
    """Returns the weight of a document's postings, where each stands in an entry by itself under the last document number."""
    weight, its_document = 0, document(prefs, text)
    for (_, key), positions in its_document.positions().items():
        row = row_of_one(len(positions), steps(positions))
        weight += entry_weight(1 + name_length(index) + 1 + name_length(key) + DOCUMENT, row)
    for section, pairs in its_document.pairs().items():
        numbers = [*steps(first for first, _ in pairs), *(last - first for first, last in pairs)]
        row = row_of_one(len(pairs), numbers)
        weight += entry_weight(1 + name_length(index) + name_length(section) + DOCUMENT, row)
    return weight


# Entries


def table_weight(name: str, table: Table) -> int:
    """Returns the weight of the entries of a table and its rows."""
    columns = list_length(text_length(column.name) + 1 + 2 for column in table.columns)
    numbers = sum(not column.is_text for column in table.columns[1:])
    weight = entry_weight(1 + name_length(name), columns)
    for values in table.rows.values():
        weight += entry_weight(1 + name_length(name) + ROW_KEY, 8 * numbers)
        texts = (value.encode() for value in values if isinstance(value, str))
        weight += sum(entry_weight(1 + name_length(name) + 1 + ROW_KEY, len(text)) for text in texts)
    return weight


def thesaurus_weight(name: str, thesaurus: Thesaurus) -> int:
    """Returns the weight of the entries of a thesaurus and its pairs, whose keys have one byte for the relation."""
    pairs = (1 + name_length(name) + 1 + name_length(first) + name_length(second) for _, first, second in thesaurus)
    return entry_weight(1 + name_length(name), 0) + sum(entry_weight(key, 0) for key in pairs)


def preferences_weight(state: State) -> int:
    """Returns the weight of the entries of preferences, stoplists, section groups, index sets and thesauri."""
    weight = sum(entry_weight(1 + name_length(name), attributes_length(it)) for name, it in state.preferences.items())
    weight += sum(entry_weight(1 + name_length(name), list_length(map(text_length, it))) for name, it in state.stoplists.items())
    weight += sum(entry_weight(1 + name_length(name), sub_indexes_length(it)) for name, it in state.index_sets.items())
    weight += sum(thesaurus_weight(name, it) for name, it in state.thesauri.items())
    return weight + sum(entry_weight(1 + name_length(name), group_length(it)) for name, it in state.groups.items())


def own_weight(name: str, index: Index, resume_place: int) -> int:
    """Returns the weight of an index's own entry, which has one byte each for the kind, the column, the transactional flag and the tidiness."""
    options, stop_keys = changed_options(index.prefs.lexer), index.prefs.stop_keys
    copied = attributes_length(options) + list_length(map(text_length, stop_keys)) + group_length(index.prefs.group)
    lists = copied + sub_indexes_length(index.sub_indexes)
    return entry_weight(1 + name_length(name), text_length(index.table) + 4 + lists + DOCUMENT + resume_place)


def key_value_length(value: Value) -> int:
    """Returns the bytes of a value in a key: a number is as the key of a row."""
    return name_length(value) if isinstance(value, str) else ROW_KEY


def catalogue_weight(name: str, index: Index, table: Table) -> int:
    """Returns the weight of the entries of a catalogue: its own, and one for each row, each word of its text and each sub-index.

    The plain sub-index, which has no columns, counts too. The key of a word's entry has one byte for the number of the sub-index.
    """
    weight = own_weight(name, index, NO_RESUME_PLACE)
    for row in table.rows.values():
        by_name = dict(zip(table.names, row))
        words = {key for stream, key in document(index.prefs, str(row[index.place])).positions() if stream == MAIN_STREAM}
        for columns in [(), *index.sub_indexes]:
            values = sum(key_value_length(by_name[column]) for column in columns)
            weight += sum(entry_weight(1 + name_length(name) + 1 + name_length(word) + values + ROW_KEY, 0) for word in words)
    return weight


def context_weight(name: str, index: Index, rows: int, resume_place: int) -> int:
    """Returns the weight of the entries of a CONTEXT index of so many rows, without postings."""
    weight = own_weight(name, index, resume_place)
    synchronised = rows - len(index.pending)
    weight += synchronised * entry_weight(1 + name_length(name) + DOCUMENT, ROW_KEY)
    weight += synchronised * entry_weight(1 + name_length(name) + ROW_KEY, DOCUMENT)
    return weight + len(index.pending) * entry_weight(1 + name_length(name) + ROW_KEY, 0)


def rules_weight(name: str, index: Index) -> int:
    """Returns the weight of the entries of an index of rules: its own, one for each row that waits, and those of each rule.

    A faulty rule has its fault. Another one has its query and an entry for each word by which it is looked up, or one without a word.
    """
    key = 1 + name_length(name) + ROW_KEY
    weight = own_weight(name, index, NO_RESUME_PLACE) + len(index.pending) * entry_weight(key, 0)
    for outcome in index.rules.values():
        if isinstance(outcome, Faulty):
            weight += entry_weight(key, len(outcome.text.encode()))
            continue
        anchors = anchors_of(outcome)
        weight += entry_weight(key, stored_length(outcome))
        weight += sum(entry_weight(key + name_length(anchor), 0) for anchor in ([""] if anchors is None else anchors))
    return weight


def index_weight(name: str, index: Index, table: Table, resume_place: int) -> int:
    """Returns the weight of the entries of an index, without postings. Only a CONTEXT index is optimised, and has a place to resume at."""
    if index.kind == "CTXCAT":
        return catalogue_weight(name, index, table)
    if index.kind == "CTXRULE":
        return rules_weight(name, index)
    return context_weight(name, index, len(table.rows), resume_place)


def weight_but_postings(state: State, resume_place: int) -> int:
    tables = sum(table_weight(name, table) for name, table in state.tables.items())
    indexes = sum(index_weight(name, index, state.tables[index.table], resume_place) for name, index in state.indexes.items())
    return tables + preferences_weight(state) + indexes


def room(state: State) -> int:
    """Returns what a store of this state weighs at most."""
    weight = weight_but_postings(state, LONGEST_RESUME_PLACE)
    for name, index in state.indexes.items():
        if index.kind == "CONTEXT":
            texts = [*index.lost, *(text for _, text in state.synchronised_texts(index))]
            weight += sum(document_cost(name, index.prefs, text) for text in texts)
    return weight


def least_weight(state: State) -> int:
    """Returns what a store of this state weighs at least."""
    return weight_but_postings(state, NO_RESUME_PLACE)
