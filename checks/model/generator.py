"""Random scripts, of which most statements are done, many are refused, and some are no statements.

A script is a list of pieces, each a statement with its end. The maker runs the model beside, so that a statement can name what
is there; each choice in it goes wrong with a probability that is drawn anew for each statement, so that often one cause of a
refusal holds and sometimes several do.
"""

from __future__ import annotations

import random
import unicodedata
from collections.abc import Callable, Iterable, Sequence
from dataclasses import dataclass
from functools import lru_cache, partial

from catalogue_maker import CatalogueMaker
from documents import Group, SectionKind, document
from lexemes import KEYWORDS
from model import STATEMENT_LIMIT, answer
from preferences import ATTRIBUTES, FLAGS, SET_LIMIT, SETS, SINGLES, WITHOUT_EFFECT
from procedures import FIELD_LIMIT, LIST_LIMIT, STOPWORD_LIMIT, STOPWORD_SIZE, SUB_INDEX_LIMIT, TAG_LIMIT, ZONE_LIMIT
from query_maker import QueryMaker
from reduction import Flat, Takes, terms_in
from rules import Faulty
from state import TEXT_LIMIT, Column, Index, Kind, State, SubIndexes, Table, Value
from statements import COLUMN_LIMIT, INDEX_LIMIT, PARAMETERS, PARAMETERS_OF, TABLE_LIMIT
from texts import WHITE_SPACE, ascii_lower, ascii_upper, is_word, tokens
from thesauri import EXPANSION_LIMIT, RELATIONS, Pair
from vocabulary import (
    BETWEEN_WORDS,
    BEYOND,
    BLANKS,
    BORDERS,
    BROKEN_TAGS,
    COLUMNS,
    ENDS,
    GROUPS,
    INDEXES,
    INDEX_SETS,
    JOINS,
    LOOKS_LIKE,
    NO_COLUMNS,
    NO_DESCRIPTORS,
    NO_JOINS,
    NO_NAMES,
    NO_STATEMENTS,
    NO_TERMS,
    NO_UTF_8,
    NUMBERS,
    PARAMETER_LISTS,
    PARAMETER_WORDS,
    PREFERENCES,
    QUERY_WORDS,
    RULE_COLUMN,
    SECTIONS,
    SENTENCE_ENDS,
    STOPLISTS,
    STOPWORDS,
    STRANGE_NAMES,
    STRAY,
    STRAY_IN_DESCRIPTORS,
    TABLES,
    TAGS,
    TERMS,
    THESAURI,
    WHOLE_TAGS,
    WORDS,
)


@dataclass(frozen=True)
class Run:
    """The pieces of a script, and the limit of the store, if any."""

    pieces: tuple[bytes, ...]
    limit: int | None

    @property
    def script(self) -> bytes:
        return b"".join(self.pieces)


# Scripts that are run one after the other over one store.
Case = tuple[Run, ...]


@lru_cache(maxsize=None)
def characters() -> list[str]:
    """Returns the characters that Python's tables know, as a text for each first word of their names, such as GREEK."""
    groups: dict[str, list[str]] = {}
    for char in map(chr, range(0x110000)):
        if unicodedata.category(char) not in ("Cn", "Co", "Cs"):
            groups.setdefault(unicodedata.name(char, "CONTROL").split()[0], []).append(char)
    return ["".join(group) for group in groups.values()]


def quoted(text: str) -> str:
    return "'" + text.replace("'", "''") + "'"


def literal(value: Value) -> str:
    return quoted(value) if isinstance(value, str) else str(value)


def fitted(text: str, size: int) -> str:
    """Returns a text of just so many bytes that begins as this one does."""
    begin = text.encode()[:size].decode(errors="ignore")
    return begin + "z" * (size - len(begin.encode()))


def without_marks(word: str) -> str:
    return "".join(char for char in unicodedata.normalize("NFD", word) if unicodedata.category(char) != "Mn")


def with_mark(word: str) -> str:
    return word + "\u0301"


def needs_blank(before: str, lexeme: str) -> bool:
    """Returns whether two lexemes would be read as others, or as a comment, if nothing stood between them."""
    end, begin = before[-1:], lexeme[:1]
    if is_of_name(end) and is_of_name(begin):
        return not before.isdigit() or begin.isdigit()
    return end + begin in ("''", "--", "<=", ">=")


def is_of_name(char: str) -> bool:
    return char.isalnum() or char in ("_", "$", "#")


class Maker:
    """Makes the pieces of one script."""

    def __init__(self, seed: str, built: frozenset[str]) -> None:
        self.random = random.Random(seed)
        self.built = built
        self.state = State()
        self.wrong = 0.0  # how often a choice goes wrong
        self.has_changed = False  # whether the last statement changed the state
        self.planned = self.beginning()  # kinds of statements, which come first
        self.pool = ["quick", *(self.rare_word() if self.chance(0.4) else self.one_of(WORDS) for _ in range(6))]

    # choices

    def chance(self, probability: float) -> bool:
        return self.random.random() < probability

    def goes_wrong(self) -> bool:
        return self.chance(self.wrong)

    def one_of(self, items: Sequence[str]) -> str:
        return self.random.choice(items)

    def known(self, names: Iterable[str], all_names: Sequence[str]) -> str:
        """Returns a name of what is there, most of the time."""
        there = list(names)
        if self.goes_wrong() or not there:
            return self.one_of(STRANGE_NAMES if self.chance(0.3) else all_names)
        return self.one_of(there)

    def new(self, names: Iterable[str], all_names: Sequence[str]) -> str:
        """Returns a name of what isn't there yet, most of the time."""
        there = list(names)
        if self.goes_wrong() or self.chance(0.03):
            return self.one_of(there if there and self.chance(0.7) else STRANGE_NAMES)
        return self.one_of([name for name in all_names if name not in there] or there)

    def table(self) -> tuple[str, Table]:
        """Returns the name of a table, often of one with rows, and a table for the choice of columns and values."""
        with_rows = [name for name, table in self.state.tables.items() if table.rows]
        name = self.known(with_rows if with_rows and self.chance(0.6) else self.state.tables, TABLES)
        if name in self.state.tables:
            return name, self.state.tables[name]
        return name, Table((Column("id", "NUMBER"), Column("body", "CLOB"), Column("price", "NUMBER")))

    def column(self, table: Table, fits: Callable[[Column], bool] = lambda _: True) -> Column:
        """Returns a column that fits, most of the time."""
        if self.goes_wrong():
            return self.random.choice(table.columns) if self.chance(0.5) else Column(self.one_of([*COLUMNS, *STRANGE_NAMES]), "CLOB")
        return self.random.choice([column for column in table.columns if fits(column)] or list(table.columns))

    # texts and values

    def rare_word(self) -> str:
        group = self.random.choice(characters())
        letters = [char for char in self.random.choices(group, k=4) if is_word(char)]
        return "".join(letters) or self.one_of(WORDS)

    def spelt_otherwise(self, word: str) -> str:
        """Returns a word that often has the same key."""
        composed, decomposed = (partial(unicodedata.normalize, form) for form in ("NFC", "NFD"))
        cases = [str.upper, str.lower, str.swapcase, str.casefold]
        return self.random.choice([str, str, *cases, composed, decomposed, without_marks, with_mark])(word)

    def word(self) -> str:
        return self.rare_word() if self.chance(0.1) else self.spelt_otherwise(self.one_of(self.pool))

    def text(self) -> str:
        terms = [term for pairs in self.state.thesauri.values() for _, *both in sorted(pairs) for term in both]
        if terms and self.chance(0.35):
            return self.one_of([" ", ", ", ". "]).join(self.random.choices(terms, k=self.random.choice([1, 1, 2, 3])))
        if self.chance(0.05):
            return ""
        if self.chance(0.05):
            return "".join(self.random.choices(self.random.choice(characters()), k=20))
        words = [self.word() for _ in range(self.random.choice([1, 2, 3, 6, 6, 12]))]
        if self.chance(0.04):
            words = [words[0]] * self.random.choice([99, 100, 101, 128])
        has_tags = self.chance(0.7 if any(group.sections for group in self.state.groups.values()) else 0.1)
        begin, end = (self.tag() if has_tags and self.chance(0.3) else "" for _ in range(2))
        return begin + "".join(word + self.between(has_tags) for word in words[:-1]) + words[-1] + end

    def between(self, has_tags: bool) -> str:
        """Returns what stands between two words: blanks or signs, the end of a sentence or paragraph, or a tag."""
        way = self.random.choices(["blank", "join", "end", "tag"], [60, 15, 10, 50 if has_tags else 0])[0]
        if way == "blank":
            return self.one_of(BETWEEN_WORDS)
        if way == "end":
            return self.one_of(SENTENCE_ENDS)
        if way == "tag":
            return self.one_of(["", "", " ", "."]) + self.tag() + self.one_of(["", "", " ", "\n"])
        values = (preference.get(name, "") for preference in self.state.preferences.values() for name in (*SETS, *SINGLES))
        joins = "".join(values)
        return self.one_of(joins if joins and self.chance(0.8) else JOINS) * self.random.choice([1, 1, 1, 2])

    def tag(self) -> str:
        """Returns a tag, most of the time of a group that is there; seldom what isn't quite a tag."""
        tags = [tag for group in self.state.groups.values() for tag in group.tags]
        name = self.one_of(tags if tags and self.chance(0.7) else TAGS)
        form = self.one_of(BROKEN_TAGS if self.chance(0.12) else WHOLE_TAGS)
        return form.format(self.random.choice([str, str.upper, str.title])(name))

    def text_for(self, size: int) -> str:
        """Returns a text of at most so many bytes, at times of just so many; seldom a longer one."""
        text = self.text()
        if self.goes_wrong():
            return fitted(text, size + 1) if self.chance(0.5) else text
        return fitted(text, size) if self.chance(0.03) or len(text.encode()) > size else text

    def number(self) -> str:
        if self.goes_wrong():
            return self.one_of(["", "-", "- "]) + self.one_of([*BEYOND, str(2**63)])
        if self.chance(0.05):
            return str(-(2**63))
        return self.one_of(["", "", "", "-"]) + self.one_of(NUMBERS)

    def key(self, table: Table, is_new: bool) -> str:
        """Returns the key of a row that is there, or of a new one, most of the time."""
        if self.chance(0.1):
            return self.number()
        if table.rows and is_new == self.goes_wrong():
            return str(self.random.choice(list(table.rows)))
        return str(self.random.choice([key for key in range(1, 40) if key not in table.rows] or [50]))

    def value(self, column: Column) -> str:
        """Returns a value that the column takes, most of the time."""
        if self.goes_wrong() and self.chance(0.5):
            return self.number() if column.is_text else quoted(self.text())
        if not column.is_text:
            return self.number()
        return quoted(self.text_for(column.size if isinstance(column.size, int) else 0))

    def value_of_row(self, table: Table, column: Column) -> str:
        """Returns a value for a row, at times one that another row has, if it is short; so some rows come in order of their keys alone."""
        place = table.place(column.name)
        index = self.rules_on(table, place)
        if column.is_text and self.chance(0.85 if index is not None or column.name == RULE_COLUMN else 0.02) and not self.goes_wrong():
            return quoted(self.rule(index, column.size if isinstance(column.size, int) else 0))
        if place and table.rows and self.chance(0.3) and not self.goes_wrong():
            value = literal(self.random.choice(list(table.rows.values()))[place])
            return value if len(value) < 30 else self.value(column)
        return self.value(column)

    def rules_on(self, table: Table, place: int | None) -> Index | None:
        """Returns the index of rules on a column of a table, where there is one."""
        name = next((name for name, it in self.state.tables.items() if it is table), "")
        return self.state.index_on(name, place, "CTXRULE")

    def rule(self, index: Index | None, size: int) -> str:
        """Returns a rule of at most so many bytes, most of the time one that can be taken; its words come in many texts."""
        way = self.random.choices(["query", "single", "word", "fault", "long"], [70, 10, 10, 8, 2])[0]
        if way == "fault":
            return self.query([], index)[:size]
        if way == "long":
            many = "|".join(["quick"] * min(size // 6, self.random.choice([512, 513])))
            return self.one_of([fitted(self.word(), size), many, "(" * min(size, 33), fitted("{", size)])
        for _ in range(5):
            maker = self.query_maker([], index)
            text = self.word() if way == "word" else maker.single() if way == "single" else maker.text()
            if len(text.encode()) <= size:
                return text
        return self.one_of(["quick", "a", ""])[:size]

    def words_of_rule(self, rule: Flat) -> list[str]:
        """Returns words that the phrases of a rule take, in the order of the rule, with others in the place of those that may be any."""
        words = []
        for term in terms_in(rule):
            for slot in self.random.choice(term.phrases):
                keys = sorted(slot.keys) if isinstance(slot, Takes) else []
                words.append(self.spelt_otherwise(self.one_of(keys)) if keys else self.word())
        return words

    def matched_text(self, index: Index | None) -> str:
        """Returns a text for MATCHES, often with the words of one or two rules."""
        rules = [rule for rule in (() if index is None else index.rules.values()) if rule is not None and not isinstance(rule, Faulty)]
        if not rules or self.chance(0.3):
            return self.text_for(TEXT_LIMIT)
        words = [word for rule in self.random.choices(rules, k=self.random.choice([1, 1, 2])) for word in self.words_of_rule(rule)]
        words = words[: self.random.choice([1, 5, 30])]
        for _ in range(self.random.choice([0, 0, 1, 3])):
            words.insert(self.random.randrange(len(words) + 1), self.word())
        has_tags = self.chance(0.3)
        begin, end = (self.tag() if has_tags and self.chance(0.5) else "" for _ in range(2))
        betweens = (" " if self.chance(0.7) else self.between(has_tags) for _ in words)
        text = begin + "".join(word + between for word, between in zip(words, betweens)) + end
        return text if len(text.encode()) <= TEXT_LIMIT else self.word()

    def searched_word(self, texts: Sequence[str], index: Index | None) -> str:
        """Returns a word to be searched for, often one of these texts or a stopword."""
        if index is None or self.chance(0.2):
            return self.word()
        if index.prefs.stop_keys and self.chance(0.1):
            return self.spelt_otherwise(self.one_of(sorted(index.prefs.stop_keys)))
        keys = [str(word.key) for text in texts for word in document(index.prefs, text).words if word.key is not None]
        if self.chance(0.2):
            keys = [token.key for text in texts for token in tokens(text, index.prefs.lexer)]  # those of tags, too
        return self.spelt_otherwise(self.one_of(keys)) if keys else self.word()

    def words_of_one(self, texts: Sequence[str], index: Index | None) -> list[str]:
        """Returns words of one of these texts, and at times a stopword or any word; several of them, so that they often stand in one row."""
        words = document(index.prefs, self.one_of(texts)).words if index is not None and texts else ()
        keys = [word.key for word in words if word.key is not None]
        if not keys or self.chance(0.08):
            return [self.searched_word(texts, index) for _ in range(3)]
        return [self.spelt_otherwise(key) for key in self.random.sample(keys, min(len(keys), 3))]

    def run_of_words(self, texts: Sequence[str], index: Index | None) -> list[str]:
        """Returns two to four words that stand side by side in one of these texts, any word in the place of a stopword."""
        words = list(document(index.prefs, self.one_of(texts)).words) if index is not None and texts else []
        start = self.random.randrange(len(words)) if words else 0
        run = words[start : start + self.random.choice([2, 2, 3, 4])]
        return [self.word() if word.key is None else self.spelt_otherwise(word.key) for word in run] or [self.word(), self.word()]

    def query(self, texts: Sequence[str], index: Index | None) -> str:
        """Returns the text of a query, often of words of these texts."""
        if self.goes_wrong():
            operator = self.one_of(QUERY_WORDS)
            return self.random.choice([self.text(), "", "a b", " quick", operator, operator.lower(), "{quick}", "a" * 4001])
        if self.chance(0.2):
            return self.searched_word(texts, index)
        return self.query_maker(texts, index).text()

    def query_of_one(self, texts: Sequence[str], index: Index | None) -> str:
        """Returns the text of a query of one operator of a thesaurus, or of one word with wildcards."""
        return self.query_maker(texts, index).single()

    def query_maker(self, texts: Sequence[str], index: Index | None) -> QueryMaker:
        group = Group() if index is None else index.prefs.group
        there = [*(section.name for section in group.sections), *group.specials] * 10
        makers = partial(self.searched_word, texts, index), partial(self.run_of_words, texts, index)
        sections = [*there, "sentence", "paragraph", *SECTIONS]
        thesauri = {name: sorted(pairs) for name, pairs in self.state.thesauri.items()}
        return QueryMaker(self.random, *makers, sections, thesauri, self.built)

    # statements, each as a list of lexemes

    def create_table(self) -> list[str]:
        name = self.new(self.state.tables, TABLES)
        if self.chance(0.01):
            return ["CREATE", "TABLE", name, *self.columns_of_table(self.random.choice([16, 17]))]
        return ["CREATE", "TABLE", name, *self.columns_of_table(self.random.choice([1, 3, 3, 3, 3, 3, 4, 4, 5, 5]))]

    def create_table_for_catalogue(self) -> list[str]:
        """Makes a table of a text, with columns that a sub-index may have, in any order."""
        sorts = [self.one_of(["VARCHAR2 ( 100 )", "VARCHAR2 ( 4000 )", "CLOB"]), "NUMBER", self.one_of(["VARCHAR2 ( 10 )", "VARCHAR2 ( 100 )", "NUMBER"])]
        names = self.random.sample([name for name in COLUMNS if name != "id"], len(sorts))
        self.random.shuffle(sorts)
        columns = [["id", "NUMBER", "PRIMARY", "KEY"], *([name, *sort.split()] for name, sort in zip(names, sorts))]
        return ["CREATE", "TABLE", self.new(self.state.tables, TABLES), *self.listed(columns)]

    def create_table_for_rules(self) -> list[str]:
        """Makes a table with a column of rules, and others."""
        columns = [[RULE_COLUMN, *self.one_of(["VARCHAR2 ( 4000 )", "VARCHAR2 ( 300 )", "CLOB"]).split()], ["price", "NUMBER"]]
        self.random.shuffle(columns)
        return ["CREATE", "TABLE", self.new(self.state.tables, TABLES), *self.listed([["id", "NUMBER", "PRIMARY", "KEY"], *columns])]

    def columns_of_table(self, count: int) -> list[str]:
        others = [name for name in COLUMNS if name != "id"]
        self.random.shuffle(others)
        names = [*others, *(f"c{i}" for i in range(count))][: count - 1]
        if names and self.goes_wrong():
            names[-1] = self.one_of(["id", *STRANGE_NAMES])
        sorts = [self.sort(0.1 if place == 0 else 0.3) for place in range(len(names))]
        columns = [["id", "NUMBER", "PRIMARY", "KEY"], *([name, *sort] for name, sort in zip(names, sorts))]
        if self.goes_wrong():
            columns[0] = ["id", *self.one_of(["NUMBER", "CLOB PRIMARY KEY", "NUMBER KEY", "NUMBER PRIMARY"]).split()]
        if self.goes_wrong():
            columns[-1] = [*columns[-1], "PRIMARY", "KEY"]
        return self.listed(columns)

    def sort(self, numbers: float) -> list[str]:
        """Returns the type of a column, which is a NUMBER with this probability."""
        if self.chance(numbers):
            return ["NUMBER"]
        if self.chance(0.4):
            return ["CLOB"]
        size = self.one_of(["0", "4001", self.one_of(BEYOND)] if self.goes_wrong() else ["1", "10", "100", "100", "300", "4000"])
        return ["VARCHAR2", "(", size, ")"]

    def listed(self, items: Sequence[list[str]]) -> list[str]:
        """Returns items in brackets, with commas between."""
        separated = [lexeme for item in items for lexeme in (",", *item)]
        return ["(", *separated[1:], ")"]

    def drop_table(self) -> list[str]:
        return ["DROP", "TABLE", self.known(self.state.tables, TABLES)]

    def drop_index(self) -> list[str]:
        return ["DROP", "INDEX", self.known(self.state.indexes, INDEXES)]

    def create_index(self) -> list[str]:
        """Makes an index of some kind on a column that has none of its kind, most of the time."""
        return self.create_index_of(self.random.choice(self.index_kinds()))

    def create_catalogue(self) -> list[str]:
        return self.create_index_of("CTXCAT")

    def create_rules(self) -> list[str]:
        return self.create_index_of("CTXRULE")

    def index_kinds(self) -> list[Kind]:
        kinds: list[Kind] = ["CONTEXT", "CONTEXT"]
        return [*kinds, *(["CTXCAT"] if "CATALOGUES" in self.built else []), *(["CTXRULE"] if "RULES" in self.built else [])]

    def create_index_of(self, kind: Kind) -> list[str]:
        name, table = self.table()
        free = [it for it in self.state.tables if self.free_columns(it, kind)]
        with_rules = [it for it in free if any(column.name == RULE_COLUMN for column in self.free_columns(it, kind))]
        if free and not self.goes_wrong():
            name = self.one_of(with_rules if with_rules and kind == "CTXRULE" else free)
            table = self.state.tables[name]
        is_on_rules = kind == "CTXRULE" and name in with_rules
        column = self.column(table, lambda it: it in self.free_columns(name, kind) and (it.name == RULE_COLUMN or not is_on_rules))
        index = self.new(self.state.indexes, INDEXES)
        owner = ["CTXSYS", "."] if self.chance(0.7) else []
        has_parameters = self.chance(0.9 if kind == "CTXCAT" else 0.75)
        parameters = ["PARAMETERS", "(", quoted(self.parameters(kind, table)), ")"] if has_parameters else []
        parallel = ["PARALLEL", self.threads()] if self.chance(0.2 if "PARALLEL" in self.built else 0.02) else []
        return ["CREATE", "INDEX", index, "ON", name, "(", column.name, ")", "INDEXTYPE", "IS", *owner, kind, *parameters, *parallel]

    def threads(self) -> str:
        """Returns how many threads may work on an index."""
        return self.one_of(["0", "17", str(2**32 + 2), self.one_of(BEYOND)] if self.goes_wrong() else ["1", "2", "3", "4", "016", "16"])

    def free_columns(self, table: str, kind: Kind) -> list[Column]:
        """Returns the columns of a table that can have an index of this kind and have none yet."""
        columns = self.state.tables[table].columns if table in self.state.tables else ()
        return [it for place, it in enumerate(columns) if it.is_text and self.state.index_on(table, place, kind) is None]

    def parameters(self, kind: Kind, table: Table) -> str:
        """Returns a text of PARAMETERS for an index on a table, most of the time of what is there and fits it."""
        state = self.state
        fitting = [name for name, sub_indexes in state.index_sets.items() if sub_indexes and self.fits(table, sub_indexes)]
        sets = fitting if fitting and not self.goes_wrong() and self.chance(0.85) else state.index_sets
        lists: dict[str, tuple[Iterable[str], Sequence[str]]] = {
            "LEXER": (state.preferences, PREFERENCES),
            "STOPLIST": (state.stoplists, STOPLISTS),
            "SECTION GROUP": (state.groups, GROUPS),
            "INDEX SET": (sets, INDEX_SETS),
        }
        words: list[str] = []
        for parameter in self.random.sample(PARAMETERS_OF[kind], len(PARAMETERS_OF[kind])):
            (there, names), default = lists[parameter], PARAMETERS[parameter]
            if self.chance(0.95 if parameter == "INDEX SET" and fitting else 0.8 if list(there) else 0.1):
                is_default = default is not None and (self.chance(0.1) or not (list(there) or self.goes_wrong()))
                words += [*parameter.split(), default if is_default and default is not None else self.known(there, names)]
        if self.goes_wrong():
            words = self.wrong_parameters(words)
        begin = self.parameter_blank() if self.chance(0.1) else ""
        return begin + "".join(self.cased(word) + self.parameter_blank() for word in words)

    def fits(self, table: Table, sub_indexes: SubIndexes) -> bool:
        """Returns whether a catalogue on a table may have these sub-indexes."""
        columns = [table.column(name) for names in sub_indexes for name in names]
        return all(column is not None and column.fits_sub_index for column in columns)

    def wrong_parameters(self, words: list[str]) -> list[str]:
        """Returns the words with some of them dropped, others put between, or all of them doubled."""
        at = self.random.randrange(len(words) + 1)
        others = self.one_of(PARAMETER_LISTS if self.chance(0.6) else PARAMETER_WORDS).split()
        put = [*words[:at], *others, *words[at:]]
        return self.random.choice([put, put, [*words, *words], [*words[:at], *words[at + 1 :]]])

    def parameter_blank(self) -> str:
        """Returns what separates two words of PARAMETERS; where it goes wrong, what only looks like it."""
        if self.goes_wrong():
            return self.one_of(["", "\u200b", "\x1c", "\x1f", "\u180e", "\ufeff", "_", ","])
        return " " if self.chance(0.8) else self.one_of([*WHITE_SPACE, "  ", " \n"])

    def cased(self, text: str) -> str:
        """Returns a text in some ASCII case."""
        title = str.title if text.isascii() else str
        return text if self.chance(0.6) else self.random.choice([ascii_upper, ascii_lower, title])(text)

    def insert(self) -> list[str]:
        name, table = self.table()
        columns = list(table.columns)
        is_listed = self.chance(0.2)
        if is_listed:
            self.random.shuffle(columns)
            if self.goes_wrong():
                columns[-1] = self.column(table)
        values = [[self.key(table, is_new=True) if it == table.columns[0] else self.value_of_row(table, it)] for it in columns]
        if self.goes_wrong():
            values = self.random.choice([values[1:], [*values, ["0"]], [*values, ["'a'"]]]) or values
        names = self.listed([[column.name] for column in columns]) if is_listed else []
        return ["INSERT", "INTO", name, *names, "VALUES", *self.listed(values)]

    def condition(self, table: Table) -> list[str]:
        return self.condition_on(table, self.column(table, lambda it: it.sort != "CLOB"))

    def condition_on(self, table: Table, column: Column) -> list[str]:
        way = self.random.choice(["op", "op", "BETWEEN", "IN"])
        if way == "op":
            return [column.name, self.one_of(["=", "<", "<=", ">", ">="]), self.compared(table, column)]
        if way == "BETWEEN":
            return [column.name, "BETWEEN", self.compared(table, column), "AND", self.compared(table, column)]
        return [column.name, "IN", *self.listed([[self.compared(table, column)] for _ in range(self.random.choice([1, 2, 5]))])]

    def compared(self, table: Table, column: Column) -> str:
        """Returns a value for a column, often one of a row."""
        place = table.place(column.name)
        if table.rows and place is not None and self.chance(0.7) and not self.goes_wrong():
            return literal(self.random.choice(list(table.rows.values()))[place])
        return self.value(column)

    def where(self, table: Table, first: Sequence[list[str]] = ()) -> list[str]:
        conditions = [*first, *(self.condition(table) for _ in range(self.random.choice([0, 0, 1, 1, 2])))]
        self.random.shuffle(conditions)
        return self.joined("WHERE", conditions)

    def joined(self, keyword: str, conditions: Sequence[list[str]]) -> list[str]:
        keywords = [keyword, *["AND"] * len(conditions)]
        return [lexeme for before, condition in zip(keywords, conditions) for lexeme in (before, *condition)]

    def update(self) -> list[str]:
        """Returns an UPDATE, often of one row, and at times to the values that it has."""
        name, table = self.table()
        row = dict(zip(table.names, map(literal, self.random.choice(list(table.rows.values()) or [()]))))
        indexes = self.state.indexes_of(name) if self.chance(0.5) else []
        indexed = [table.columns[index.place] for index in indexes]
        subs = [table.column(column) for index in indexes for columns in index.sub_indexes for column in columns]
        indexed += [column for column in subs if column is not None and column != table.columns[0]]
        self.random.shuffle(indexed)
        columns = list(dict.fromkeys([*indexed[:1], self.column(table, lambda it: it != table.columns[0])]))
        if self.goes_wrong():
            columns.append(columns[0])
        assigns = [[it.name, "=", row.get(it.name, "0") if self.chance(0.2) else self.value_of_row(table, it)] for it in columns]
        key = table.columns[0].name
        one = [[key, "=", row.get(key) or self.key(table, is_new=False)]] if self.chance(0.5) else []
        return ["UPDATE", name, "SET", *self.listed(assigns)[1:-1], *self.where(table, one)]

    def delete(self) -> list[str]:
        name, table = self.table()
        one = [table.columns[0].name, "=", self.key(table, is_new=False)]
        return ["DELETE", *(["FROM"] if self.chance(0.7) else []), name, *self.where(table, [one] if self.chance(0.8) else [])]

    def select(self) -> list[str]:
        """Returns a SELECT with CONTAINS over an indexed column, where there is one."""
        return self.select_by(self.query)

    def select_by_one(self) -> list[str]:
        """Returns a SELECT by one operator of a thesaurus, or by one word with wildcards."""
        return self.select_by(self.query_of_one)

    def select_by(self, make_query: Callable[[Sequence[str], Index | None], str]) -> list[str]:
        indexes = [index for index in self.state.indexes.values() if index.kind == "CONTEXT" or self.chance(0.05)]
        if not indexes or self.goes_wrong():
            (name, table), texts, index = self.table(), [], None
            column = self.column(table)
        else:
            index = self.random.choice(indexes)
            name, table = index.table, self.state.tables[index.table]
            texts = [*(str(row[index.place]) for row in table.rows.values()), *index.lost[-3:]]
            column = table.columns[index.place]
        label = self.one_of([*BEYOND, "0"] if self.goes_wrong() else ["1", "1", "2", "01"])
        has_label = not self.goes_wrong()
        above = self.one_of(["-1", "101", ">", *BEYOND] if self.goes_wrong() else ["0"] * 12 + ["1", "2", "99", "100"])
        query = quoted(make_query(texts, index))
        contains = ["CONTAINS", "(", column.name, ",", query, *([",", label] if has_label else []), ")", ">", above]
        conditions = [contains, *([self.condition(table)] if self.chance(0.25) else [])]
        self.random.shuffle(conditions)
        return ["SELECT", *self.shown(table, label), "FROM", name, *self.joined("WHERE", conditions), *self.ordered(table, label)]

    def select_in_catalogue(self) -> list[str]:
        """Returns a SELECT with CATSEARCH over a catalogue, where there is one, most of the time by words of its rows."""
        indexes = [index for index in self.state.indexes.values() if index.kind == "CTXCAT" or self.chance(0.05)]
        ordered = [index for index in indexes if index.sub_indexes]
        if not indexes or self.goes_wrong():
            (name, table), index = self.table(), None
            column = self.column(table)
        else:
            index = self.random.choice(ordered if ordered and self.chance(0.8) else indexes)
            name, table = index.table, self.state.tables[index.table]
            column = table.columns[index.place]
        texts = [str(row[index.place]) for row in table.rows.values()] if index is not None else []
        makers = partial(self.words_of_one, texts, index), partial(self.run_of_words, texts, index)
        query = "" if self.goes_wrong() and self.chance(0.3) else CatalogueMaker(self.random, *makers).text()
        structured = "NULL" if self.chance(0.3) else quoted(self.structured(table, index))
        above = self.one_of(["1", "-0", *BEYOND]) if self.goes_wrong() else self.one_of(["0"] * 20 + ["00"])
        catsearch = ["CATSEARCH", "(", column.name, ",", quoted(query), ",", structured, ")", ">", above]
        conditions = [catsearch, *([self.condition(table)] if self.chance(0.15) else [])]
        self.random.shuffle(conditions)
        return ["SELECT", *self.shown(table, None), "FROM", name, *self.joined("WHERE", conditions), *self.ordered(table, None)]

    def select_matching(self) -> list[str]:
        """Returns a SELECT with MATCHES over rules, where there are some, most of the time with a document that has their words."""
        indexes = [index for index in self.state.indexes.values() if index.kind == "CTXRULE" or self.chance(0.05)]
        if not indexes or self.goes_wrong():
            (name, table), index = self.table(), None
            column = self.column(table)
        else:
            index = self.random.choice(indexes)
            name, table = index.table, self.state.tables[index.table]
            column = table.columns[index.place]
        document = fitted(self.text(), TEXT_LIMIT + 1) if self.goes_wrong() and self.chance(0.3) else self.matched_text(index)
        above = self.one_of(["1", "-0", *BEYOND]) if self.goes_wrong() else self.one_of(["0"] * 20 + ["00"])
        matches = ["MATCHES", "(", column.name, ",", quoted(document), ")", ">", above]
        conditions = [matches, *([self.condition(table)] if self.chance(0.15) else [])]
        self.random.shuffle(conditions)
        return ["SELECT", *self.shown(table, None), "FROM", name, *self.joined("WHERE", conditions), *self.ordered(table, None)]

    def result_set(self) -> list[str]:
        """Asks for a result set of an index, where there is one, most of the time of words of its rows."""
        names = [name for name, index in self.state.indexes.items() if index.kind == "CONTEXT" or self.chance(0.1)]
        name = self.known(names, INDEXES)
        index = self.state.indexes.get(name)
        table = self.state.tables[index.table] if index is not None else self.table()[1]
        texts = [str(row[index.place]) for row in table.rows.values()] if index is not None else []
        query = self.searched_word(texts, index) if self.chance(0.5) else self.query(texts, index)
        return self.call("CTX_QUERY", "RESULT_SET", [self.named(name), quoted(query), quoted(self.descriptor(table))])

    def descriptor(self, table: Table) -> str:
        """Returns a descriptor of columns of a table, most of the time of such as it may name."""
        if self.goes_wrong() and self.chance(0.5):
            return self.one_of(NO_DESCRIPTORS)
        parts = [self.part_of_descriptor(table) for _ in range(self.random.choice([1, 1, 2, 3, 3, 8]))]
        lexemes = [lexeme for part in parts for lexeme in ("/", *part)][1:]
        if self.goes_wrong():
            at = self.random.randrange(len(lexemes) + 1)
            lexemes[at : at + self.random.choice([0, 1])] = [self.one_of(STRAY_IN_DESCRIPTORS)]
        text = ""
        for before, lexeme in zip(["", *lexemes], lexemes):
            is_needed = is_of_name(before[-1:]) and is_of_name(lexeme[:1])
            text += (self.one_of([" ", " ", *WHITE_SPACE]) if is_needed or self.chance(0.3) else "") + self.cased(lexeme)
        return text

    def part_of_descriptor(self, table: Table) -> list[str]:
        way = self.one_of(["count", "hits", "hits", "group"])
        if way == "count":
            return ["count"]
        columns = [column.name for column in table.columns if column.sort != "CLOB"]
        if way == "group":
            return ["group", self.column(table).name if self.goes_wrong() else self.one_of(columns)]
        first, last = self.random.choice([("1", "2"), ("1", "100000"), ("2", "3"), ("1", "1"), ("001", "10"), ("3", "99")])
        if self.goes_wrong():
            first, last = self.random.choice([("0", "2"), ("2", "1"), ("1", "100001"), ("1", self.one_of(BEYOND)), ("0", "0")])
        hits = ["hits", first, "to", last]
        if self.chance(0.3):
            return hits
        keys: list[str] = []
        for _ in range(self.random.choice([1, 1, 2, 3])):
            name = self.column(table).name if self.goes_wrong() else self.one_of(columns)
            keys += [",", "score" if self.chance(0.4) else name, *self.one_of(["", "", "asc", "desc", "desc"]).split()]
        return [*hits, "order", "by", *keys[1:]]

    def ordered(self, table: Table, label: str | None) -> list[str]:
        """Returns the order of a SELECT, if any: by one to three columns, which seldom are CLOBs, or by the score of this label."""
        if not self.chance(0.3):
            return []
        short = [column.name for column in table.columns if column.sort != "CLOB"]
        items = [[self.column(table).name if self.goes_wrong() else self.one_of(short)] for _ in range(self.random.choice([1, 1, 2, 3]))]
        if (label is not None and self.chance(0.5)) or self.goes_wrong():
            score = ["SCORE", "(", self.one_of(NUMBERS) if label is None or self.goes_wrong() else label, ")"]
            items.insert(self.random.randrange(len(items) + 1), score)
        words = ["ORDER", "BY", *self.listed([[*item, *self.one_of(["", "", "ASC", "DESC", "DESC"]).split()] for item in items])[1:-1]]
        return self.damaged(words) if self.chance(0.02) else words

    def structured(self, table: Table, index: Index | None) -> str:
        """Returns a structured query, most of the time of columns that the catalogue has in its sub-indexes, and that many rows meet."""
        names = [name for columns in (() if index is None else index.sub_indexes) for name in columns]
        there = [column for column in map(table.column, names) if column is not None]
        is_wrong = not there or self.chance(0.06)
        count = self.random.choice([0, 0, 1, 1, 1, 2]) if there or self.chance(0.2) else 0
        columns = [self.column(table) if is_wrong else self.random.choice(there) for _ in range(count + 2)]
        orders = [[column.name, *self.one_of(["", "", "ASC", "DESC", "DESC"]).split()] for column in columns[count:]]
        lexemes = self.joined("", [self.broad_condition_on(table, column) for column in columns[:count]])[1:] if count else []
        if self.chance(0.7 if there else 0.05):
            lexemes += ["ORDER", "BY", *self.listed(orders[: self.random.choice([1, 1, 2])])[1:-1]]
        if lexemes and (self.goes_wrong() or self.chance(0.03)):
            lexemes = self.damaged(lexemes)
        return self.spelt(lexemes)

    def broad_condition_on(self, table: Table, column: Column) -> list[str]:
        """Returns a condition that many rows meet, most of the time; of two values the lesser comes first."""
        place = table.place(column.name)
        if self.goes_wrong() or self.chance(0.06):
            return [column.name, self.one_of(["=", "<", ">="]), self.one_of(["''", "0", "-", "- "]) + self.one_of(["", *BORDERS, *BEYOND])]
        if place is None or not table.rows or self.chance(0.2):
            return self.condition_on(table, column)
        values = sorted(row[place] for row in self.random.choices(list(table.rows.values()), k=5))
        low, high = literal(values[0]), literal(values[-1])
        conditions = [[">=", low], ["<=", high], ["BETWEEN", low, "AND", high], ["IN", *self.listed([[literal(value)] for value in values])]]
        return [column.name, *self.random.choice(conditions)]

    def shown(self, table: Table, label: str | None) -> list[str]:
        """Returns the list of a SELECT, with the score of this label, if any."""
        if self.chance(0.15):
            return ["*"]
        if self.chance(0.15):
            return ["COUNT", "(", "*", ")"]
        items = [[self.column(table).name] for _ in range(self.random.choice([1, 2, 3]))]
        if label is not None or self.goes_wrong():
            items.append(["SCORE", "(", self.one_of(NUMBERS) if label is None or self.goes_wrong() else label, ")"])
        if self.chance(0.5):
            items.insert(0, [table.columns[0].name])
        return self.listed(items)[1:-1]

    def plain_select(self) -> list[str]:
        name, table = self.table()
        return ["SELECT", *self.shown(table, None), "FROM", name, *self.where(table), *self.ordered(table, None)]

    def view(self) -> list[str]:
        shown = self.one_of(["id", "SCORE ( 1 )", "nope"] if self.goes_wrong() else ["*", "*", "COUNT ( * )"]).split()
        where = ["WHERE", "id", "=", "1"] if self.goes_wrong() else []
        order = ["ORDER", "BY", "id"] if self.goes_wrong() else []
        has_rules = any(index.kind == "CTXRULE" for index in self.state.indexes.values())
        view = "CTX_USER_INDEX_ERRORS" if self.chance(0.6 if has_rules else 0.1) else "CTX_USER_PENDING"
        return ["SELECT", *shown, "FROM", self.cased(view), *where, *order]

    def call(self, package: str, procedure: str, arguments: list[str]) -> list[str]:
        if self.goes_wrong():
            arguments = arguments[:-1] or arguments
        if self.goes_wrong():
            arguments = [*arguments, self.one_of(["1", "'16M'", "'16'", "TRUE", "FALSE", "-5", self.one_of(BEYOND)])]
        return [self.one_of(["EXEC", "EXECUTE"]), package, ".", procedure, *self.listed([[it] for it in arguments])]

    def named(self, name: str) -> str:
        """Returns a name as an argument, where it goes wrong one that isn't spelt as a name."""
        if self.goes_wrong():
            return self.one_of(NO_NAMES)
        return quoted(self.cased(name))

    def fixed(self, text: str, *others: str) -> str:
        """Returns a fixed word as an argument, in some case; where it goes wrong another one, or what only looks like it."""
        if self.goes_wrong():
            looks_like = [cased.translate(LOOKS_LIKE) for cased in (text.lower(), text.upper())]
            return quoted(self.one_of([*others, *looks_like, text + " ", text[:-1], ""]))
        return quoted(self.cased(text))

    def create_preference(self) -> list[str]:
        name = self.named(self.new(self.state.preferences, PREFERENCES))
        return self.call("CTX_DDL", "CREATE_PREFERENCE", [name, self.fixed("BASIC_LEXER", "WORLD_LEXER", "BASIC_STOPLIST")])

    def set_attribute(self) -> list[str]:
        name = self.named(self.known(self.state.preferences, PREFERENCES))
        attribute = self.one_of([*ATTRIBUTES, *SETS, *FLAGS * 4])
        its_name = self.fixed(attribute, "whitespace", "stems", "index_stems", "continuation", "print joins")
        return self.call("CTX_DDL", "SET_ATTRIBUTE", [name, its_name, quoted(self.attribute_value(attribute))])

    def attribute_value(self, attribute: str) -> str:
        """Returns a value that an attribute takes, most of the time."""
        is_wrong = self.goes_wrong() or self.chance(0.04)
        if attribute in SINGLES:
            return self.one_of(["..", "a", "1", " ", "\u0301", "NO"] if is_wrong else ["", ".", ",", *JOINS])
        if attribute not in SETS:
            fixed = ["YES", "YES", "YES", "NO"] if attribute in FLAGS else [WITHOUT_EFFECT[attribute]]
            others = ["", "TRUE", "1", "YES ", "ye\u017f", "YES", "NO", "N\uff2f"]
            return self.cased(self.one_of(others if is_wrong else fixed))
        chars = self.random.choices(JOINS, k=self.random.choice([0, 1, 1, 1, 2, 2, 3, 3, 5, SET_LIMIT - 1, SET_LIMIT]))
        if is_wrong and self.chance(0.5):
            few = self.random.sample(JOINS, self.random.choice([1, 5, len(JOINS)]))
            chars = self.random.choices(few, k=SET_LIMIT + 1)
        elif is_wrong:
            chars.insert(self.random.randrange(len(chars) + 1), self.one_of(NO_JOINS))
        return "".join(chars)

    def create_stoplist(self) -> list[str]:
        name = self.named(self.new(self.state.stoplists, STOPLISTS))
        its_type = [self.fixed("BASIC_STOPLIST", "MULTI_STOPLIST", "BASIC_LEXER")] if self.chance(0.4) else []
        return self.call("CTX_DDL", "CREATE_STOPLIST", [name, *its_type])

    def add_stopword(self) -> list[str]:
        """Adds a word of texts, most of the time; at times one that the list has, as it is or in another case."""
        name = self.known(self.state.stoplists, STOPLISTS)
        there = sorted(self.state.stoplists.get(name, ()))
        if there and (self.goes_wrong() or self.chance(0.05)):
            word = self.one_of(there)
        elif self.goes_wrong():
            word = self.one_of(["", "x" * (STOPWORD_SIZE + 1), "ü" * 33])
        elif there and self.chance(0.1):
            word = self.spelt_otherwise(self.one_of(there))
        else:
            word = self.one_of(STOPWORDS) if self.chance(0.15) else self.word()
        return self.call("CTX_DDL", "ADD_STOPWORD", [self.named(name), quoted(word)])

    def create_group(self) -> list[str]:
        name = self.named(self.new(self.state.groups, GROUPS))
        its_type = self.one_of(["BASIC_SECTION_GROUP"] * 4 + ["NULL_SECTION_GROUP"])
        return self.call("CTX_DDL", "CREATE_SECTION_GROUP", [name, self.fixed(its_type, "HTML_SECTION_GROUP", "PATH_SECTION_GROUP")])

    def add_section(self) -> list[str]:
        """Adds a special section, or a tag to a section that is there or isn't there yet."""
        name = self.known(self.state.groups, GROUPS)
        group = self.state.groups.get(name, Group())
        if self.chance(0.6 if group.is_null else 0.15):
            special = self.one_of(["SENTENCE", "PARAGRAPH"])
            return self.call("CTX_DDL", "ADD_SPECIAL_SECTION", [self.named(name), self.fixed(special, "HEADING", "SENTENCES")])
        kinds: list[SectionKind] = ["zone", "field", "field", "visible field"]
        kind = self.random.choice(kinds)
        section = self.new([it.name for it in group.sections], SECTIONS)
        if group.sections and self.chance(0.4):
            there = self.random.choice(group.sections)
            section, kind = there.name, kind if self.goes_wrong() or self.chance(0.1) else there.kind
        if self.goes_wrong():
            section = self.one_of(["sentence", "paragraph", section])
        tag = self.one_of(group.tags) if group.tags and self.chance(0.05) else self.new(group.tags, TAGS)
        if self.goes_wrong():
            tag = self.one_of(["", "a b", "é", "x" * 31, "a.b", "<p>", "p#1", "\u212a", " p", *group.tags])
        arguments = [self.named(name), self.named(section), quoted(self.cased(tag))]
        if kind == "zone":
            return self.call("CTX_DDL", "ADD_ZONE_SECTION", arguments)
        visibility = ["TRUE"] if kind == "visible field" else ["FALSE"] if self.chance(0.3) else []
        if self.goes_wrong():
            visibility = [self.one_of(["1", "0", "'TRUE'", "'x'", "FALSE", "TRUE"])]
        return self.call("CTX_DDL", "ADD_FIELD_SECTION", [*arguments, *visibility])

    def create_index_set(self) -> list[str]:
        name = self.named(self.new(self.state.index_sets, INDEX_SETS))
        its_type = [self.one_of(["'BASIC_INDEX_SET'", "''", "TRUE"])] if self.goes_wrong() else []
        return self.call("CTX_DDL", "CREATE_INDEX_SET", [name, *its_type])

    def add_index(self) -> list[str]:
        """Adds a sub-index of one to three columns, at times the same ones again; where it goes wrong of more, or by a text that is no list.

        Most of the time a table that has the columns of the set has these too.
        """
        name = self.known(self.state.index_sets, INDEX_SETS)
        count = self.random.choice([1, 1, 2, 2, 3, 4] if self.goes_wrong() else [1, 1, 2, 2, 3])
        tables = [table for table in self.state.tables.values() if self.fits(table, self.state.index_sets.get(name, ()))]
        names = COLUMNS if not tables or self.chance(0.1) else [it.name for it in self.random.choice(tables).columns if it.fits_sub_index]
        columns = [self.cased(self.one_of(STRANGE_NAMES[:8] if self.chance(0.03) else names)) for _ in range(count)]
        if self.goes_wrong():
            columns[self.random.randrange(count)] = self.one_of(NO_COLUMNS)
        return self.call("CTX_DDL", "ADD_INDEX", [self.named(name), quoted(",".join(map(self.with_blanks, columns)))])

    def with_blanks(self, text: str) -> str:
        """Returns a text with white space around it, at times."""
        before, after = (self.one_of([" ", *WHITE_SPACE]) if self.chance(0.3) else "" for _ in range(2))
        return before + text + after

    def create_thesaurus(self) -> list[str]:
        name = self.named(self.new(self.state.thesauri, THESAURI))
        flags = [self.one_of(["TRUE", "0", "'FALSE'", "''"]) if self.goes_wrong() else "FALSE"] if self.chance(0.3) else []
        return self.call("CTX_THES", "CREATE_THESAURUS", [name, *flags])

    def create_relation(self) -> list[str]:
        """Relates two terms, often such as have relations already; at times two that have this one."""
        thesauri = self.state.thesauri
        largest = max(thesauri, key=lambda it: len(thesauri[it]), default="")
        name = self.known([largest] if largest and self.chance(0.8) else thesauri, THESAURI)
        pairs = sorted(thesauri.get(name, ()))
        first, relation, second = self.term(pairs), self.one_of([*RELATIONS, "SYN", "BT", "NT"]), self.term(pairs)
        if pairs and (self.goes_wrong() or self.chance(0.08)):
            first, relation, second = self.relation_again(self.random.choice(pairs))
        its_name = self.fixed(relation, "RT", "TT", "BTG", "SYN ")
        return self.call("CTX_THES", "CREATE_RELATION", [self.named(name), quoted(first), its_name, quoted(second)])

    def relation_again(self, pair: Pair) -> tuple[str, str, str]:
        """Returns a relation that is there, as it was given or the other way round, or a second preferred term."""
        kind, first, second = pair
        ways = {
            "SYN": [(first, "SYN", second), (second, "SYN", first)],
            "BT": [(first, "BT", second), (second, "NT", first), (second, "BT", first)],
            "PT": [(first, "PT", second), (first, "USE", second), (first, "PT", self.word()), (second, "USE", first)],
        }
        first, relation, second = self.random.choice(ways[kind])
        return self.spelt_otherwise(first), relation, self.spelt_otherwise(second)

    def term(self, pairs: Sequence[Pair]) -> str:
        """Returns a term, often one of these pairs, most of the time of words of texts."""
        if self.goes_wrong() and self.chance(0.5):
            return self.one_of(NO_TERMS)
        if pairs and self.chance(0.6):
            return self.spelt_otherwise(self.one_of(self.random.choice(pairs)[1:]))
        if self.chance(0.06):
            return self.one_of(TERMS)
        words = [self.word()] if self.chance(0.65) else self.words_of_some_text()
        text = "".join(word + (" " if self.chance(0.8) else self.one_of([*WHITE_SPACE, "  ", "-"])) for word in words[:-1]) + words[-1]
        return text if self.chance(0.9) else self.one_of([" ", "\n"]) + text + self.one_of(WHITE_SPACE)

    def words_of_some_text(self) -> list[str]:
        """Returns words that stand side by side in a text that some index has."""
        indexes = list(self.state.indexes.values())
        index = self.random.choice(indexes) if indexes else None
        texts = [] if index is None else [text for _, text in self.state.synchronised_texts(index)]
        return self.run_of_words(texts, index)

    def sync(self) -> list[str]:
        indexes = [name for name, index in self.state.indexes.items() if index.kind != "CTXCAT" or self.chance(0.2)]
        first = self.named(self.known(indexes, INDEXES))
        wrong_memories = ["'M'", "'16 M'", "'16MB'", "'-1K'", "'١K'", "''", "'16'", "16"]
        memory = self.one_of(wrong_memories if self.goes_wrong() else ["'16M'", "'0k'", "'007G'"])
        return self.call("CTX_DDL", "SYNC_INDEX", [first, *([memory] if self.chance(0.3) else [])])

    def optimize(self) -> list[str]:
        indexes = [name for name, index in self.state.indexes.items() if index.kind == "CONTEXT" or self.chance(0.1)]
        first = self.named(self.known(indexes, INDEXES))
        level = self.one_of(["'TOKEN'", "'REBUILD'", "'FULL '", "''", "1"] if self.goes_wrong() else ["'FAST'", "'FULL'", "'FULL'", "'full'", "'Fast'"])
        wrong_limits = ["0", "-1", "1000001", "9223372036854775808", "'7'", "TRUE"]
        limit = self.one_of(wrong_limits if self.goes_wrong() else ["1", "2", "3", "7", "50", "1000000"])
        has_limit = self.chance(0.5 if level.lower() == "'full'" else 0.1)
        return self.call("CTX_DDL", "OPTIMIZE_INDEX", [first, level, *([limit] if has_limit else [])])

    def policy_tokens(self) -> list[str]:
        text = quoted(self.text_for(4000) if self.chance(0.1) else self.text())
        if not self.chance(0.6 if self.state.preferences else 0.05):
            return self.call("CTX_DOC", "POLICY_TOKENS", [text])
        return self.call("CTX_DOC", "POLICY_TOKENS", [self.named(self.known(self.state.preferences, PREFERENCES)), text])

    def commit(self) -> list[str]:
        return ["COMMIT"]

    def no_statement(self) -> list[str]:
        return [self.one_of(NO_STATEMENTS)]

    # scripts

    def beginning(self) -> list[Callable[[], list[str]]]:
        """Returns the kinds of the first statements of a script, often such as make an index that copies preferences."""
        if self.chance(0.3):
            return []
        several = self.random.choice
        has_rules = "RULES" in self.built and self.chance(0.3)
        has_catalogue = "CATALOGUES" in self.built and not has_rules and self.chance(0.5)
        kinds = [self.create_table_for_rules if has_rules else self.create_table_for_catalogue if has_catalogue and self.chance(0.7) else self.create_table]
        if self.chance(0.7):
            kinds += [self.create_preference, *[self.set_attribute] * several([1, 2, 3, 5])]
        if self.chance(0.6):
            kinds += [self.create_stoplist, *[self.add_stopword] * several([1, 2, 4])]
        if self.chance(0.7):
            kinds += [self.create_group, *[self.add_section] * several([1, 2, 3, 5])]
        relations = []
        if "THESAURI" in self.built and self.chance(0.6):
            relations = [self.create_thesaurus, *[self.create_relation] * several([4, 8, 16])]
            relations += [*[self.insert] * 4, self.sync, *[self.select_by_one] * 5]
        rows = [self.insert] * several([1, 2, 4])
        if has_rules:
            rules = [self.insert] * several([2, 4, 7])
            kinds += relations[:-10] + several([[*rules, self.create_rules], [self.create_rules, *rules, self.sync]])
            return [*kinds, self.view, *[self.select_matching] * several([3, 5, 8])]
        if has_catalogue:
            if self.chance(0.85):
                kinds += [self.create_index_set, *[self.add_index] * several([1, 1, 2, 3])]
            rows_of_catalogue = [self.insert] * several([2, 4, 7])
            kinds += several([[*rows_of_catalogue, self.create_catalogue], [self.create_catalogue, *rows_of_catalogue]])
            if "CATSEARCH" in self.built:
                kinds += [self.select_in_catalogue] * several([2, 4, 6])
            if self.chance(0.4):
                return kinds
        return [*kinds, *several([[*rows, self.create_index], [self.create_index, *rows, self.sync]]), *relations]

    def statement(self) -> list[str]:
        """Returns the lexemes of a statement of some kind, most of the time of one that has something to do.

        After a change there often is a statement that may show it.
        """
        if self.planned:
            make = self.planned.pop(0)
            has_catalogue = make != self.select_in_catalogue or any(it.kind == "CTXCAT" for it in self.state.indexes.values())
            return make() if has_catalogue else self.create_catalogue()
        tables, searched = self.state.tables, [it for it in self.state.indexes.values() if it.kind == "CONTEXT"]
        catalogues = [it for it in self.state.indexes.values() if it.kind == "CTXCAT" and "CATSEARCH" in self.built]
        rules = [it for it in self.state.indexes.values() if it.kind == "CTXRULE" and "MATCHES" in self.built]
        shows = [*[self.select, self.select, self.view] * bool(searched), *[self.select_in_catalogue] * 2 * bool(catalogues)]
        shows += [self.select_matching, self.select_matching, self.view] * bool(rules)
        if self.has_changed and shows and self.chance(0.5):
            return self.random.choice(shows)()
        rows = sum(len(table.rows) for table in tables.values())
        preferences, stoplists, groups = self.state.preferences, self.state.stoplists, self.state.groups
        has_lists = preferences or stoplists or groups
        has_free = any(self.free_columns(table, kind) for table in tables for kind in self.index_kinds())
        kinds: list[tuple[Callable[[], list[str]], int]] = [
            (self.create_table, 3 if tables else 300),
            (self.insert, 1 if not tables else 40 if rows < 4 else 14),
            (self.create_index, 1 if not has_free else 5 if self.state.indexes or not has_lists else 20),
            (self.create_preference, 2 if preferences else 4),
            (self.set_attribute, 8 if preferences else 1),
            (self.create_stoplist, 2 if stoplists else 3),
            (self.add_stopword, 5 if stoplists else 1),
            (self.create_group, 2 if groups else 4),
            (self.add_section, 9 if groups else 1),
            (self.sync, 12 if searched or rules else 1),
            (self.select, 25 if searched else 2),
            (self.plain_select, 7),
            (self.view, 4),
            (self.update, 12 if rows else 1),
            (self.delete, 4 if rows else 1),
            (self.drop_table, 1),
            (self.drop_index, 3 if self.state.indexes else 1),
            (self.policy_tokens, 7),
            (self.commit, 1),
            (self.no_statement, 2),
        ]
        if "INDEX-SETS" in self.built:
            kinds += [(self.create_index_set, 1 if self.state.index_sets else 3), (self.add_index, 5 if self.state.index_sets else 1)]
        if "THESAURI" in self.built:
            kinds += [(self.create_thesaurus, 1 if self.state.thesauri else 4), (self.create_relation, 12 if self.state.thesauri else 1)]
        if searched and ("WILDCARDS" in self.built or self.state.thesauri):
            kinds.append((self.select_by_one, 14))
        if "OPTIMIZE_INDEX" in self.built:
            kinds.append((self.optimize, 8 if searched else 1))
        if "CATSEARCH" in self.built:
            kinds.append((self.select_in_catalogue, 25 if catalogues else 1))
        if "MATCHES" in self.built:
            kinds.append((self.select_matching, 25 if rules else 1))
        if "RESULT_SET" in self.built:
            kinds.append((self.result_set, 14 if searched else 1))
        makes, weights = zip(*kinds)
        return self.random.choices(makes, weights)[0]()

    def damaged(self, lexemes: list[str]) -> list[str]:
        """Returns the lexemes with one of them dropped, doubled, replaced, put before another, or exchanged with the next one."""
        at = self.random.randrange(len(lexemes))
        before, lexeme, after = lexemes[:at], lexemes[at], lexemes[at + 1 :]
        stray = self.one_of(STRAY)
        middles = [[], [lexeme, lexeme], [stray], [stray, lexeme]]
        return self.random.choice([*([*before, *middle, *after] for middle in middles), [*before, *after[:1], lexeme, *after[1:]]])

    def spelt(self, lexemes: Sequence[str]) -> str:
        """Returns a text of these lexemes, with blanks where they are needed; at times with odd ones and in another case."""
        if self.chance(0.85):
            return "".join((" " if needs_blank(before, it) else "") + it for before, it in zip(["", *lexemes], lexemes))
        text = ""
        for before, lexeme in zip(["", *lexemes], lexemes):
            blanks = self.one_of(BLANKS) if self.chance(0.4) or needs_blank(before, lexeme) else ""
            text += blanks + (self.random.choice([str.upper, str.lower, str.title])(lexeme) if lexeme in KEYWORDS else lexeme)
        return text

    def piece(self) -> bytes:
        """Returns a statement with its end, and keeps up the state."""
        is_planned = bool(self.planned) and self.chance(0.9)
        self.wrong = 0 if is_planned else self.random.choice([0, 0, 0, 0, 0, 0, 0, 0.05, 0.1, 0.2, 0.5])
        lexemes = self.statement()
        if not is_planned and self.chance(0.05):
            lexemes = self.damaged(lexemes)
        statement = self.spelt(lexemes).encode()
        if self.chance(0.01):
            at = self.random.randrange(len(statement) + 1)
            stray = self.random.choice([*NO_UTF_8, b"\0", "\ufeff".encode()])
            statement = statement[:at] + stray + statement[at:]
        if self.chance(0.003):
            size = STATEMENT_LIMIT + self.random.choice([0, 1])
            statement += b" " * (size - len(statement))
        self.follow(statement)
        return statement + self.one_of(ENDS).encode()

    def follow(self, statement: bytes) -> None:
        """Keeps up the state after a statement."""
        its_answer = answer(self.state, statement, self.built)
        self.has_changed = its_answer.after != its_answer.before
        self.state = its_answer.after

    def many(self) -> list[bytes]:
        """Returns statements that reach a limit, and one more."""
        group = ["EXEC CTX_DDL.CREATE_SECTION_GROUP('many', 'BASIC_SECTION_GROUP')"]
        zone, field = (f"EXEC CTX_DDL.ADD_{kind}_SECTION('many', " for kind in ("ZONE", "FIELD"))
        fields = [f"{field}'s{i}', 't{i}', {self.one_of(['TRUE', 'FALSE'])})" for i in range(FIELD_LIMIT + 1)]
        ways = [
            [f"CREATE TABLE many{i} (id NUMBER PRIMARY KEY)" for i in range(TABLE_LIMIT + 1)],
            [f"EXEC CTX_DDL.CREATE_PREFERENCE('many{i}', 'BASIC_LEXER')" for i in range(LIST_LIMIT + 1)],
            [f"EXEC CTX_DDL.CREATE_STOPLIST('many{i}')" for i in range(LIST_LIMIT + 1)],
            [f"EXEC CTX_DDL.CREATE_SECTION_GROUP('many{i}', 'NULL_SECTION_GROUP')" for i in range(LIST_LIMIT + 1)],
            [*group, *(f"{zone}'s{i}', 't{i}')" for i in range(ZONE_LIMIT + 1)), f"{field}'t', 't', TRUE)", f"{zone}'s0', 't')"],
            [*group, *fields, f"{zone}'t', 't')", f"{field}'s0', 't')", f"{field}'s0', 'u', TRUE)"],
            [*group, *(f"{zone}'s', 't{i}')" for i in range(TAG_LIMIT + 1)), f"{zone}'t', 't')", f"{zone}'s', 't0')"],
        ]
        if "INDEX-SETS" in self.built:
            sub_indexes = [f"EXEC CTX_DDL.ADD_INDEX('many', '{self.one_of(['id', 'price,id', 'c,b,a'])}')" for _ in range(SUB_INDEX_LIMIT + 1)]
            ways += [[f"EXEC CTX_DDL.CREATE_INDEX_SET('many{i}')" for i in range(LIST_LIMIT + 1)], ["EXEC CTX_DDL.CREATE_INDEX_SET('many')", *sub_indexes]]
        if "CATALOGUES" in self.built:
            ways.append(self.many_indexes())
        if "THESAURI" in self.built:
            ways += [[f"EXEC CTX_THES.CREATE_THESAURUS('many{i}')" for i in range(LIST_LIMIT + 1)], self.many_terms()]
        statements = self.random.choice(ways)
        if self.chance(0.05):
            words = (f"EXEC CTX_DDL.ADD_STOPWORD('many', 'w{i}')" for i in range(STOPWORD_LIMIT + 1))
            statements = ["EXEC CTX_DDL.CREATE_STOPLIST('many')", *words]
        for statement in statements:
            self.follow(statement.encode())
        return [f"{statement};\n".encode() for statement in statements]

    def many_indexes(self) -> list[str]:
        """Returns statements that make so many indexes on a table as it may have, of both kinds, and one more."""
        columns = [f"c{i}" for i in range(1, COLUMN_LIMIT)]
        places = [(column, kind) for column in columns for kind in ("CONTEXT", "CTXCAT", *(["CTXRULE"] if "RULES" in self.built else []))]
        chosen = self.random.sample(places, INDEX_LIMIT + 1)
        table = ", ".join(["id NUMBER PRIMARY KEY", *(f"{column} VARCHAR2(100)" for column in columns)])
        indexes = [f"CREATE INDEX many{i} ON many({column}) INDEXTYPE IS {kind}" for i, (column, kind) in enumerate(chosen)]
        values = ", ".join(quoted(self.word()[:20]) for _ in columns)
        return [f"CREATE TABLE many ({table})", *indexes[:-1], f"INSERT INTO many VALUES (1, {values})", indexes[-1], "DROP INDEX many0", indexes[-1]]

    def many_terms(self) -> list[str]:
        """Returns statements that relate so many terms as an operator may have, and one more, with queries before the last one and behind it."""
        table, column = "docs", "body"
        for index in self.state.indexes.values():
            table, column = index.table, self.state.tables[index.table].columns[index.place].name
        queries = [f"SELECT COUNT(*) FROM {table} WHERE CONTAINS({column}, '{it}(quick, many)') > 0" for it in ("SYN", "NT", "BT")]
        relation, level = self.one_of(["'SYN'", "'NT'"]), EXPANSION_LIMIT - 1
        relations = [f"EXEC CTX_THES.CREATE_RELATION('many', 'quick', {relation}, 't{i}')" for i in range(level + 1)]
        return ["EXEC CTX_THES.CREATE_THESAURUS('many')", *relations[:-1], *queries, relations[-1], *queries]

    def run(self, pieces: list[bytes]) -> Run:
        """Returns a run, at times without the end of the last piece, or with a `;` and no newline; at times with a low limit."""
        if self.chance(0.15):
            pieces = [*pieces[:-1], pieces[-1].rstrip(b"; \t\r\n") + self.random.choice([b"", b";", b"; \t"])]
        limit = self.random.choice([4096, self.random.randrange(4096, 20_000)]) if self.chance(0.2) else None
        return Run(tuple(pieces), limit)

    def case(self, statements: int) -> Case:
        many_at = self.random.randrange(statements) if self.chance(0.02) else None
        pieces = []
        for number in range(statements):
            pieces += self.many() if number == many_at else []
            pieces.append(self.piece())
        split = self.random.randrange(len(pieces)) if self.chance(0.3) else 0
        return tuple(self.run(run) for run in (pieces[:split], pieces[split:]) if run)


def case_of(seed: str, statements: int, built: frozenset[str]) -> Case:
    """Returns the case of a seed."""
    return Maker(seed, built).case(statements)
