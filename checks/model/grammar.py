"""The grammar of statements."""

from __future__ import annotations

from collections import deque
from collections.abc import Callable
from typing import TypeVar

from conditions import COMPARISONS, Condition
from lexemes import NotUnderstood, Whole, lexemes, whole
from procedures import (
    AddFieldSection,
    AddIndex,
    AddSpecialSection,
    AddStopword,
    AddZoneSection,
    Argument,
    Call,
    CreateIndexSet,
    CreatePreference,
    CreateRelation,
    CreateSectionGroup,
    CreateStoplist,
    CreateThesaurus,
    OptimizeIndex,
    PolicyTokens,
    ResultSet,
    SetAttribute,
    SyncIndex,
)
from reduction import SEARCHES
from state import Column, Kind, Operand
from statements import (
    VIEWS,
    Catsearch,
    Commit,
    Contains,
    CreateIndex,
    CreateTable,
    Delete,
    DropIndex,
    DropTable,
    Insert,
    Item,
    Matches,
    OrderItem,
    Score,
    Search,
    Select,
    SelectList,
    SelectView,
    Statement,
    Update,
)

# each with the feature that has to be built, if any
PROCEDURES: dict[tuple[str, str], tuple[str | None, type[Call]]] = {
    ("ctx_ddl", "create_preference"): ("PREFERENCES", CreatePreference),
    ("ctx_ddl", "set_attribute"): ("PREFERENCES", SetAttribute),
    ("ctx_ddl", "create_stoplist"): ("STOPLISTS", CreateStoplist),
    ("ctx_ddl", "add_stopword"): ("STOPLISTS", AddStopword),
    ("ctx_ddl", "create_section_group"): ("SECTION-GROUPS", CreateSectionGroup),
    ("ctx_ddl", "add_zone_section"): ("SECTION-GROUPS", AddZoneSection),
    ("ctx_ddl", "add_field_section"): ("SECTION-GROUPS", AddFieldSection),
    ("ctx_ddl", "add_special_section"): ("SECTION-GROUPS", AddSpecialSection),
    ("ctx_ddl", "create_index_set"): ("INDEX-SETS", CreateIndexSet),
    ("ctx_ddl", "add_index"): ("INDEX-SETS", AddIndex),
    ("ctx_ddl", "sync_index"): (None, SyncIndex),
    ("ctx_ddl", "optimize_index"): ("OPTIMIZE_INDEX", OptimizeIndex),
    ("ctx_thes", "create_thesaurus"): ("THESAURI", CreateThesaurus),
    ("ctx_thes", "create_relation"): ("THESAURI", CreateRelation),
    ("ctx_doc", "policy_tokens"): (None, PolicyTokens),
    ("ctx_query", "result_set"): ("RESULT_SET", ResultSet),
}

Parsed = TypeVar("Parsed")


class Parser:
    """Reads a statement from left to right; `NotUnderstood` where it isn't one."""

    def __init__(self, text: str, built: frozenset[str]) -> None:
        self.rest = deque(lexemes(text))
        self.built = built

    def need(self, feature: str) -> None:
        if feature not in self.built:
            raise NotUnderstood

    def is_at(self, spelling: str) -> bool:
        """Returns whether the next lexeme is this keyword or sign."""
        return bool(self.rest) and self.rest[0].kind in ("keyword", "sign") and self.rest[0].value == spelling

    def takes(self, spelling: str) -> bool:
        """Goes past this keyword or sign, where it is next, and returns whether it was."""
        is_next = self.is_at(spelling)
        if is_next:
            self.rest.popleft()
        return is_next

    def expect(self, *spellings: str) -> None:
        for spelling in spellings:
            if not self.takes(spelling):
                raise NotUnderstood

    def value_of(self, kind: str) -> str:
        if not self.rest or self.rest[0].kind != kind:
            raise NotUnderstood
        return self.rest.popleft().value

    def name(self) -> str:
        return self.value_of("name")

    def number(self) -> Whole:
        return whole(self.value_of("number"))

    def list_of(self, item: Callable[[], Parsed], separator: str = ",") -> tuple[Parsed, ...]:
        items = [item()]
        while self.takes(separator):
            items.append(item())
        return tuple(items)

    def bracketed(self, item: Callable[[], Parsed]) -> Parsed:
        self.expect("(")
        inside = item()
        self.expect(")")
        return inside

    def operand(self) -> Operand:
        if self.rest and self.rest[0].kind == "text":
            return self.value_of("text")
        is_negative = self.takes("-")
        return whole(self.value_of("number"), is_negative)

    def statement(self) -> Statement | None:
        """Returns the statement that the text is, or None where it has no lexeme."""
        if not self.rest:
            return None
        read = next((read for keyword, read in self.beginnings().items() if self.takes(keyword)), None)
        if read is None:
            raise NotUnderstood
        statement = read()
        if self.rest:
            raise NotUnderstood
        return statement

    def beginnings(self) -> dict[str, Callable[[], Statement]]:
        return {
            "CREATE": self.create,
            "DROP": self.drop,
            "INSERT": self.insert,
            "UPDATE": self.update,
            "DELETE": self.delete,
            "SELECT": self.select,
            "EXEC": self.call,
            "EXECUTE": self.call,
            "COMMIT": self.commit,
        }

    def create(self) -> Statement:
        if self.takes("TABLE"):
            return self.create_table()
        self.expect("INDEX")
        index = self.name()
        self.expect("ON")
        table = self.name()
        column = self.bracketed(self.name)
        self.expect("INDEXTYPE", "IS")
        if self.takes("CTXSYS"):
            self.expect(".")
        kind = self.index_kind()
        return CreateIndex(index, table, column, kind, self.parameters(), self.parallel())

    def parameters(self) -> str:
        if not self.takes("PARAMETERS"):
            return ""
        self.need("PARAMETERS")
        return self.bracketed(lambda: self.value_of("text"))

    def parallel(self) -> Whole | None:
        if not self.takes("PARALLEL"):
            return None
        self.need("PARALLEL")
        return self.number()

    def index_kind(self) -> Kind:
        if self.takes("CTXCAT"):
            self.need("CATALOGUES")
            return "CTXCAT"
        if self.takes("CTXRULE"):
            self.need("RULES")
            return "CTXRULE"
        self.expect("CONTEXT")
        return "CONTEXT"

    def create_table(self) -> Statement:
        name = self.name()
        columns, is_primary = zip(*self.bracketed(lambda: self.list_of(self.column)))
        return CreateTable(name, columns, is_primary)

    def column(self) -> tuple[Column, bool]:
        column = self.typed(self.name())
        is_primary = self.takes("PRIMARY")
        if is_primary:
            self.expect("KEY")
        return column, is_primary

    def typed(self, name: str) -> Column:
        if self.takes("NUMBER"):
            return Column(name, "NUMBER")
        if self.takes("CLOB"):
            return Column(name, "CLOB")
        self.expect("VARCHAR2")
        return Column(name, "VARCHAR2", self.bracketed(self.number))

    def drop(self) -> Statement:
        self.need("DROP")
        if self.takes("TABLE"):
            return DropTable(self.name())
        self.expect("INDEX")
        return DropIndex(self.name())

    def insert(self) -> Statement:
        self.expect("INTO")
        table = self.name()
        columns = self.bracketed(lambda: self.list_of(self.name)) if self.is_at("(") else None
        self.expect("VALUES")
        return Insert(table, columns, self.bracketed(lambda: self.list_of(self.operand)))

    def update(self) -> Statement:
        self.need("UPDATE")
        table = self.name()
        self.expect("SET")
        assigns = self.list_of(self.assign)
        return Update(table, assigns, self.where())

    def assign(self) -> tuple[str, Operand]:
        column = self.name()
        self.expect("=")
        return column, self.operand()

    def delete(self) -> Statement:
        self.need("DELETE")
        self.takes("FROM")
        return Delete(self.name(), self.where())

    def where(self) -> tuple[Condition, ...]:
        return self.list_of(self.condition, "AND") if self.takes("WHERE") else ()

    def condition(self) -> Condition:
        column = self.name()
        if self.takes("BETWEEN"):
            low = self.operand()
            self.expect("AND")
            return Condition(column, "BETWEEN", (low, self.operand()))
        if self.takes("IN"):
            return Condition(column, "IN", self.bracketed(lambda: self.list_of(self.operand)))
        sign = self.value_of("sign")
        if sign not in COMPARISONS:
            raise NotUnderstood
        return Condition(column, sign, (self.operand(),))

    def select(self) -> Statement:
        items = self.select_list()
        self.expect("FROM")
        table = self.name()
        predicates = self.list_of(self.predicate, "AND") if self.takes("WHERE") else ()
        orders = self.orders()
        queries = sum(not isinstance(predicate, Condition) for predicate in predicates)
        if queries > 1:
            raise NotUnderstood
        if table in VIEWS:
            self.need(table.upper())
            return SelectView(items, bool(predicates or orders), table == "ctx_user_index_errors")
        if queries == 0:
            self.need("PLAIN-SELECT")
        return Select(items, table, predicates, orders)

    def orders(self) -> tuple[OrderItem, ...]:
        if not self.takes("ORDER"):
            return ()
        self.need("ORDER BY")
        self.expect("BY")
        return self.list_of(self.order)

    def order(self) -> OrderItem:
        item = self.item()
        is_descending = self.takes("DESC")
        if not is_descending:
            self.takes("ASC")
        return OrderItem(item, is_descending)

    def select_list(self) -> SelectList:
        if self.takes("*"):
            self.need("STAR")
            return "*"
        if self.takes("COUNT"):
            self.need("COUNT")
            self.expect("(", "*", ")")
            return "COUNT(*)"
        return self.list_of(self.item)

    def item(self) -> Item:
        return Score(self.bracketed(self.number)) if self.takes("SCORE") else self.name()

    def predicate(self) -> Condition | Search:
        if self.takes("CONTAINS"):
            return self.contains()
        if self.takes("CATSEARCH"):
            self.need("CATSEARCH")
            return self.catsearch()
        if self.takes("MATCHES"):
            self.need("MATCHES")
            return self.matches()
        self.need("CONDITIONS")
        return self.condition()

    def contains(self) -> Contains:
        self.expect("(")
        column = self.name()
        self.expect(",")
        query = self.value_of("text")
        label = self.number() if self.takes(",") else None
        self.expect(")", ">")
        return Contains(column, query, label, self.number(), SEARCHES - self.built)

    def catsearch(self) -> Catsearch:
        self.expect("(")
        column = self.name()
        self.expect(",")
        query = self.value_of("text")
        self.expect(",")
        structured = None if self.takes("NULL") else self.value_of("text")
        self.expect(")", ">")
        if self.number() != 0:
            raise NotUnderstood
        return Catsearch(column, query, structured)

    def matches(self) -> Matches:
        self.expect("(")
        column = self.name()
        self.expect(",")
        document = self.value_of("text")
        self.expect(")", ">")
        if self.number() != 0:
            raise NotUnderstood
        return Matches(column, document)

    def call(self) -> Statement:
        package = self.name()
        self.expect(".")
        procedure = self.name()
        arguments = self.bracketed(lambda: () if self.is_at(")") else self.list_of(self.argument))
        if (package, procedure) not in PROCEDURES:
            raise NotUnderstood
        feature, call = PROCEDURES[package, procedure]
        if feature is not None:
            self.need(feature)
        if call is not PolicyTokens:
            return call(arguments)
        if len(arguments) == 2:  # the first one names a preference
            self.need("PREFERENCES")
        return PolicyTokens(arguments, "PREFERENCES" in self.built)

    def argument(self) -> Argument:
        if self.takes("TRUE"):
            return True
        return False if self.takes("FALSE") else self.operand()

    def commit(self) -> Statement:
        self.need("COMMIT")
        return Commit()
