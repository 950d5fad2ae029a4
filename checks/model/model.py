#!/usr/bin/env python3
"""A plain and slow second implementation of the language of scripts.

    checks/model/model.py [--without NAME,NAME] [--with NAME,NAME] < SCRIPT

It says what the program is to reply to a script over a new store that has room for everything. It shares nothing with the
program: of each statement it collects all refusals that hold and takes the first in their order, and a search goes over all
words of all synchronised rows. `checks/model/compare` compares the program with it.
"""

from __future__ import annotations

import argparse
import sys
from collections.abc import Iterator
from dataclasses import dataclass

sys.dont_write_bytecode = True  # no folder of compiled modules is left here

from grammar import Parser
from lexemes import NotUnderstood, cut
from reduction import SEARCHES
from state import State
from statements import NOT_UNDERSTOOD, TOO_LONG_STATEMENT, rank
from weights import least_weight, room

# What is built, beside CREATE TABLE, CREATE INDEX of the kind CONTEXT, INSERT, SYNC_INDEX, POLICY_TOKENS and a SELECT of columns and scores by one
# CONTAINS. A statement that needs anything else isn't understood. What queries may have that is searched only where it is built
# has names too (`reduction.SEARCHES`): a query that needs one that isn't built is refused by E21, at the place 1.
BUILT = frozenset({
    "UPDATE",
    "DELETE",
    "DROP",
    "COMMIT",
    "CONDITIONS",  # conditions on columns in a SELECT
    "PLAIN-SELECT",  # a SELECT without CONTAINS
    "STAR",  # SELECT *
    "COUNT",  # SELECT COUNT(*)
    "ORDER BY",  # the order of a SELECT
    "CTX_USER_PENDING",
    "CTX_USER_INDEX_ERRORS",
    "PREFERENCES",  # CREATE_PREFERENCE, SET_ATTRIBUTE, and POLICY_TOKENS with a preference
    "STOPLISTS",  # CREATE_STOPLIST, ADD_STOPWORD
    "SECTION-GROUPS",  # CREATE_SECTION_GROUP, ADD_ZONE_SECTION, ADD_FIELD_SECTION, ADD_SPECIAL_SECTION
    "INDEX-SETS",  # CREATE_INDEX_SET, ADD_INDEX
    "PARAMETERS",  # PARAMETERS of a CREATE INDEX
    "PARALLEL",  # PARALLEL of a CREATE INDEX
    "CATALOGUES",  # CREATE INDEX of the kind CTXCAT
    "CATSEARCH",
    "RULES",  # CREATE INDEX of the kind CTXRULE
    "MATCHES",
    "RESULT_SET",
    "OPERATORS",  # queries of several words, weights and thresholds
    "PHRASES",
    "NEAR",
    "WITHIN",
    "THESAURI",  # CREATE_THESAURUS, CREATE_RELATION, and the operators of queries
    "WILDCARDS",
    "DEFINESCORE",
    "OPTIMIZE_INDEX",
})

STATEMENT_LIMIT = 65_536


@dataclass(frozen=True)
class Answer:
    """What is to be answered to a statement, where the store has room for it.

    What a store weighs is known but for the postings of CONTEXT indexes. A statement makes them heavier only where it makes rows synchronised,
    and then the other entries weigh more too; so it is known whether a store weighs more after a statement. Only after an optimisation it
    isn't: rows of postings that are split anew weigh more in some cases, since each entry weighs 64 bytes at least, and with a limit the
    index's entry may keep a longer place.
    """

    reply: str
    before: State
    after: State
    takes_room: bool = False
    may_lengthen: bool = False

    @property
    def grows(self) -> bool:
        return self.takes_room and least_weight(self.after) > least_weight(self.before)

    def may_be_full(self, limit: int) -> bool:
        """Returns whether it may be answered that the store is full."""
        return (self.grows or self.may_lengthen) and room(self.after) > limit

    def must_be_full(self, limit: int) -> bool:
        """Returns whether nothing else may be answered."""
        return least_weight(self.after) > limit and self.grows


def answer(state: State, statement: bytes, built: frozenset[str] = BUILT, is_rest: bool = False) -> Answer:
    """Returns the answer to a statement, or to the rest of a script, which is never done."""
    if len(statement) > STATEMENT_LIMIT:
        return Answer(TOO_LONG_STATEMENT.reply, state, state)
    try:
        parsed = Parser(statement.decode(), built).statement()
    except (NotUnderstood, UnicodeDecodeError):
        return Answer(NOT_UNDERSTOOD.reply, state, state)
    if parsed is None:
        return Answer("", state, state)
    if is_rest:
        return Answer(NOT_UNDERSTOOD.reply, state, state)
    refusal = min(parsed.refusals(state), key=rank, default=None)
    if refusal is not None:
        return Answer(refusal.reply, state, state)
    after = state.copy()
    reply = parsed.effect(after)
    return Answer(reply, state, after, parsed.takes_room, parsed.may_lengthen)


def parts(script: bytes) -> list[tuple[bytes, bool]]:
    """Returns the statements of a script and its rest, each with whether it is the rest."""
    statements, rest = cut(script)
    return [*((statement, False) for statement in statements), (rest, True)]


def replies(script: bytes, built: frozenset[str] = BUILT) -> Iterator[str]:
    """Yields the reply to each statement of a script over a new store that has room for everything, and to its rest."""
    state = State()
    for statement, is_rest in parts(script):
        its_answer = answer(state, statement, built, is_rest)
        yield its_answer.reply
        state = its_answer.after


def features(text: str) -> frozenset[str]:
    """Returns the features that a text names."""
    names = frozenset(text.split(",")) - {""}
    if not names <= BUILT | SEARCHES:
        raise argparse.ArgumentTypeError(f"known are {', '.join(sorted(BUILT | SEARCHES))}")
    return names


def add_features(arguments: argparse.ArgumentParser) -> None:
    """Adds the options that turn features off and on."""
    none: frozenset[str] = frozenset()
    for option, meaning in (("--without", "features that aren't built"), ("--with", "features that are built, too")):
        arguments.add_argument(option, metavar="NAME,NAME", type=features, default=none, help=meaning)


def built_by(chosen: argparse.Namespace) -> frozenset[str]:
    """Returns the features that are built, by the options that were given."""
    options: dict[str, frozenset[str]] = vars(chosen)
    return (BUILT | options["with"]) - options["without"]


def main() -> None:
    arguments = argparse.ArgumentParser(description="says what the program is to reply to a script over a new store")
    add_features(arguments)
    built = built_by(arguments.parse_args())
    for reply in replies(sys.stdin.buffer.read(), built):
        sys.stdout.buffer.write(reply.encode())


if __name__ == "__main__":
    main()
