"""Random query texts, most of them well formed, over words that are handed in."""

from __future__ import annotations

import random
from collections.abc import Callable, Iterator, Mapping, Sequence
from dataclasses import dataclass

from queries import (
    BYTE_LIMIT,
    DEFAULT_THESAURUS,
    FUNCTIONS,
    LEXEME_LIMIT,
    OPEN_LIMIT,
    OPERAND_LIMIT,
    OPERATOR_LIMIT,
    REFUSED_FUNCTIONS,
    REFUSED_SIGNS,
    SIGNS,
    UNSCORED,
    is_plain,
)
from texts import WHITE_SPACE, ascii_lower, ascii_upper
from thesauri import Pair

# how tightly each operator binds. What is looser than it should be where it stands is put in parentheses
LOOSE, AND, WITHIN, NOT, MINUS, CHANGED, NEAR, TERM = range(1, 9)
BINDING = {"OR": LOOSE, "AND": AND, "NOT": NOT, "MINUS": MINUS}
BLANKS = [*[" "] * 100, *["  ", "\n", "\t"] * 3, *WHITE_SPACE]
# in each the ones that are taken, and others, some of them at the border
TENTHS = (["0.1", ".5", "1", "1.5", "2", "3", "10", "10.0", "01.0"], ["0", "0.0", "10.1", "5.", "1.55", "x", "1%", "\u0663", "{2}", "1,5"])
THRESHOLDS = (["0", "0", "1", "1", "2", "5", "99", "100", "007"], ["101", "1.0", "x", "-1", "9" * 30, "\\1", "_"])
SPANS = (["0", "1", "2", "3", "5", "20", "100"], ["101", "x", "TRUE", "2.0"])
LEVELS = (["1", "2", "99", "02"], ["0", "100", "9x", "{2}", "é"])
SUM_NUMBERS = (["0", "1", "2", "5", "10", "1000", "OCCURRENCE", "Discrete"], ["1001", "x", "1+1", "2.5", "+", "%", *UNSCORED])
OPERATORS_OF_THESAURI = ("SYN", "PT", "BT", "NT")
NAMES = (["th", "default", "s" * 30, "my_th", "TRUE"], ["s" * 31, "{th}", "5", "é", "near", "th%"])
STRAY = [
    *SIGNS, *REFUSED_SIGNS, "{", "}", "\\", "{a", "a}", "%", "_", "{}", "accum", "AND", "or", "WITHIN", "near", "NEAR ( (", "5", "0.1", "101", ".", "é", "日本 ",
    *("SYN (", "about (", "fuzzy", "DEFINESCORE (", "TRUE", "+", "+ +", "IGNORE", ", ,", "((", "))", "\u200b", "\u0301"),
]


@dataclass(frozen=True)
class Made:
    """The lexemes of a query, and how tightly what joins them binds."""

    lexemes: list[str]
    binding: int

    def at(self, binding: int) -> list[str]:
        """Returns the lexemes for a place that needs one that binds as tightly, or more."""
        return self.lexemes if self.binding >= binding else ["(", *self.lexemes, ")"]


def separated(items: Sequence[list[str]], separator: str) -> list[str]:
    return [lexeme for item in items for lexeme in (separator, *item)][1:]


class QueryMaker:
    """Makes query texts.

    What isn't built (`reduction.SEARCHES`) is seldom made, since a query that has it is refused as a whole. Operators alone are made as
    often without being built: reduction may leave one word of them, and their faults are compared.
    """

    def __init__(
        self,
        chooser: random.Random,
        word: Callable[[], str],
        run_of_words: Callable[[], list[str]],
        sections: Sequence[str],
        thesauri: Mapping[str, Sequence[Pair]],
        built: frozenset[str],
    ) -> None:
        self.random = chooser
        self.word = word
        self.run_of_words = run_of_words
        self.sections = sections
        self.thesauri = thesauri
        self.built = built
        self.wrong = chooser.choice([0, 0, 0, 0, 0, 0.05, 0.15])  # how often a choice goes wrong

    def chance(self, probability: float) -> bool:
        return self.random.random() < probability

    def one_of(self, items: Sequence[str]) -> str:
        return self.random.choice(items)

    def weight(self, feature: str) -> int:
        """Returns how often a feature is to be used. Without a thesaurus its operators are refused, and so are seldom made."""
        if feature == "THESAURI":
            return 15 if self.thesauri else 1
        return 6 if feature in self.built else 1

    def of_range(self, choices: tuple[list[str], list[str]]) -> str:
        """Returns one that is taken, or where it goes wrong another one."""
        right, others = choices
        return self.one_of(others if self.chance(self.wrong) else right)

    def cased(self, word: str) -> str:
        return word if self.chance(0.6) else self.random.choice([ascii_upper, ascii_lower, str.title])(word)

    # words and phrases

    def written(self, word: str) -> str:
        """Returns a word as a query has it: with escapes or braces where it needs them, and at times where it doesn't."""
        needs_none = is_plain(word) and not any(char in word for char in "%_")
        if needs_none and self.chance(0.85) or self.chance(self.wrong):
            return word or "{}"
        if self.chance(0.4) or not word:
            return "{" + word.replace("}", "}}") + "}"
        return "".join("\\" + char if not is_plain(char) or char in "%_" or self.chance(0.2) else char for char in word)

    def pattern(self) -> str:
        """Returns a word with wildcards, often one that some word fits."""
        word = self.word()
        at = self.random.randrange(len(word) + 1)
        begin, end = self.written(word[:at]) if at else "", self.written(word[at + 1 :]) if word[at + 1 :] else ""
        forms = ["%", begin + "%", begin + "%" + end, begin + "_" + end, "%" + end, "_" + end, begin + "__%", "%%"]
        if "WILDCARDS" in self.built:
            size = max(0, len(word) - at + self.random.choice([-1, 0, 0, 1]))
            forms += [begin + "_" * size, "%_" + end, begin + "%_%" + end, "_" * self.random.choice([1, 2, 3, len(word)]), "%" + begin]
        return self.one_of([form for form in forms if form])

    def slot(self) -> list[str]:
        count = self.random.choice([1] * 8 + [2, 2, 3])
        has_pattern = self.chance(0.02 * self.weight("WILDCARDS"))
        words = [[self.pattern() if has_pattern and place == 0 else self.written(self.word())] for place in range(count)]
        if count > 1 and self.chance(0.04):  # which mostly isn't one word to the lexer
            words[0] = [self.one_of(["+", "{}", self.written(f"{self.word()}-{self.word()}")])]
        self.random.shuffle(words)
        return separated(words, self.operator("EQUIV"))

    def phrase(self) -> list[str]:
        """Returns a phrase, mostly of one word; one of several words often occurs."""
        if not self.chance(0.02 * self.weight("PHRASES")):
            return self.slot()
        if self.chance(0.7):
            return [self.written(word) for word in self.run_of_words()]
        return [lexeme for _ in range(self.random.choice([2, 2, 3])) for lexeme in self.slot()]

    def expansion(self) -> list[str]:
        function, term = self.one_of(OPERATORS_OF_THESAURI), ""
        thesaurus = self.one_of(list(self.thesauri)) if self.thesauri and self.chance(0.9) else None
        related = [name for name, pairs in self.thesauri.items() if pairs]
        if thesaurus is not None and related and self.chance(0.9):
            thesaurus = self.one_of(related)
            function, term = self.begin_of(self.random.choice(self.thesauri[thesaurus]))
        words = [self.written(word) for word in self.words_of_term(term)]
        is_leveled = function in ("BT", "NT") and self.chance(0.6) or self.chance(self.wrong)
        level = [",", self.of_range(LEVELS)] if is_leveled else []
        name = self.named(thesaurus)
        return [self.cased(function), "(", *words, *level, *name, ")"]

    def begin_of(self, pair: Pair) -> tuple[str, str]:
        """Returns an operator and a term, most of the time such as lead to another term by this pair."""
        kind, first, second = pair
        if self.chance(0.15):
            return self.one_of(OPERATORS_OF_THESAURI), self.one_of([first, second])
        if kind == "PT" or kind == "BT" and self.chance(0.5):
            return kind, first
        return ("NT", second) if kind == "BT" else (kind, self.one_of([first, second]))

    def words_of_term(self, term: str) -> Iterator[str]:
        """Yields the words of a term, or where it is empty some words."""
        if term:
            cased = self.random.choice([str, str, str.upper, str.title])(term)
            yield from cased.split(" ") if self.chance(0.8) else [cased]
            return
        for _ in range(self.random.choice([1, 1, 2])):
            yield self.word()

    def named(self, thesaurus: str | None) -> list[str]:
        """Returns the argument that names a thesaurus, or none, where that may be left out, or any may be named."""
        if thesaurus is None or self.chance(self.wrong):
            return [",", self.of_range(NAMES)] if self.chance(0.5) else []
        return [] if thesaurus == DEFAULT_THESAURUS and self.chance(0.7) else [",", self.cased(thesaurus)]

    def term(self) -> list[str]:
        return self.expansion() if self.chance(0.01 * self.weight("THESAURI")) else self.phrase()

    def terms(self, count: int) -> Made:
        items = [self.term() for _ in range(count)]
        return Made(separated(items, self.operator("OR")), TERM if count == 1 else LOOSE)

    def operands(self) -> list[Made]:
        count = self.random.choice([2] * 8 + [3] * 4 + [4, OPERAND_LIMIT, OPERAND_LIMIT + 1])
        return [self.terms(self.random.choice([1, 1, 1, 2])) for _ in range(1 if self.chance(self.wrong) else count)]

    # operators

    def operator(self, name: str) -> str:
        """Returns an operator as its sign or its word."""
        sign = next((it for it, operator in SIGNS.items() if operator == name), name)
        return self.cased(name) if self.chance(0.5) else sign

    def made(self, depth: int) -> Made:
        """Returns a query of at most so many levels of operators."""
        if depth == 0 or self.chance(0.15):
            return Made(self.term(), TERM)
        kinds: list[tuple[Callable[[int], Made], int]] = [
            (self.joined, 60),
            (self.changed, 25),
            (self.group, 8),
            (self.chain, 2 * self.weight("NEAR")),
            (self.near, 2 * self.weight("NEAR")),
            (self.within, 3 * self.weight("WITHIN")),
            (self.scored, 2 * self.weight("DEFINESCORE")),
        ]
        makes, weights = zip(*kinds)
        return self.random.choices(makes, weights)[0](depth - 1)

    def joined(self, depth: int) -> Made:
        name = self.one_of(list(BINDING))
        binding = BINDING[name]
        query = self.made(depth).at(binding)
        for _ in range(self.random.choice([1, 1, 1, 1, 2, 3])):
            query = [*query, self.operator(name), *self.made(depth).at(binding + 1)]
        return Made(query, binding)

    def changed(self, depth: int) -> Made:
        sign = self.one_of(["*", ">"])
        number = self.of_range(TENTHS if sign == "*" else THRESHOLDS)
        return Made([*self.made(depth).at(CHANGED), sign, number], CHANGED)

    def group(self, depth: int) -> Made:
        return Made(["(", *self.made(depth).lexemes, ")"], NEAR)

    def chain(self, _: int) -> Made:
        return Made(separated([operand.at(TERM) for operand in self.operands()], self.operator("NEAR")), NEAR)

    def near(self, _: int) -> Made:
        end: list[str] = []
        if self.chance(0.7):
            end += [",", self.of_range(SPANS)]
        if end and self.chance(0.5):
            end += [",", self.cased(self.one_of(["TRUE", "FALSE"]))]
        operands = separated([operand.lexemes for operand in self.operands()], ",")
        return Made([self.operator("NEAR"), "(", "(", *operands, ")", *end, ")"], NEAR)

    def within(self, depth: int) -> Made:
        name = self.one_of(self.sections) if not self.chance(0.05) else self.of_range(NAMES)
        return Made([*self.made(depth).at(WITHIN), self.cased("WITHIN"), self.cased(name)], WITHIN)

    def scored(self, _: int) -> Made:
        operators = self.random.choice([0, 1, 1, 2, 3, OPERATOR_LIMIT, OPERATOR_LIMIT + self.chance(self.wrong)])
        operand = self.terms(self.random.choice([1, 1, 2])).lexemes
        if "DEFINESCORE" in self.built and self.chance(0.15):
            operand = [*operand, self.operator("OR"), *operand]
        return Made([self.cased("DEFINESCORE"), "(", *operand, ",", *self.sum(operators), ")"], NEAR)

    def sum(self, operators: int) -> list[str]:
        if operators == 0:
            return [self.of_range(SUM_NUMBERS)]
        left = self.random.randrange(operators)
        query = [*self.sum(left), self.one_of(["+", "-", "*"]), *self.sum(operators - 1 - left)]
        return ["(", *query, ")"] if self.chance(0.4) else query

    # texts

    def damaged(self, lexemes: list[str]) -> list[str]:
        """Returns the lexemes with one of them dropped, doubled, replaced, or with another beside it, or up to it alone."""
        at = self.random.randrange(len(lexemes))
        before, lexeme, after = lexemes[:at], lexemes[at], lexemes[at + 1 :]
        stray = self.one_of([*STRAY, *FUNCTIONS, *REFUSED_FUNCTIONS])
        middles = [[], [lexeme, lexeme], [stray], [stray, lexeme], [lexeme, stray]]
        return self.random.choice([*([*before, *middle, *after] for middle in middles), before, [*before, stray]])

    def spelt(self, lexemes: Sequence[str]) -> str:
        """Returns a text of these lexemes, with blanks where two words would be one, and at times elsewhere."""
        text = ""
        for before, lexeme in zip(["(", *lexemes], lexemes):
            needs_blank = before not in SIGNS and lexeme not in SIGNS
            text += (self.one_of(BLANKS) if needs_blank or self.chance(0.3) else "") + lexeme
        return text

    def at_limit(self) -> str:
        """Returns a text at a limit of texts, or one past it."""
        more, word = self.random.choice([0, 0, 1]), self.written(self.word())
        deep = OPEN_LIMIT + more
        return self.random.choice([
            "a" * (BYTE_LIMIT + more),
            "é" * (BYTE_LIMIT // 2) + "a" * more,
            "(" * deep + word + ")" * deep,
            "(" * deep + self.one_of(["", ")", ")("]) + word,
            word + self.one_of(["|", "-", "&"]).join([""] + ["zz"] * (LEXEME_LIMIT // 2 - 1)) + " *1" * more,
            word + " *1" * (LEXEME_LIMIT // 2 - 1 + more),
            f"{word} = {word}" + ")" * (LEXEME_LIMIT - 3 + more),
        ])

    def single(self) -> str:
        """Returns a text of one operator of a thesaurus, or of one word with wildcards."""
        has_patterns = "WILDCARDS" in self.built
        is_expansion = not has_patterns or bool(self.thesauri) and self.chance(0.6)
        return self.spelt(self.expansion() if is_expansion else [self.pattern()])

    def text(self) -> str:
        if self.chance(0.005):
            return self.at_limit()
        lexemes = self.made(self.random.choice([1, 1, 2, 2, 3])).lexemes
        is_damaged = self.chance(0.1)
        while is_damaged and lexemes:
            lexemes = self.damaged(lexemes)
            is_damaged = self.chance(0.3)
        text = self.spelt(lexemes)
        if text and self.chance(0.02):
            at = self.random.randrange(len(text))
            text = text[:at] + self.one_of(STRAY) + text[at + self.chance(0.5) :]
        return text
