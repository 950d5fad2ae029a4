"""Random query texts of CATSEARCH, most of them well formed, over words that are handed in."""

from __future__ import annotations

import random
from collections.abc import Callable, Sequence

from queries import BYTE_LIMIT, LEXEME_LIMIT, OPEN_LIMIT
from texts import WHITE_SPACE

BLANKS = [*[" "] * 60, *["  ", "\n", "\t"] * 2, *WHITE_SPACE]
SIGNS = '()|"'  # what ends a word
STRAY = [*SIGNS, "-", " - ", "*", "*a", "a*", "-a", "a-", "--", "**", '""', '"', '"*"', "(-)", "()", "%", "_", "\\", "{a}", "&", "AND", "\u200b", "é*é", "||"]


class CatalogueMaker:
    """Makes query texts of words of some texts.

    `words` gives the words of one of them in an order of its own, so that several of them often stand in one row.
    """

    def __init__(self, chooser: random.Random, words: Callable[[], list[str]], run_of_words: Callable[[], list[str]]) -> None:
        self.random = chooser
        self.words = words
        self.run_of_words = run_of_words

    def chance(self, probability: float) -> bool:
        return self.random.random() < probability

    def one_of(self, items: Sequence[str]) -> str:
        return self.random.choice(items)

    def written(self, word: str) -> str:
        """Returns a word as it is to be read as one: between quotes where it needs them, and at times where it doesn't."""
        needs_quotes = word in ("", "-") or any(char in "(|)*" or char in WHITE_SPACE for char in word)
        return f'"{word}"' if self.chance(0.9 if needs_quotes else 0.04) else word

    def pattern(self, word: str) -> str:
        """Returns a word with wildcards that the word often fits, or its end alone, which is bad."""
        at = self.random.randrange(len(word) + 1)
        begin, end = word[:at], word[at + 1 :]
        forms = [begin + "*", begin + "*" + end, begin + "*" + word[at:], word[:1] + "*", word + "*", begin + "**"]
        return self.one_of(["*" + end] if self.chance(0.03) else [form for form in forms if not form.startswith("*")] or ["*"])

    def item(self, word: str, depth: int) -> list[str]:
        way = self.random.choices(["word", "pattern", "run", "group"], [60, 15, 14, 10 if depth > 0 else 0])[0]
        if way == "pattern":
            return [self.pattern(word)]
        if way == "run":
            return ['"' + self.one_of([" ", ", ", " - "]).join(self.run_of_words()) + '"']
        return ["(", *self.either(depth - 1), ")"] if way == "group" else [self.written(word)]

    def both(self, depth: int) -> list[str]:
        """Returns one to three items side by side, most of the time of words of one text; at times such as are excluded, of any text."""
        words = self.words()
        lexemes: list[str] = []
        for _ in range(self.random.choice([1, 1, 1, 2, 2, 3])):
            is_excluded = bool(lexemes) and self.chance(0.3)
            word = self.one_of(self.words() if is_excluded or self.chance(0.1) else words)
            lexemes += [*(["-"] if is_excluded else []), *self.item(word, depth)]
        return lexemes

    def either(self, depth: int) -> list[str]:
        lexemes = self.both(depth)
        for _ in range(self.random.choice([0, 0, 0, 1, 1, 2])):
            lexemes += ["|", *self.both(depth)]
        return lexemes

    def damaged(self, lexemes: list[str]) -> list[str]:
        """Returns the lexemes with one of them dropped, doubled, replaced, or with another beside it, or up to it alone."""
        at = self.random.randrange(len(lexemes))
        before, lexeme, after = lexemes[:at], lexemes[at], lexemes[at + 1 :]
        stray = self.one_of(STRAY)
        middles = [[], [lexeme, lexeme], [stray], [stray, lexeme], [lexeme, stray]]
        return self.random.choice([*([*before, *middle, *after] for middle in middles), before, [*before, stray]])

    def spelt(self, lexemes: Sequence[str]) -> str:
        """Returns a text of these lexemes, with blanks where they would be others without, and at times elsewhere."""
        text = ""
        for before, lexeme in zip(["(", *lexemes], lexemes):
            is_of_words = "-" in (before, lexeme) or not (before[-1:] in SIGNS or lexeme[:1] in SIGNS)
            text += (self.one_of(BLANKS) if is_of_words and not self.chance(0.01) or self.chance(0.3) else "") + lexeme
        return text

    def at_limit(self) -> str:
        """Returns a text at a limit of texts, or one past it."""
        more, word = self.random.choice([0, 0, 1]), self.one_of(self.words())
        deep = OPEN_LIMIT + more
        return self.random.choice([
            "a" * (BYTE_LIMIT + more),
            '"' + "é" * (BYTE_LIMIT // 2 - 1) + '"' + "a" * more,
            "(" * deep + word + ")" * deep,
            "(" * deep + self.one_of(["", ")", ")("]) + word,
            "(a)" * (LEXEME_LIMIT // 3) + word + self.one_of(["", "|"]) * more,
            word + "|a" * (LEXEME_LIMIT // 2 - 1) + "|" + '"' * (1 + more),
        ])

    def text(self) -> str:
        if self.chance(0.01):
            return self.at_limit()
        lexemes = self.either(self.random.choice([0, 1, 1, 2]))
        is_damaged = self.chance(0.12)
        while is_damaged and lexemes:
            lexemes = self.damaged(lexemes)
            is_damaged = self.chance(0.3)
        return self.spelt(lexemes)
