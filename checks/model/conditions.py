"""Conditions on the columns of a row, as statements and structured queries have them."""

from __future__ import annotations

import operator
from dataclasses import dataclass

from lexemes import Beyond
from state import Column, Operand, Value

COMPARISONS = {"=": operator.eq, "<": operator.lt, "<=": operator.le, ">": operator.gt, ">=": operator.ge}


@dataclass(frozen=True)
class Condition:
    column: str
    comparison: str  # a sign, BETWEEN or IN
    operands: tuple[Operand, ...]

    @property
    def has_beyond(self) -> bool:
        return Beyond() in self.operands

    def fits(self, column: Column) -> bool:
        """Returns whether the values are of the type of the column. A text may have any length."""
        return all(map(column.takes, self.operands))

    def holds(self, value: Value) -> bool:
        """Returns whether a value meets it. Texts are ordered by their bytes, which is the order of their characters."""
        if self.comparison == "IN":
            return value in self.operands
        if self.comparison == "BETWEEN":
            low, high = self.operands
            return operator.ge(value, low) and operator.le(value, high)
        return COMPARISONS[self.comparison](value, self.operands[0])
