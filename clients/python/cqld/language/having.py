"""Conditions over answers, which the client tests: those of Having.

A value is a `Fraction` in the units of the answer, as 1.25 for 125 cents, or None for null. A
comparison with a null is unknown. The answer is kept where the whole condition is true.
"""

from collections.abc import Callable, Sequence
from dataclasses import dataclass
from fractions import Fraction

from .query import Sign

Value = Fraction | None
Truth = bool | None
Row = Sequence[int | None]
Reading = Callable[[Row], Value]
"""Returns a value of an answer's row."""


@dataclass(frozen=True, slots=True)
class Test:
    """A comparison of two values of a row."""

    left: Reading
    sign: Sign
    right: Reading

    def truth(self, row: Row) -> Truth:
        """Returns whether it holds, or None where a value is null."""
        left, right = self.left(row), self.right(row)
        if left is None or right is None:
            return None
        return _compare(left, self.sign, right)


@dataclass(frozen=True, slots=True)
class Negated:
    """The opposite of a part."""

    part: "Filter"

    def truth(self, row: Row) -> Truth:
        """Returns false for true, true for false, and None for unknown."""
        truth = self.part.truth(row)
        return None if truth is None else not truth


@dataclass(frozen=True, slots=True)
class Joined:
    """Parts joined by And, or by Or, which the first true part decides (`decisive`)."""

    parts: tuple["Filter", ...]
    decisive: bool

    def truth(self, row: Row) -> Truth:
        """Returns the decisive truth where some part has it, else None where some is unknown."""
        truths = [part.truth(row) for part in self.parts]
        if self.decisive in truths:
            return self.decisive
        return None if None in truths else not self.decisive


Filter = Test | Negated | Joined


def _compare(left: Fraction, sign: Sign, right: Fraction) -> bool:
    if sign is Sign.EQUAL:
        return left == right
    if sign is Sign.UNEQUAL:
        return left != right
    if sign is Sign.LESS:
        return left < right
    if sign is Sign.AT_MOST:
        return left <= right
    return left > right if sign is Sign.GREATER else left >= right
