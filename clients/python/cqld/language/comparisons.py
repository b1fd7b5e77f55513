"""Tests what may be compared with what, and gives the numbers of literals."""

from fractions import Fraction

from .faults import Fault
from .query import Comparison, Literal, Operand, Sign, Span
from .reader import MAX_VALUE
from .types import INT, Kind, Numbered, Type

_ORDERS = (Sign.LESS, Sign.AT_MOST, Sign.GREATER, Sign.AT_LEAST)
_NUMBERS = (Kind.INT, Kind.DECIMAL, Kind.BOOL)


class Comparisons:
    """The comparisons of one text."""

    def __init__(self, text: str, numbered: Numbered) -> None:
        self._text = text
        self._numbered = numbered

    def check(
        self, test: Comparison, left: Type | None, right: Type | None, *, scaled: bool
    ) -> None:
        """Raises `Fault` where two sides cannot be compared. A literal has no type.

        With `scaled` values are compared, otherwise the numbers by which the engine knows them.
        """
        if left is None and right is None:
            for side in (test.left, test.right):
                if isinstance(side, Literal) and not side.is_whole:
                    reason = "two literals are compared; put a column on one side"
                    raise self._fault("F6", side.span, reason)
            return
        if test.sign in _ORDERS and Kind.TEXT in (side.kind for side in (left, right) if side):
            reason = (
                "texts have `=` and `<>` and no order: the engine knows them by numbers of a "
                "dictionary"
            )
            raise self._fault("F5", test.span, reason)
        if left is None or right is None or left == right:
            return
        numbers = left.kind in _NUMBERS and right.kind in _NUMBERS
        if numbers and (scaled or left.places == right.places):
            return
        reason = f"{self._shown(test.left)} is {left} and {self._shown(test.right)} is {right}"
        if numbers:
            reason += "; the engine compares the numbers that it has, which differ in scale"
        raise self._fault("F5", test.span, reason)

    def whole(self, literal: Literal, type_: Type | None) -> int:
        """Returns the whole number by which the engine knows a literal beside such a column.

        Raises `Fault` where there is none.
        """
        value = self._number(literal, type_)
        shown = type_ or INT
        if value.denominator != 1:
            if shown.kind is Kind.DECIMAL:
                reason = f"{literal.text} has more than the {shown.places} places of the column"
            else:
                reason = f"{literal.text} is no whole number of the column's, which is {shown}"
            raise self._fault("F6", literal.span, reason)
        if abs(value) > MAX_VALUE:
            reason = f"{literal.text} is the number {value}, and {MAX_VALUE:,} is the greatest"
            raise self._fault("Q5", literal.span, reason)
        return int(value)

    def scaled(self, literal: Literal, type_: Type | None) -> Fraction:
        """Returns the value of a literal beside a column of answers. Raises `Fault`."""
        return self._number(literal, type_) / (type_ or INT).scale

    def _number(self, literal: Literal, type_: Type | None) -> Fraction:
        try:
            return (type_ or INT).number(literal.text, self._numbered)
        except ValueError as error:
            reason = f"{literal.text} {error}"
            raise self._fault("F6", literal.span, reason) from None

    def _shown(self, operand: Operand) -> str:
        span = operand.span
        return f"`{self._text[span.start : span.end]}`"

    def _fault(self, code: str, span: Span, reason: str) -> Fault:
        found = self._text[span.start : span.end]
        return Fault(code, self._text, span.start, found=found, reason=reason)
