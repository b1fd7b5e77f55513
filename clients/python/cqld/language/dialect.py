"""Reads the friendly dialect: query texts with units, Avg, Having, Every, decimals and texts.

Each text that the engine reads over whole numbers means the same here. What is added stands where
the engine reads nothing. That is a unit after a number of a window, `Avg(`, a decimal, and a text
in single quotes. After Group By it is `Having` with a condition, and `Every` with a number.
"""

from collections.abc import Collection
from dataclasses import dataclass, replace
from enum import Enum
from fractions import Fraction

from .faults import Fault
from .query import (
    Condition,
    Function,
    Listed,
    Literal,
    Operand,
    Query,
    Reference,
    Source,
    Span,
    mapped,
)
from .reader import MAX_INSTANT, Reader
from .tokens import Kind, Symbol, Token, Word, tokens_of
from .types import TRUTHS
from .units import UNITS, Length, unit_of

_HAVING_STARTS = (Kind.NAME, Kind.NUMBER, Kind.DECIMAL, Kind.TEXT, Symbol.OPEN, Word.NOT)
_LENGTH = "a length such as `10 seconds`"
_AGGREGATES = (Word.COUNT, Word.SUM, Word.MIN, Word.MAX)


class Measure(Enum):
    """What a length of time is the length of."""

    RANGE = "Range"
    SLIDE = "Slide"
    EVERY = "Every"


@dataclass(frozen=True, slots=True)
class Measured:
    """A length of time in a text: what it is of, and the number of its source, if it has one."""

    measure: Measure
    length: Length
    source: int | None


@dataclass(frozen=True, slots=True)
class FriendlyQuery:
    """A query of the dialect. `query` has 0 and 1 in place of the lengths that have a unit.

    `cuts` are the spans of Having and Every, which the engine is not to read.
    """

    text: str
    query: Query
    lengths: tuple[Measured, ...] = ()
    having: Condition | None = None
    every: Length | None = None
    cuts: tuple[Span, ...] = ()

    def with_truths(self, columns: Collection[str]) -> "FriendlyQuery":
        """Returns the query with `true` and `false` as literals, unless a column has the name."""
        names = {*columns, *(item.alias for item in self.query.items)}

        def turned(operand: Operand) -> Operand:
            if isinstance(operand, Reference) and operand.qualifier is None:
                if operand.name.lower() in TRUTHS and operand.name not in names:
                    return Literal(0, operand.name, operand.span)
            return operand

        return replace(
            self,
            query=replace(self.query, condition=mapped(self.query.condition, turned)),
            having=mapped(self.having, turned),
        )


def read_friendly(text: str) -> FriendlyQuery:
    """Returns the query that a text of the dialect names.

    Raises `Fault`. Its place counts characters, since quoted texts may have any.
    """
    return FriendlyReader(text).friendly()


class FriendlyReader(Reader):
    """Goes through the tokens of one text of the dialect from the left."""

    def __init__(self, text: str) -> None:
        self._lengths: list[Measured] = []
        self._having: Condition | None = None
        self._every: Length | None = None
        self._cuts: list[Span] = []
        self._source_number = -1
        self._in_having = False
        super().__init__(text, tokens_of(text, friendly=True))

    def friendly(self) -> FriendlyQuery:
        """Reads the whole text. Raises `Fault`."""
        query = self.query()
        return FriendlyQuery(
            self.text, query, tuple(self._lengths), self._having, self._every, tuple(self._cuts)
        )

    def _check(self) -> None:
        token = self._token
        if token.kind is Kind.BAD and token.text == "'":
            reason = "the text in quotes has no end"
            raise Fault("Q3", self.text, token.start, found=token.text, reason=reason)
        super()._check()

    def _peek(self) -> Token:
        """Returns the token after the current one; the last one has none after it."""
        return self._tokens[min(self._at + 1, len(self._tokens) - 1)]

    def _begins(self, word: str) -> bool:
        return self._token.kind is Kind.NAME and self._token.text.lower() == word

    # The list.

    def _function(self) -> Function | None:
        function = super()._function()
        if function is not None:
            return function
        self._expected.append("`Avg(`")
        if self._begins("avg") and self._peek().kind is Symbol.OPEN:
            self._next()
            return Function.AVG
        return None

    # Windows.

    def _source(self) -> Source:
        self._source_number += 1
        return super()._source()

    def _alias(self) -> str | None:
        if self._begins_having() or self._begins_every():
            return None
        return super()._alias()

    def _range_size(self) -> int:
        return self._size(Measure.RANGE, 0)

    def _slide_size(self) -> int:
        return self._size(Measure.SLIDE, 1)

    def _size(self, measure: Measure, least: int) -> int:
        """Takes a number of instants, or notes a length with a unit and returns the least."""
        if not self._begins_length():
            return self._number(least, MAX_INSTANT, _LENGTH)
        length = self._length()
        self._lengths.append(Measured(measure, length, self._source_number))
        return least

    def _begins_length(self) -> bool:
        kind = self._token.kind
        return kind is Kind.DECIMAL or (kind is Kind.NUMBER and self._peek().kind is Kind.NAME)

    def _length(self) -> Length:
        """Takes a number and the unit after it."""
        number = self._next()
        word = self._token
        self._expected.extend(f"`{unit}s`" for unit in UNITS)
        unit = unit_of(word.text) if word.kind is Kind.NAME else None
        if unit is None:
            raise self._unexpected()
        self._next()
        return Length(Fraction(number.text), unit, Span(number.start, word.end))

    # Having and Every.

    def _begins_having(self) -> bool:
        if not self._begins("having"):
            return False
        kind = self._peek().kind
        return kind in _HAVING_STARTS or kind in _AGGREGATES

    def _begins_every(self) -> bool:
        return self._begins("every") and self._peek().kind in (Kind.NUMBER, Kind.DECIMAL)

    def _tail(self) -> None:
        if self._having is None and self._every is None:
            self._expected.append("`Having`")
            if self._begins("having"):
                self._read_having()
        if self._every is None:
            self._expected.append("`Every`")
            if self._begins("every"):
                self._read_every()

    def _read_having(self) -> None:
        start = self._next().start
        self._in_having = True
        self._having = self._either()
        self._in_having = False
        self._cuts.append(Span(start, self._last_end))

    def _read_every(self) -> None:
        start = self._next().start
        if self._begins_length():
            self._every = self._length()
        else:
            token = self._token
            amount = self._number(1, MAX_INSTANT, _LENGTH)
            self._every = Length(Fraction(amount), None, Span(token.start, token.end))
        self._cuts.append(Span(start, self._last_end))

    # Conditions.

    def _operand(self) -> Operand:
        token = self._token
        if self._maybe(Kind.DECIMAL, "a number") or self._maybe(Kind.TEXT, "a text in `' '`"):
            return Literal(0, token.text, Span(token.start, token.end))
        if not self._in_having:
            return super()._operand()
        function = self._function()
        if function is None:
            return super()._operand()
        item = self._aggregate(function, token.start)
        return Listed(item, item.span)
