"""What the client makes of a query's answers: columns, means, and the answers that it keeps."""

from collections.abc import Sequence
from dataclasses import dataclass
from fractions import Fraction

from ..faults import CqldError
from .having import Filter, Row
from .types import Type

MAX_ANSWER = 9_223_372_036_854_775_807
"""The greatest number of an answer, which stands for all beyond. Its negative is the least."""


class SumOutOfRange(CqldError, ArithmeticError):
    """Says that a mean is not known, because its sum left the range of answers.

    `column` is the name of the mean, `instant` that of the answer.
    """

    def __init__(self, column: str, instant: int) -> None:
        super().__init__(column, instant)
        self.column = column
        self.instant = instant

    def __str__(self) -> str:
        reason = "its sum left the range of answers, so it cannot be divided"
        return f"{self.column} at instant {self.instant}: {reason}"


@dataclass(frozen=True, slots=True)
class AnswerColumn:
    """A column of the answers: its name, its type, and where its number is in a row.

    Places count from 0 for the first value after the instant. A mean has its sum at `place` and
    its count at `count`; other columns have no `count`.
    """

    name: str
    type: Type
    place: int
    count: int | None = None

    @property
    def is_mean(self) -> bool:
        """Whether it is a mean."""
        return self.count is not None

    def raw(self, row: Row) -> int | Fraction | None:
        """Returns the number of the column in a row of the engine, unscaled; a mean is exact.

        Raises `SumOutOfRange`.
        """
        number = row[1 + self.place]
        if self.count is None or number is None:
            return number
        if abs(number) >= MAX_ANSWER:
            raise SumOutOfRange(self.name, row[0] or 0)
        count = row[1 + self.count]
        return Fraction(number, count) if count else None

    def scaled(self, row: Row) -> Fraction | None:
        """Returns the value as people know it, as 1.25 for 125 of a decimal(2).

        Raises `SumOutOfRange`.
        """
        number = self.raw(row)
        return None if number is None else Fraction(number) / self.type.scale


@dataclass(frozen=True, slots=True)
class Rewritten:
    """A query of the friendly dialect, as the engine runs it, and what the client does then.

    `source` is the text as it was written, and `text` the engine's. The client keeps the answers
    at multiples of `every`, and those at which `having` is true. `notes` says in sentences what
    was changed, and what the client does.
    """

    source: str
    text: str
    columns: tuple[AnswerColumn, ...]
    streams: tuple[str, ...]
    having: Filter | None = None
    every: int | None = None
    notes: tuple[str, ...] = ()

    def keeps(self, row: Row) -> bool:
        """Returns whether an answer of the engine is one of the query.

        A row is the instant, and then the engine's values. Raises `SumOutOfRange`.
        """
        instant = row[0]
        if self.every is not None and instant is not None and instant % self.every != 0:
            return False
        return self.having is None or self.having.truth(row) is True

    def values(self, row: Row) -> Sequence[int | Fraction | None]:
        """Returns the numbers of an answer, a column each. Raises `SumOutOfRange`."""
        return [column.raw(row) for column in self.columns]
