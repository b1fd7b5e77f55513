"""What the page is told: columns, their types, clocks, the texts of queries."""
from __future__ import annotations

from collections.abc import Callable, Mapping, Sequence
from dataclasses import dataclass, field

from ..columns import Clock
from ..faults import BadValue

Values = Sequence[int | None]
Cells = Sequence[str | None]

SECONDS = range(946_684_800, 4_102_444_800)  # of the years 2000 to 2099, counted from 1970
DATED = 100_000_000  # from so many seconds after 1970 on an instant is shown as a time


@dataclass(frozen=True)
class Column:
    """Is a column of answers: its name, and whether its values are numbers to plot."""

    name: str
    numeric: bool = True


@dataclass(frozen=True)
class StreamShape:
    """Is a stream's columns, and the clock of its instants."""

    columns: tuple[str, ...]
    clock: Clock | None = None


@dataclass(frozen=True)
class QueryShape:
    """Is a query's text, the columns of its answers, and the clock of their instants.

    `cells` turns an answer, the instant and its values, into a text for each column, null into
    None. It returns None for an answer that is not shown. Without it values are shown as numbers.
    """

    text: str | None = None
    columns: tuple[Column, ...] = ()
    clock: Clock | None = None
    cells: Callable[[Values], Cells | None] | None = None

    def columns_of(self, width: int) -> tuple[Column, ...]:
        """Returns the columns, numbered where nothing is told of answers of so many values."""
        if self.cells is not None or len(self.columns) == width:
            return self.columns
        return tuple(Column(f"{place + 1}") for place in range(width))

    def cells_of(self, instant: int, values: Values) -> Cells | None:
        """Returns the texts of an answer, or None where it is not shown."""
        if self.cells is not None:
            return self.cells([instant, *values])
        return [None if value is None else str(value) for value in values]


@dataclass(frozen=True)
class Known:
    """Is streams and queries by name. `taken` names the queries whose answers may be taken."""

    streams: Mapping[str, StreamShape] = field(default_factory=dict)
    queries: Mapping[str, QueryShape] = field(default_factory=dict)
    taken: tuple[str, ...] = ()


def clock_at(told: Clock | None, instant: int | None) -> Clock | None:
    """Returns the clock by which an instant is shown, or None where it is shown as a number.

    That is the clock that was told, if it gives a date. Where none was told, an instant that looks
    like seconds of these years is one of them.
    """
    if instant is None:
        return None
    if told is None:
        return Clock() if instant in SECONDS else None
    try:
        return told if told.time(instant).timestamp() >= DATED else None
    except BadValue:
        return None
