"""Cuts rows into appends, and finds the row for which the engine refused one.

The engine refuses an append whole and does not say which row is bad. So a refused part is halved
until a single row is left. A row known to be bad is not sent at all.
"""

from __future__ import annotations

from collections.abc import Callable, Generator, Iterable, Mapping, Sequence
from itertools import islice
from typing import Any, NamedTuple, Protocol

from .faults import BadRequest, BadRow, BadValue, CqldError, LateRow, Refused, Request
from .steps import Line
from .wire import LAST, ROWS, VALUE, Reply, Row, line_of

Skip = Callable[[BadRow], object]

_OF_A_ROW = frozenset(("E7", "E8", "E9", "E10"))
_KINDS = {int, type(None)}
_REASONS = {
    "E7": "the number of values differs from the stream's columns",
    "E8": "a value is out of range",
    "E9": "the instant is out of range",
    "E10": "its instant is closed",
    "N3": "the row is too long for a line",
}


class RowSchema(Protocol):
    """Turns rows with types into numbers, as `Schema` does."""

    @property
    def names(self) -> tuple[str, ...]:
        """Returns the names of the columns."""

    def prepare(self, rows: Sequence[Any]) -> None:
        """Prepares to encode rows."""

    def encode(self, row: Any) -> Row:
        """Returns the numbers of a row. Raises `BadValue`."""


class _Unfit(NamedTuple):
    """Is what is wrong with a row before it is sent: fault, position, and reason in words."""

    fault: str
    position: int | None
    reason: str


_Cells = Row | _Unfit


class Skipped:
    """Counts the rows that an append skipped, and keeps them.

        skipped = Skipped()
        taken = client.append("Trades", rows, skip=skipped)
        print(taken, len(skipped.late), len(skipped.bad))
    """

    def __init__(self) -> None:
        self.late: list[LateRow] = []
        self.bad: list[BadRow] = []

    def __call__(self, row: BadRow) -> None:
        """Keeps a row that was skipped."""
        if isinstance(row, LateRow):
            self.late.append(row)
        else:
            self.bad.append(row)

    def __len__(self) -> int:
        """Returns how many rows were skipped, late or bad."""
        return len(self.late) + len(self.bad)


class Appending:
    """Is one call of `append`: what it has read, and how many rows the engine took."""

    def __init__(
        self,
        stream: str,
        columns: Sequence[str] | None = None,
        skip: Skip | None = None,
        schema: RowSchema | None = None,
    ) -> None:
        """Begins a call. `columns` are the stream's, where known, and make faults clearer."""
        self.taken = 0
        self._stream = stream
        self._columns = columns if schema is None else schema.names
        self._skip = skip
        self._schema = schema
        self._read = 0
        self._late = -1  # the greatest instant known to be closed

    def chunks(self, rows: Iterable[Any]) -> Generator[list[Any], None, None]:
        """Yields the rows in lists of at most 1,024.

        Where the iterable raises, the rows that it gave before come first, and then its error.
        """
        rows = iter(rows)
        chunk: list[Any] = []
        while True:
            try:
                for row in islice(rows, ROWS):
                    chunk.append(row)
            except Exception as error:
                if chunk:
                    yield chunk
                raise self.noted(error)
            if not chunk:
                return
            yield chunk
            chunk = []

    def noted(self, error: Exception) -> Exception:
        """Returns an error of the iterable, with a note of how many rows were taken."""
        error.add_note(f"append took {self.taken} rows before this")
        if isinstance(error, CqldError):
            error.taken = self.taken
        return error

    def steps(self, chunk: Sequence[Any]) -> Generator[Line, Reply, None]:
        """Yields each append that is to be sent. Where rows are skipped, each of them waits.

        Raises `BadRow` at a bad row where rows are not skipped, and else the client's errors.
        """
        first = self._read
        self._read += len(chunk)
        todo = [(0, len(chunk))]  # parts of the chunk, the next one last
        try:
            if self._schema is not None:
                self._schema.prepare(chunk)
            cells = [self._cells(row) for row in chunk]
            while todo:
                begin, end = todo.pop()
                rows = self._good(cells, begin, end)
                good = begin + len(rows)
                if begin < good < end:
                    todo += [(good, end), (begin, good)]
                elif good == begin:
                    todo += [(begin + 1, end)] * (begin + 1 < end)
                    self._report(first + begin, chunk[begin], cells[begin])
                else:
                    fault = yield from self._send(rows, (begin, end), todo)
                    if fault is None:
                        self.taken += len(rows)
                    elif end - begin == 1:
                        self._report(first + begin, chunk[begin], rows[0], fault)
                    else:
                        middle = (begin + end) // 2
                        todo += [(middle, end), (begin, middle)]
        except CqldError as error:
            error.taken = self.taken
            error.rest = [row for begin, end in reversed(todo) for row in chunk[begin:end]]
            raise

    def _send(
        self, rows: list[Row], part: tuple[int, int], todo: list[tuple[int, int]]
    ) -> Generator[Line, Reply, str | None]:
        """Yields an append. Returns the fault of some row of it, or None where all were taken."""
        request = {"op": "append", "stream": self._stream, "rows": rows}
        try:
            line = line_of(request)
        except BadRequest:
            return "N3 LineTooLong"
        try:
            yield Line(request, line, self._skip is not None)
        except Refused as refused:
            if refused.code not in _OF_A_ROW:
                todo.append(part)
                raise
            return refused.fault
        return None

    def _cells(self, row: Any) -> _Cells:
        """Returns the numbers of a row, or what is wrong with it."""
        try:
            return _parts(row) if self._schema is None else self._schema.encode(row)
        except BadValue as error:
            return _Unfit(error.fault, error.position, str(error))

    def _good(self, cells: list[_Cells], begin: int, end: int) -> list[Row]:
        """Returns the rows from `begin` on, up to the first one that is known to be bad."""
        part = cells[begin:end]
        if self._are_good(part):
            return part  # type: ignore[return-value]
        rows: list[Row] = []
        for row in part:
            if isinstance(row, _Unfit) or self._fault(row) is not None:
                break
            rows.append(row)
        return rows

    def _are_good(self, cells: list[_Cells]) -> bool:
        """Returns whether no row is known to be bad, by looking at columns. It may err to False."""
        width = len(cells[0]) if self._columns is None else 1 + len(self._columns)
        if width == 0 or any(isinstance(row, _Unfit) or len(row) != width for row in cells):
            return False
        instants, *columns = zip(*cells)
        if set(map(type, instants)) != {int}:
            return False
        if min(instants) <= self._late or max(instants) > LAST:
            return False
        for column in columns:
            kinds = set(map(type, column))
            if not kinds <= _KINDS:
                return False
            values = [it for it in column if it is not None] if len(kinds) > 1 else column
            if int in kinds and not -VALUE <= min(values) <= max(values) <= VALUE:
                return False
        return True

    def _fault(self, row: Row) -> _Unfit | None:
        """Returns what is wrong with a row that the engine is sure to refuse."""
        for position, value in enumerate(row):
            if value.__class__ is int:
                if position and not -VALUE <= value <= VALUE:  # type: ignore[operator]
                    return _Unfit("E8 ValueRange", position, f"{value} is over {VALUE:,}, signed")
                if not position and not 0 <= value <= LAST:  # type: ignore[operator]
                    return _Unfit("E9 InstantRange", 0, f"{value} is none from 0 to {LAST:,}")
            elif value is not None or not position:
                kind = "null" if value is None else type(value).__name__
                reason = f"{value!r:.60} is {kind}, no whole number"
                return _Unfit("N2 BadRequest", position, reason)
        if not row:
            return _Unfit("N2 BadRequest", None, "a row without an instant")
        if self._columns is not None and len(row) != 1 + len(self._columns):
            reason = f"{len(row) - 1} values, and the stream has {len(self._columns)} columns"
            return _Unfit("E7 BadWidth", None, reason)
        if row[0] is not None and row[0] <= self._late:
            return _Unfit("E10 Late", 0, f"instant {row[0]} is closed")
        return None

    def _report(self, index: int, given: Any, cells: Any, fault: str = "") -> None:
        """Skips a bad row, or raises its error. `fault` is the engine's, if it refused the row."""
        if fault:
            code = fault.partition(" ")[0]
            unfit = _Unfit(fault, 0 if code in ("E9", "E10") else None, _REASONS[code])
        else:
            found = cells if isinstance(cells, _Unfit) else self._fault(cells)
            assert found is not None
            unfit = found
        row = None if isinstance(cells, _Unfit) else cells
        request: Request = {"op": "append", "stream": self._stream, "rows": [row]}
        column = None
        if unfit.position == 0:
            column = "instant"
        elif unfit.position and self._columns and unfit.position <= len(self._columns):
            column = self._columns[unfit.position - 1]
        kind = BadRow
        if unfit.fault == "E10 Late" and row is not None and row[0] is not None:
            kind = LateRow
            self._late = max(self._late, row[0])
        error = kind(unfit.fault, request, index, given, unfit.reason, unfit.position, column)
        if self._skip is None:
            raise error
        self._skip(error)


def _parts(row: Any) -> Row:
    """Returns the parts of a row that is a tuple, a list or the like. Raises `BadValue`."""
    if isinstance(row, (str, bytes, Mapping)):
        raise BadValue(row, "a row is an instant and its values")
    try:
        return [*row]
    except TypeError:
        raise BadValue(row, "a row is an instant and its values") from None
