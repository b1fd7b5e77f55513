"""Shows answers, streams, queries, plans and states in an output."""

import json
from collections.abc import Iterable, Iterator, Sequence
from fractions import Fraction
from textwrap import wrap

from ..columns import Clock
from ..language import AnswerColumn, Kind, Rewritten, SumOutOfRange
from ..wire import Operator, Row, Status
from .output import HALF, Output
from .session import Session
from .states import QueryState, StreamState
from .tables import csv_lines
from .values import Shower, time_text
from .statements import Mode

UNKNOWN = "overflow"
"""What stands in place of a mean that is not known."""
_RIGHT = (Kind.INT, Kind.DECIMAL)


class Answers:
    """The answers of one query, as an output shows them."""

    def __init__(self, session: Session, query: QueryState, output: Output) -> None:
        self._rewritten: Rewritten = query.rewritten
        self._shower = Shower(session.dictionary)
        self._output = output
        self._clock: Clock | None = session.first_stream(query).clock
        self.unknown = 0

    @property
    def names(self) -> list[str]:
        """The names of the columns, that of the instant first."""
        first = "instant" if self._clock is None else "time"
        return [first, *(column.name for column in self._rewritten.columns)]

    @property
    def right(self) -> list[bool]:
        """Which columns stand to the right in a table."""
        columns = self._rewritten.columns
        return [self._clock is None, *(column.type.kind in _RIGHT for column in columns)]

    def texts(self, row: Row) -> list[str]:
        """Returns the texts of an answer, that of the instant first."""
        cells = [time_text(row[0] or 0, self._clock)]
        for column in self._rewritten.columns:
            known, number = self._number(column, row)
            cells.append(self._shower.text(column, number) if known else UNKNOWN)
        return cells

    def json(self, row: Row) -> str:
        """Returns an answer as a JSON object in one line."""
        instant = time_text(row[0] or 0, self._clock)
        parts = [instant if self._clock is None else f'"{instant.replace(" ", "T")}Z"']
        for column in self._rewritten.columns:
            known, number = self._number(column, row)
            parts.append(self._shower.json(column, number) if known else f'"{UNKNOWN}"')
        names = unique(self.names)
        pairs = zip(map(json.dumps, names), parts)
        return "{" + ",".join(f"{name}:{part}" for name, part in pairs) + "}"

    def _number(
        self, column: AnswerColumn, row: Row
    ) -> tuple[bool, int | Fraction | None]:
        try:
            return True, column.raw(row)
        except SumOutOfRange:
            self.unknown += 1
            return False, None

    def show(self, rows: Sequence[Row], total: int, *, everything: bool, name: str) -> None:
        """Writes the answers in the output's mode. A table may leave out those in the middle."""
        if self._output.mode is not Mode.TABLE:
            self._output.lines(self.data(rows, header=True))
            return
        cut = not everything and len(rows) > 2 * HALF + 1
        shown = [self.texts(row) for row in ([*rows[:HALF], *rows[-HALF:]] if cut else rows)]
        if cut:
            shown.insert(HALF, ["⋮"] * len(self.names))
        self._output.table(self.names, shown, self.right)
        count = "1 answer" if total == 1 else f"{total:,} answers"
        if cut:
            count += f", {2 * HALF} shown; `show {name} all;` shows more"
        elif len(rows) < total:
            count += f", {len(rows):,} shown"
        self._output.say(f"({count})")

    def data(self, rows: Iterable[Row], *, header: bool) -> Iterator[str]:
        """Yields the answers as lines of CSV or of JSON."""
        if self._output.mode is Mode.JSON:
            yield from (self.json(row) for row in rows)
        else:
            names = self.names if header else None
            yield from csv_lines(names, (self.texts(row) for row in rows))


def unique(names: Sequence[str]) -> list[str]:
    """Returns the names with a number after those that came before."""
    found: list[str] = []
    for name in names:
        fresh, number = name, 2
        while fresh in found:
            fresh, number = f"{name}_{number}", number + 1
        found.append(fresh)
    return found


def type_text(column: AnswerColumn) -> str:
    """Returns the type of a column of answers, as people read it."""
    return f"mean of {column.type}" if column.is_mean else str(column.type)


def explain(output: Output, rewritten: Rewritten, operators: Sequence[Operator]) -> None:
    """Writes what a query means: its texts, what cql does, its columns and operators."""
    source = " ".join(rewritten.source.split())
    lines = [("you wrote", source)] if source != rewritten.text else []
    lines.append(("the engine runs", rewritten.text))
    lines += [("notes" if not place else "", note) for place, note in enumerate(rewritten.notes)]
    columns = ", ".join(f"{column.name}: {type_text(column)}" for column in rewritten.columns)
    lines.append(("it answers", columns))
    if operators:
        chain = " → ".join(f"{place} {each.kind}" for place, each in enumerate(operators))
        lines.append(("operators", chain))
    indent = max(len(name) for name, _ in lines) + 2
    room = None if output.width is None else max(20, output.width - indent)
    for name, text in lines:
        parts = [text] if room is None else wrap(text, room, break_long_words=False)
        for number, part in enumerate(parts):
            output.say(("" if number else f"{name}  ").rjust(indent) + part)


def describe_stream(output: Output, state: StreamState) -> None:
    """Writes the columns of a stream, its unit, and how far it is."""
    rows = [[name, str(type_)] for name, type_ in state.declared.columns.items()]
    output.table(["column", "type"], rows)
    unit = state.declared.unit
    counted = "instants are plain numbers" if unit is None else f"instants are {unit}s"
    output.say(f"{state.name}: {counted}; {extent(state)}")


def extent(state: StreamState) -> str:
    """Returns in a sentence how far a stream is."""
    if not state.is_open:
        return "it begins with its first rows"
    if state.closed is None:
        return f"{state.rows:,} rows sent"
    closed = "nothing closed" if state.closed < 0 else (
        f"closed up to {time_text(state.closed, state.clock)}"
    )
    return f"{state.rows:,} rows sent, {closed}"


def streams(output: Output, states: Iterable[StreamState]) -> None:
    """Writes a table of the streams."""
    rows = []
    for state in states:
        columns = ", ".join(f"{name} {type_}" for name, type_ in state.declared.columns.items())
        unit = "" if state.declared.unit is None else str(state.declared.unit)
        closed = "" if state.closed is None or state.closed < 0 else (
            time_text(state.closed, state.clock)
        )
        rows.append([state.name, columns, unit, f"{state.rows:,}", closed])
    names = ["stream", "columns", "unit", "rows", "closed up to"]
    output.table(names, rows, [False, False, False, True])


def queries(output: Output, states: Iterable[QueryState]) -> None:
    """Writes a table of the queries."""
    rows = [
        [
            state.name,
            " ".join(state.rewritten.source.split()),
            f"{state.count:,}",
            "runs" if state.is_registered else "waits for rows",
        ]
        for state in states
    ]
    output.table(["query", "text", "answers", "state"], rows, [False, False, True])


def status(output: Output, told: Status, session: Session) -> None:
    """Writes what the engine says of its streams and queries."""
    rows = []
    for stream in told.streams.values():
        state = session.streams.get(stream.name)
        closed = time_text(stream.closed, None if state is None else state.clock)
        shown = closed if stream.closed >= 0 else ""
        rows.append([stream.name, f"{stream.rows:,}", shown])
    output.table(["stream", "rows", "closed up to"], rows, [False, True])
    rows = [
        [each.name, str(each.base), str(each.upto), f"{each.taken:,}", f"{each.waiting:,}"]
        for each in told.queries.values()
    ]
    names = ["query", "base", "complete up to", "taken", "waiting"]
    output.table(names, rows, [False, True, True, True, True])
