"""A session: streams and queries over one engine, and what statements do to them.

A stream is declared at the engine once its first instant is known: by `start`, or by its first
rows. A query is registered once all of its streams are there. So a query that was created before
the first row has all rows as its input.
"""

from collections.abc import Callable, Iterator, Mapping, Sequence
from itertools import islice
from typing import Any, TypeVar

from ..client import Connection
from ..dictionary import Dictionary
from ..faults import BadRow, BadValue, Refused
from ..language import Declared, Rewritten, SumOutOfRange, nearest, rewrite
from ..language.faults import listing
from ..wire import LAST, ROWS, TAKE, Operator, Row, Status, heartbeats
from .errors import ShellError
from .interrupts import held
from .statements import Close, CreateQuery, CreateStream, Insert
from .states import QueryState, StreamState, start_for
from .values import literal_instant, literal_number, time_text

MOST_CLOSED = 2**32
"""The most instants that one statement closes."""

_BEATS = 256


class Session:
    """Streams and queries by name, over a connection.

    `is_own` says that the engine is a program of the shell's own, which has no other client.
    """

    def __init__(self, connection: Connection, dictionary: Dictionary, *, is_own: bool) -> None:
        self.connection = connection
        self.dictionary = dictionary
        self.is_own = is_own
        self.streams: dict[str, StreamState] = {}
        self.queries: dict[str, QueryState] = {}

    # Streams.

    def create_stream(self, statement: CreateStream) -> StreamState:
        """Declares a stream. Raises `ShellError`, `BadValue`, and `Refused`."""
        if statement.name in self.streams:
            if statement.if_not_exists:
                return self.streams[statement.name]
            raise ShellError(f"a stream `{statement.name}` is declared already")
        state = StreamState(statement.name, statement.declared, statement.headers)
        state.if_not_exists = statement.if_not_exists
        if statement.start is not None:
            state.start = literal_instant(statement.start, statement.declared.clock)
            self._declare(state, state.start)
        self.streams[statement.name] = state
        return state

    def stream(self, name: str) -> StreamState:
        """Returns a stream. Raises `ShellError`."""
        return _named(self.streams, name, "stream")

    def open(self, name: str, first: int) -> None:
        """Declares a stream at the engine whose first row is at an instant, unless it is there.

        The streams that queries join with it begin at the same instant, unless they have a start.
        Then the queries are registered that waited for them.
        """
        waiting = [query for query in self.queries.values() if not query.is_registered]
        if self.stream(name).is_open and not waiting:
            return
        start = start_for(first)
        for other in self._joined(name):
            joined = self.streams[other]
            if not joined.is_open:
                self._declare(joined, start if joined.start is None else joined.start)
        for query in waiting:
            if self._has_streams(query.rewritten):
                self._register(query)

    def _joined(self, name: str) -> list[str]:
        """Returns the stream, and those that wait to meet it in a query, at any remove."""
        found = [name]
        for each in found:
            for query in self.queries.values():
                streams = query.rewritten.streams
                if not query.is_registered and each in streams:
                    found.extend(other for other in streams if other not in found)
        return found

    def _declare(self, state: StreamState, start: int) -> None:
        try:
            self.connection.stream(state.name, list(state.declared.columns), start)
        except Refused as refused:
            if not (state.if_not_exists and refused.code == "E2"):
                raise
            state.is_open = True
            state.date(start)
            told = self.status()
            state.closed = None if told is None else told.streams[state.name].closed
            return
        state.begin(start)

    # Queries.

    def create_query(self, statement: CreateQuery) -> QueryState:
        """Reads a query and registers it. Raises `Fault`, `ShellError` and `Refused`."""
        if statement.name in self.queries:
            if statement.if_not_exists:
                return self.queries[statement.name]
            raise ShellError(f"a query `{statement.name}` is there already; drop it first")
        query = QueryState(statement.name, self.rewritten(statement.text))
        query.if_not_exists = statement.if_not_exists
        if self._has_streams(query.rewritten):
            self._register(query)
        self.queries[statement.name] = query
        return query

    def rewritten(self, text: str) -> Rewritten:
        """Returns what a text means over the session's streams. Raises `Fault`."""
        return rewrite(text, self.declared, self.dictionary.number)

    @property
    def declared(self) -> dict[str, Declared]:
        """The streams' columns and units, by name."""
        return {name: state.declared for name, state in self.streams.items()}

    def query(self, name: str) -> QueryState:
        """Returns a query. Raises `ShellError`."""
        return _named(self.queries, name, "query")

    def drop(self, name: str) -> None:
        """Drops a query, and its answers."""
        if self.query(name).is_registered:
            self.connection.drop(name)
        del self.queries[name]

    def plan(self, name: str) -> list[Operator]:
        """Returns the operators of a query, none before it is registered."""
        return self.connection.plan(name) if self.query(name).is_registered else []

    def _has_streams(self, rewritten: Rewritten) -> bool:
        return all(self.streams[name].is_open for name in rewritten.streams)

    def _register(self, query: QueryState) -> None:
        try:
            self.connection.query(query.name, query.rewritten.text)
        except Refused as refused:
            if not (query.if_not_exists and refused.code == "E2"):
                raise
        query.is_registered = True

    # Rows.

    def insert(self, statement: Insert) -> int:
        """Appends rows of literals, all or none. Returns their number.

        Raises `ShellError` that names the row and the column, and `Refused`.
        """
        state = self.stream(statement.stream)
        rows = [self._row(state, values, place) for place, values in enumerate(statement.rows, 1)]
        if len(rows) > ROWS:
            raise ShellError(f"at most {ROWS:,} rows are inserted at once, not {len(rows):,}")
        for place, row in enumerate(rows, 1):
            self._test_late(state, row[0] or 0, place)
        self.open(state.name, min(row[0] or 0 for row in rows))
        return self.append(state.name, rows, None)

    def _row(self, state: StreamState, values: Sequence[str], place: int) -> Row:
        columns = state.declared.columns
        if len(values) != len(columns) + 1:
            raise ShellError(
                f"row {place} has {len(values)} values; {state.name} needs {len(columns) + 1}: "
                f"the instant, then {', '.join(columns)}"
            )
        name = "the instant"
        try:
            row: Row = [literal_instant(values[0], state.declared.clock)]
            for (name, type_), value in zip(columns.items(), values[1:]):
                row.append(literal_number(value, type_, self.dictionary))
        except BadValue as error:
            raise ShellError(f"row {place}, {name}: {error.value}: {error.reason}") from None
        return row

    def _test_late(self, state: StreamState, instant: int, place: int) -> None:
        if state.closed is not None and state.is_open and instant <= state.closed:
            raise ShellError(
                f"row {place} is late: its instant is {self.shown(state, instant)}, and "
                f"{state.name} is closed up to {self.shown(state, state.closed)}"
            )

    def append(
        self, name: str, rows: Sequence[Row], skip: Callable[[BadRow], object] | None
    ) -> int:
        """Appends rows to an open stream, and returns how many were taken."""
        state = self.stream(name)
        try:
            taken = self.connection.append(name, rows, skip=skip)
        except BadRow as error:
            state.rows += error.taken
            raise
        state.rows += taken
        return taken

    # Time.

    def close(self, statement: Close) -> int:
        """Closes the instants of a stream up to one. Returns that instant."""
        state = self.stream(statement.stream)
        at = literal_instant(statement.at, state.declared.clock)
        self.open(state.name, at)
        if state.closed is not None and at <= state.closed:
            raise ShellError(
                f"{state.name} is closed up to {self.shown(state, state.closed)} already"
            )
        self.close_to(state.name, at)
        return at

    def close_to(self, name: str, at: int) -> None:
        """Closes the instants of an open stream up to one, and brings the queries up to it."""
        state = self.stream(name)
        if not 0 <= at <= LAST:
            raise ShellError(f"an instant is 0 to {LAST:,}, and this is {at:,}")
        if state.closed is not None and at - state.closed > MOST_CLOSED:
            raise ShellError(
                f"that would close {at - state.closed:,} instants; let {name} begin later by "
                "`start` when it is created"
            )
        steps = iter([at] if state.closed is None else heartbeats(state.closed, at))
        while some := list(islice(steps, _BEATS)):
            with held():
                with self.connection.batch():
                    for step in some:
                        self.connection.heartbeat(name, step)
                state.closed = some[-1]
        self.drain()

    def drain(self) -> None:
        """Brings every query up to what is closed, and sorts out the answers that are filtered."""
        self.connection.drain()
        for query in self.queries.values():
            if query.is_filtered:
                self.take(query)

    def shown(self, state: StreamState, instant: int) -> str:
        """Returns an instant of a stream as people read it."""
        return time_text(instant, state.clock)

    def adopt(self, before: "Session") -> list[str]:
        """Takes over what another session knew of the same engine. Returns what is not there.

        What is not there begins again with the next rows.
        """
        self.streams, self.queries = before.streams, before.queries
        gone: list[str] = []
        for state in self.streams.values():
            if state.is_open and not self._is_there("append", stream=state.name, rows=[]):
                gone.append(state.name)
                state.is_open, state.closed, state.rows = False, None, 0
        for query in self.queries.values():
            if query.is_registered and not self._is_there("plan", query=query.name):
                gone.append(query.name)
                query.is_registered = False
        return gone

    def _is_there(self, op: str, **keys: Any) -> bool:
        try:
            self.connection.ask(op, **keys)
        except Refused as refused:
            if refused.code in ("E5", "E6"):
                return False
            raise
        return True

    # Answers.

    def take(self, query: QueryState) -> int:
        """Takes all answers that wait into those that are kept. Returns how many were kept."""
        before = query.count
        while query.is_registered:
            rows = self.connection.take(query.name, TAKE)
            for row in rows:
                if _keeps(query.rewritten, row):
                    query.kept.append(row)
                    query.count += 1
            query.raw += len(rows)
            if len(rows) < TAKE:
                break
        return query.count - before

    def refresh(self, query: QueryState) -> int:
        """Brings a query up to what is closed, and takes its answers. Returns how many came."""
        found = 0
        while query.is_registered:
            self.connection.drain()
            before = query.raw
            found += self.take(query)
            if query.raw == before:
                break
        return found

    def first_stream(self, query: QueryState) -> StreamState:
        """Returns the first stream of a query, whose clock its answers have."""
        return self.streams[query.rewritten.streams[0]]

    def status(self) -> Status | None:
        """Returns what the engine says of itself, None where it cannot."""
        try:
            return self.connection.status()
        except Refused as refused:
            if refused.code == "N2":
                return None
            raise

    def names(self) -> Iterator[str]:
        """Yields the names of streams, columns and queries."""
        for state in self.streams.values():
            yield state.name
            yield from state.declared.columns
        yield from self.queries


def _keeps(rewritten: Rewritten, row: Row) -> bool:
    """Returns whether an answer is kept. One whose mean is not known is, and shown as such."""
    try:
        return rewritten.keeps(row)
    except SumOutOfRange:
        return True


Found = TypeVar("Found")


def _named(states: Mapping[str, Found], name: str, what: str) -> Found:
    found = states.get(name)
    if found is not None:
        return found
    close = nearest(name, states)
    told = f"; did you mean {listing([f'`{each}`' for each in close])}?" if close else ""
    raise ShellError(f"no {what} is named `{name}`{told}")
