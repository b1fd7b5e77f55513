"""Streams and queries with types, on a `Client` or a `Process`."""

from __future__ import annotations

from collections.abc import Iterable, Iterator, Mapping, Sequence
from typing import Any

from .appends import Skip
from .connection import Connection
from .columns import Clock, Column
from .faults import CqldError
from .follow import Follow
from .schema import Answers, Instant, Schema
from .tables import TableSchema, records
from .watermark import Watermark
from .wire import TAKE, Seconds, heartbeats


class Stream:
    """Is a stream whose columns have types.

        words = MemoryDictionary()
        columns = {"symbol": Text(words), "price": Decimal(2)}
        trades = Stream(client, "Trades", columns, Clock.seconds())
        trades.declare(datetime(2026, 11, 27, tzinfo=timezone.utc))
        trades.append([(datetime(2026, 11, 27, 9, 30, tzinfo=timezone.utc), "ACME", 101.25)])

    Rows are tuples with the instant first, or mappings with a key `instant` and a key for each
    column. With a clock instants are datetimes, or whole numbers all the same.
    """

    def __init__(
        self,
        connection: Connection,
        name: str,
        columns: Mapping[str, Column],
        clock: Clock | None = None,
    ) -> None:
        """Describes a stream. `declare` tells the engine of it, unless it has it already."""
        self.name = name
        self.schema = Schema(columns, clock)
        self.closed: int | None = None  # as far as this object knows
        self._connection = connection

    def declare(self, start: Instant = 0, *, timeout: Seconds | None = None) -> None:
        """Declares the stream, with its first open instant. Raises as every call."""
        first = self.schema.instant(start)
        self._connection.stream(self.name, self.schema.names, first, timeout=timeout)
        self.closed = first - 1

    def append(
        self,
        rows: Iterable[Any],
        *,
        skip: Skip | None = None,
        timeout: Seconds | None = None,
    ) -> int:
        """Appends rows, and returns how many it took.

        A value that its column cannot hold is a `BadRow` with its column. See `Client.append`.
        """
        return self._connection.append(
            self.name, rows, skip=skip, schema=self.schema, timeout=timeout
        )

    def append_csv(
        self,
        lines: Iterable[str],
        instant: str = "instant",
        *,
        delimiter: str = ",",
        skip: Skip | None = None,
        timeout: Seconds | None = None,
    ) -> int:
        """Appends the rows of a CSV file, as an open file. Returns how many it took.

        Its first line has the names of its columns. `instant` is the one with the instants: whole
        numbers, or times where the stream has a clock. An empty field is null.

        A line that is too short or too long, and a text that is no value of its column, are a
        `BadRow`: raised, or given to `skip`. Raises `BadValue` where the file is no CSV.
        """
        return self._connection.append(
            self.name,
            records(lines, delimiter),
            skip=skip,
            schema=TableSchema(self.schema, instant),
            timeout=timeout,
        )

    def heartbeat(self, at: Instant, *, timeout: Seconds | None = None) -> None:
        """Promises that no row in the instant of `at`, or before it, will come.

        A leap over more than 65,536 instants from what this object knows to be closed goes in
        several heartbeats. Raises as every call.
        """
        instant = self.schema.instant(at)
        steps: Iterable[int] = [instant]
        if self.closed is not None and self.closed < instant:
            steps = heartbeats(self.closed, instant)
        for step in steps:
            self._connection.heartbeat(self.name, step, timeout=timeout)
            self.closed = step

    def watermark(
        self, producers: Iterable[str], *, late: int = 0, timeout: Seconds | None = None
    ) -> Watermark:
        """Returns a watermark of producers, from what this object knows to be closed on.

        Where it knows nothing it asks for the status of the engine. Raises as every call.
        """
        closed = self.closed
        if closed is None:
            closed = self._connection.status(timeout=timeout).streams[self.name].closed
        clock = self.schema.clock
        return Watermark(
            self._connection, self.name, producers, closed, late=late, clock=clock, timeout=timeout
        )


class Query:
    """Is a query whose answers are named tuples of decoded values.

        text = "Select Rstream(symbol, price) From Trades [Now] Where price > 100.50"
        high = Query(client, "high", text, [trades])
        high.register()
        for answer in high.answers():
            print(answer.instant, answer.symbol, answer.price)

    The text may be of the friendly dialect: see `Answers`.
    """

    def __init__(
        self, connection: Connection, name: str, text: str, streams: Iterable[Stream]
    ) -> None:
        """Reads the text over the streams. Raises `cqld.language.Fault`, which points at it."""
        self.name = name
        self.shape = Answers(name, text, {it.name: it.schema for it in streams})
        self._connection = connection

    @property
    def fields(self) -> tuple[str, ...]:
        """Returns the names of the fields of an answer, `instant` first."""
        return self.shape.fields

    def register(
        self,
        chart: Iterable[Sequence[int]] | None = None,
        *,
        timeout: Seconds | None = None,
    ) -> None:
        """Registers the query. Raises as every call."""
        self._connection.query(self.name, self.shape.text, chart, timeout=timeout)

    def take(self, limit: int = TAKE, *, timeout: Seconds | None = None) -> list[Any]:
        """Returns the next answers that wait, from at most `limit` of the engine's.

        `Having` and `Every` leave some of these out, so no answer does not mean that none waits.
        Raises as every call, and as `Answers.decode`: the `rest` of that error has the rows that
        were taken.
        """
        rows = self._connection.take(self.name, limit, timeout=timeout)
        try:
            return self.shape.decode_all(rows)
        except CqldError as error:
            error.rest = rows
            raise

    def peek(self, limit: int = TAKE, *, timeout: Seconds | None = None) -> list[Any]:
        """Returns what `take` would, but leaves it waiting. See `Client.peek`."""
        return self.shape.decode_all(self._connection.peek(self.name, limit, timeout=timeout))

    def answers(
        self, upto: Instant | None = None, *, timeout: Seconds | None = None
    ) -> Iterator[Any]:
        """Yields answers, and ends once all of them up to the instant `upto` were taken.

        By default that is what the query's streams have closed when the first is asked for. See
        `Client.answers`. Raises as `take`.
        """
        goal = None if upto is None else self.shape.instant(upto)
        parts = self._connection.parts(
            self.name, goal, sources=self.shape.streams, timeout=timeout
        )
        for rows in parts:
            try:
                answers = self.shape.decode_all(rows)
            except CqldError as error:
                error.rest = rows
                raise
            yield from answers

    def follow(
        self,
        pause: Seconds = 0.05,
        *,
        deadline: Seconds | None = None,
        beat: Seconds | None = None,
        limit: int = TAKE,
        timeout: Seconds | None = None,
    ) -> Follow[Any]:
        """Returns an iterator over the answers as they come. See `Client.follow`.

        An answer that cannot be decoded is not taken.
        """
        shape = self.shape
        return Follow(
            self._connection, self.name, shape.streams, pause, deadline, beat, limit, shape, timeout
        )

    def frame(self, answers: Iterable[Any] | None = None) -> Any:
        """Returns answers as a pandas DataFrame, by default those of `answers()`.

        Raises `MissingPackage` where pandas is not there, and as `answers`.
        """
        return self.shape.frame(self.answers() if answers is None else answers)

    def drop(self, *, timeout: Seconds | None = None) -> None:
        """Drops the query. What was not taken is gone."""
        self._connection.drop(self.name, timeout=timeout)
