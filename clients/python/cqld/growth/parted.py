"""One set of queries over several engines, whose streams are parted by key.

    with Parted(3, {"Trades": "symbol"}) as engines:    # other streams go to each part
        engines.stream("Trades", ["symbol", "price"])
        engines.query("last", "Select Rstream(*) From Trades [Partition By symbol Rows 1]")
        engines.append("Trades", [(0, 7, 120), (0, 8, 99)])
        engines.heartbeat("Trades", 0)
        engines.drain()
        rows = engines.take("last", 100)

Its calls mean what they mean at one engine, and answers are the same. One process that hands rows
out in Python is slower than one engine: parts pay where producers part their rows themselves (see
`feed`). This driver is for few rows and dear queries, and for trying out how queries part.
"""

from abc import ABC, abstractmethod
from collections import Counter, deque
from collections.abc import Iterable, Iterator, Mapping, Sequence
from typing import Self

from ..faults import Refused
from ..language import ResolvedQuery, read, resolve
from ..wire import VALUE
from .engine import Engine
from .errors import GrowthError
from .parting import Stages, Way, both_ways, part_of, stages, way
from .script import (LAST, TAKE, Append, Drain, Drop, Heartbeat, Query, Request, Row, Stream,
                     Value, appends, heartbeats, object_of)


class PartedFault(GrowthError):
    """Says that a query in two stages cannot go on: a partial sum is out of the range of streams.

    Other queries are not touched. `query` is its name.
    """

    def __init__(self, query: str, fault: str) -> None:
        super().__init__(query, fault)
        self.query = query
        self.fault = fault

    def __str__(self) -> str:
        return f"{self.query}: a partial aggregate is no value of a stream: {self.fault}"


class Parted:
    """Engines of one's own, and one more for second stages. Close it, or use it in a `with`.

    Each call may raise Refused, where one engine would have refused, and then all is as it was.
    After ConnectionLost it is of no more use.
    """

    def __init__(self, parts: int, keys: Mapping[str, str], program: str | None = None) -> None:
        """Starts engines. `keys` has the name of the key column of each parted stream.

        Raises ProgramMissing if they cannot be started.
        """
        self._keys = dict(keys)
        self._columns: dict[str, tuple[str, ...]] = {}
        self._closed: dict[str, int] = {}
        self._queries: dict[str, _Answered] = {}
        self._registered = 0
        self._engines: list[Engine] = []
        try:
            for _ in range(parts):
                self._engines.append(Engine(program))
            self._second = Engine(program)
        except BaseException:
            for engine in self._engines:
                engine.close()
            raise

    def __enter__(self) -> Self:
        return self

    def __exit__(self, *_: object) -> None:
        self.close()

    def close(self) -> None:
        """Ends the engines."""
        for engine in (*self._engines, self._second):
            engine.close()

    def stream(self, name: str, columns: Iterable[str], start: int = 0) -> None:
        """Declares a stream whose first open instant is `start`.

        Raises UnknownKey if it is to be parted by a column that it does not have.
        """
        request = Stream(name, tuple(columns), start)
        if name in self._keys and self._keys[name] not in request.columns:
            raise UnknownKey(f"{name} has no column {self._keys[name]}")
        for engine in self._engines:
            engine.carry(request)
        self._columns[name], self._closed[name] = request.columns, start - 1

    def query(self, name: str, text: str) -> None:
        """Registers a query. Raises Unparted if it needs rows of several parts together.

        Raises a fault of the language if the text is none.
        """
        if name in self._queries:
            raise Refused("E2 NameTaken", object_of(Query(name, text)))
        query = resolve(read(text), self._columns, text)
        how = way(query, self._keys, self._columns)
        base = max(self._closed[source.stream] for source in query.query.sources)
        self._registered += 1
        own = f"q{self._registered}"
        if how is Way.STAGES and base < LAST:
            steps = stages(query, self._columns, own)
            self._queries[name] = _Stages(name, own, self._engines, self._second, steps, base)
        elif how is Way.NET:
            self._queries[name] = _Net(own, self._engines, query)
        else:
            engines = self._engines[:1] if how is Way.ONE else self._engines
            self._queries[name] = _Merge(own, engines, text)
        self._queries[name].streams = [source.stream for source in query.query.sources]

    def append(self, stream: str, rows: Iterable[Row]) -> None:
        """Appends rows, all of them or none."""
        given = [list(row) for row in rows]
        self._test(stream, given)
        if stream not in self._keys:
            for engine in self._engines:
                engine.tell(appends(stream, given))
            return
        place = 1 + self._columns[stream].index(self._keys[stream])
        parts: list[list[Row]] = [[] for _ in self._engines]
        for row in given:
            parts[part_of(row[place], len(parts))].append(row)
        for engine, part in zip(self._engines, parts):
            engine.tell(appends(stream, part))

    def heartbeat(self, stream: str, at: int) -> None:
        """Promises that no row at or below `at` will come."""
        for engine in self._engines:
            engine.carry(Heartbeat(stream, at))
        self._closed[stream] = at

    def drain(self) -> None:
        """Brings every query up to what is closed."""
        for engine in self._engines:
            engine.carry(Drain())
        for query in self._queries.values():
            query.collect(min(self._closed[stream] for stream in query.streams))
        self._second.carry(Drain())
        for query in self._queries.values():
            query.waiting.extend(query.merged())

    def take(self, query: str, limit: int = TAKE) -> list[Row]:
        """Returns the next answers that wait, at most `limit`.

        Raises PartedFault if the query had to stop and no answer from before waits.
        """
        found = self._found(query)
        if not 1 <= limit <= TAKE:
            raise Refused("E14 BadLimit", {"op": "take", "query": query, "limit": limit})
        if found.fault is not None and not found.waiting:
            raise found.fault
        return [found.waiting.popleft() for _ in range(min(limit, len(found.waiting)))]

    def drop(self, query: str) -> None:
        """Drops a query. What was not taken is gone."""
        self._found(query).drop()
        del self._queries[query]

    def _found(self, query: str) -> "_Answered":
        if query not in self._queries:
            raise Refused("E6 UnknownQuery", {"query": query})
        return self._queries[query]

    def _test(self, stream: str, rows: Sequence[Row]) -> None:
        """Raises what an engine would answer, before any is told."""
        fault = None
        if stream not in self._columns:
            fault = "E5 UnknownStream"
        elif any(len(row) != 1 + len(self._columns[stream]) for row in rows):
            fault = "E7 BadWidth"
        elif not all(_is_value(value) for row in rows for value in row[1:]):
            fault = "E8 ValueRange"
        elif not all(type(row[0]) is int and 0 <= row[0] <= LAST for row in rows):
            fault = "E9 InstantRange"
        elif any(_instant(row) <= self._closed[stream] for row in rows):
            fault = "E10 Late"
        if fault is not None:
            raise Refused(fault, object_of(Append(stream, rows)))


class UnknownKey(GrowthError):
    """Says that a stream has not the column that it is to be parted by."""


class _Answered(ABC):
    """A query, and the answers of it that wait."""

    def __init__(self) -> None:
        self.waiting: deque[Row] = deque()
        self.streams: list[str] = []
        self.fault: PartedFault | None = None
        self._told: list[tuple[Engine, str]] = []  # where it runs, and under what name

    @abstractmethod
    def collect(self, closed: int) -> None:
        """Takes what the parts have answered up to an instant."""

    @abstractmethod
    def merged(self) -> Iterable[Row]:
        """The answers of the query that this makes."""

    def register(self, engine: Engine, name: str, text: str) -> None:
        """Registers a query at an engine. If it is refused, none of it is left anywhere."""
        try:
            engine.carry(Query(name, text))
        except Refused:
            self.drop()
            raise
        self._told.append((engine, name))

    def drop(self) -> None:
        """Drops all that was registered."""
        for engine, name in self._told:
            engine.carry(Drop(name))
        self._told.clear()


class _Merge(_Answered):
    """Each part answers the query itself."""

    def __init__(self, own: str, engines: Sequence[Engine], text: str) -> None:
        super().__init__()
        for engine in engines:
            self.register(engine, own, text)
        self._found: list[Row] = []

    def collect(self, closed: int) -> None:
        self._found = [row for engine, name in self._told for row in engine.waiting(name)]

    def merged(self) -> Iterable[Row]:
        return sorted(self._found, key=order)


class _Net(_Answered):
    """An answer may come in one part and leave another: Istream and Dstream are netted."""

    def __init__(self, own: str, engines: Sequence[Engine], query: ResolvedQuery) -> None:
        super().__init__()
        self._names = (own + "_asked", own + "_other")
        for engine in engines:
            for name, text in zip(self._names, both_ways(query.query)):
                self.register(engine, name, text)
        self._bag: Counter[tuple[Value, ...]] = Counter()

    def collect(self, closed: int) -> None:
        self._bag = Counter()
        for engine, name in self._told:
            sign = 1 if name == self._names[0] else -1
            for row in engine.waiting(name):
                self._bag[tuple(row)] += sign

    def merged(self) -> Iterable[Row]:
        return sorted((list(row) for row in self._bag.elements()), key=order)


class _Stages(_Answered):
    """Parts keep partial groups. What changes of them goes to an engine that adds them up."""

    def __init__(self, query: str, own: str, engines: Sequence[Engine], second: Engine,
                 steps: Stages, base: int) -> None:
        super().__init__()
        self._query, self._own, self._engines, self._second = query, own, engines, second
        self._steps, self._closed = steps, base
        self._names = (own + "_enter", own + "_leave")
        for engine in engines:
            for name, text in zip(self._names, (steps.entering, steps.leaving)):
                self.register(engine, name, text)
        try:
            second.carry(Stream(own, steps.columns, base + 1))
        except Refused:
            self.drop()
            raise
        self.register(second, own, steps.second)

    def collect(self, closed: int) -> None:
        told: list[Request] = []
        for part, engine in enumerate(self._engines):
            told += appends(self._own, list(self._changes(part, engine)))
        told += heartbeats(self._own, self._closed, closed)
        self._closed = max(closed, self._closed)
        if self.fault is None:
            try:
                for request in told:
                    self._second.carry(request)
            except Refused as fault:
                self.fault = PartedFault(self._query, fault.fault)

    def merged(self) -> Iterable[Row]:
        return [] if self.fault is not None else self._second.waiting(self._own)

    def _changes(self, part: int, engine: Engine) -> Iterator[Row]:
        """The groups of a part as they are after each instant; one that has gone has no rows."""
        width, groups = len(self._steps.columns), self._steps.groups
        rows: dict[tuple[Value, ...], Row] = {}
        for row in engine.waiting(self._names[1]):
            gone = [0, *[None] * (width - 2 - groups)]
            rows[tuple(row[:1 + groups])] = [row[0], part, *row[1:1 + groups], *gone]
        for row in engine.waiting(self._names[0]):
            rows[tuple(row[:1 + groups])] = [row[0], part, *row[1:]]
        return iter(rows.values())


def order(row: Row) -> list[tuple[bool, int]]:
    """Returns what answers are sorted by: null first, then the numbers, from the left."""
    return [(value is not None, value or 0) for value in row]


def _is_value(value: object) -> bool:
    return value is None or type(value) is int and -VALUE <= value <= VALUE


def _instant(row: Row) -> int:
    assert row[0] is not None  # tested before
    return row[0]
