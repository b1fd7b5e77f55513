"""Cuts a log to what later answers need.

    compactor = Compactor()
    for request in accepted:                 # the requests that the engine accepted, in order
        compactor.note(request)
    compactor.answered("volume", 41)         # its answers up to 41 are out for good
    for request in compactor.script():       # brings a fresh engine to where the old one was
        ...

It is the rule of `forget`, done by whoever keeps the log. A row stays if some query has it in its
input and it is above the query's mark, or its window shows it at the mark or later. The mark is
the instant up to which the query's answers are out. After the script an engine answers above each
mark as the old one would have; what it answers up to the marks was out already.

Two things would go wrong without care:

- A query may not get its mark as its base: the relation at a base is empty, and at a mark it is
  not. So streams begin one instant lower, and the rows shown at the mark come in once more.
- Of equal rows of one instant the arrival decides which is the last. So rows are told apart by
  their number of arrival, and never by their values.
"""

from collections import Counter
from collections.abc import Iterable, Iterator, Sequence
from dataclasses import dataclass, field
from typing import NamedTuple

from .. import language as syntax
from .errors import UnknownName
from .script import (LAST, Append, Drop, Heartbeat, Query, Request, Row, Stream, appends,
                     heartbeats)

SLACK = 1_024  # rows more than twice those left last time, before rows are looked through again


class _Element(NamedTuple):
    instant: int
    arrival: int
    era: int  # how many queries had been registered when it came
    row: Row


@dataclass(frozen=True, slots=True)
class _Source:
    stream: str
    window: syntax.Window
    by: tuple[int, ...]  # the places of the columns of Partition By in a row


@dataclass(slots=True)
class _Registered:
    request: Query
    era: int
    sources: tuple[_Source, ...]
    closed: dict[str, int]  # what was closed of each stream when it was registered
    base: int
    mark: int


@dataclass(slots=True)
class _Declared:
    request: Stream
    era: int
    closed: int
    arrivals: int = 0
    elements: list[_Element] = field(default_factory=list)


class Compactor:
    """Keeps of accepted requests what later answers need; it looks at no clock and no engine."""

    def __init__(self) -> None:
        """Begins with no stream and no query."""
        self._streams: dict[str, _Declared] = {}
        self._queries: dict[str, _Registered] = {}
        self._era = 0
        self._size = 0
        self._limit = SLACK

    @property
    def size(self) -> int:
        """How many rows it holds."""
        return self._size

    @property
    def queries(self) -> tuple[str, ...]:
        """The names of the queries that run."""
        return tuple(self._queries)

    def closed(self, query: str) -> int:
        """Returns the instant up to which all streams of a query are closed.

        Raises UnknownName if no such query runs.
        """
        return min(self._streams[source.stream].closed for source in self._query(query).sources)

    def mark(self, query: str) -> int:
        """Returns a query's mark, at first its base. Raises UnknownName if no such query runs."""
        return self._query(query).mark

    def note(self, request: Request) -> None:
        """Takes an accepted request in; drains, takes and the like pass.

        Raises UnknownName if it names a stream or query that is not there, and a fault of the
        language if a query's text cannot be read: then the engine did not accept it.
        """
        match request:
            case Append(name, rows):
                self._append(self._stream(name), rows)
            case Heartbeat(name, at):
                stream = self._stream(name)
                stream.closed = max(stream.closed, at)
            case Stream(name, _, start):
                self._streams[name] = _Declared(request, self._era, start - 1)
            case Query(name, text):
                self._register(request, syntax.read(text))
            case Drop(name):
                self._query(name)
                del self._queries[name]
            case _:
                pass

    def answered(self, query: str, upto: int) -> None:
        """Says that all answers of a query up to an instant are out for good.

        A mark never falls, and never passes what is closed. Raises UnknownName if no such query
        runs.
        """
        found = self._query(query)
        found.mark = max(found.mark, min(upto, self.closed(query)))

    def script(self) -> list[Request]:
        """Returns the requests that bring a fresh engine to where the old one is.

        Names are as they were. Not kept are counts of rows and of registrations ever made, which
        only limits look at.
        """
        self._forget()
        return list(self._script(self._low()))

    def _stream(self, name: str) -> _Declared:
        if name not in self._streams:
            raise UnknownName(f"no stream {name}")
        return self._streams[name]

    def _query(self, name: str) -> _Registered:
        if name not in self._queries:
            raise UnknownName(f"no query {name}")
        return self._queries[name]

    def _register(self, request: Query, query: syntax.Query) -> None:
        sources = tuple(self._source(source) for source in query.sources)
        self._era += 1
        closed = {name: stream.closed for name, stream in self._streams.items()}
        base = max(closed[source.stream] for source in sources)
        self._queries[request.name] = _Registered(request, self._era, sources, closed, base, base)

    def _source(self, source: syntax.Source) -> _Source:
        columns = self._stream(source.stream).request.columns
        if not isinstance(source.window, syntax.Partition):
            return _Source(source.stream, source.window, ())
        names = [reference.name for reference in source.window.by]
        if unknown := set(names) - set(columns):
            raise UnknownName(f"no column of {source.stream}: {', '.join(sorted(unknown))}")
        by = tuple(1 + columns.index(name) for name in names)
        return _Source(source.stream, source.window, by)

    def _append(self, stream: _Declared, rows: Sequence[Row]) -> None:
        for row in rows:
            instant = row[0]
            assert instant is not None  # an engine accepts no null here
            stream.elements.append(_Element(instant, stream.arrivals, self._era, row))
            stream.arrivals += 1
        self._size += len(rows)
        if self._size > self._limit:
            self._forget()

    def _needs(self) -> Iterator[tuple[_Registered, _Source, list[_Element]]]:
        """Each source of each query, and the elements that the query needs of it."""
        for query in self._queries.values():
            for source in query.sources:
                yield query, source, _needed(query, source, self._stream(source.stream).elements)

    def _forget(self) -> None:
        """Lets go of the elements that no query needs."""
        kept: dict[str, set[int]] = {name: set() for name in self._streams}
        for _, source, needed in self._needs():
            kept[source.stream].update(element.arrival for element in needed)
        for name, stream in self._streams.items():
            stream.elements = [it for it in stream.elements if it.arrival in kept[name]]
        self._size = sum(len(stream.elements) for stream in self._streams.values())
        self._limit = 2 * self._size + SLACK

    def _low(self) -> int:
        """An instant below all that is needed, so that streams may begin after it."""
        low = min([LAST - 1, *(stream.closed for stream in self._streams.values())])
        for query in self._queries.values():
            low = min(low, query.mark - (query.mark > query.base))
        for query, source, needed in self._needs():
            low = min([low, *(element.instant - 1 for element in needed)])
            slide = _slide(source.window)
            if slide is not None and query.mark - query.mark % slide > query.base:
                low = min(low, query.mark - query.mark % slide - 1)
        return max(low, -1)

    def _script(self, low: int) -> Iterator[Request]:
        """The requests that are left, where streams begin above `low`.

        What came before a query was registered comes before it here too.
        """
        told: dict[str, int] = {}  # what is closed of each stream by now
        given: dict[str, int] = {}  # how many of its elements
        for query in sorted(self._queries.values(), key=lambda it: it.era):
            yield from self._until(query.era, query.closed, low, told, given)
            yield query.request
        ends = {name: stream.closed for name, stream in self._streams.items()}
        yield from self._until(self._era + 1, ends, low, told, given)

    def _until(self, era: int, closed: dict[str, int], low: int, told: dict[str, int],
               given: dict[str, int]) -> Iterator[Request]:
        for name, stream in self._streams.items():
            if stream.era >= era:
                continue
            if name not in told:
                start = max(stream.request.start, low + 1)
                told[name], given[name] = start - 1, 0
                yield Stream(name, stream.request.columns, start)
            rows = [it.row for it in stream.elements[given[name]:] if it.era < era]
            given[name] += len(rows)
            yield from appends(name, rows)
            yield from heartbeats(name, told[name], closed[name])
            told[name] = max(told[name], closed[name])


def compact(accepted: Iterable[Request], done: dict[str, int]) -> list[Request]:
    """Returns a script for accepted requests, where answers up to `done` of a query are out."""
    compactor = Compactor()
    for request in accepted:
        compactor.note(request)
    for query, upto in done.items():
        compactor.answered(query, upto)
    return compactor.script()


def _slide(window: syntax.Window) -> int | None:
    return window.slide if isinstance(window, syntax.Range) else None


def _needed(query: _Registered, source: _Source, elements: list[_Element]) -> list[_Element]:
    """The elements of a source above the mark, or shown at the mark or later."""
    mark, base, window = query.mark, query.base, source.window
    inside = [it for it in elements if it.era >= query.era and it.instant > base]
    match window:
        case syntax.Unbounded():
            return inside
        case syntax.Now():
            return [it for it in inside if it.instant >= mark]
        case syntax.Range(last, slide):
            if slide is None:
                return [it for it in inside if it.instant >= mark - last]
            step = mark - mark % slide  # it holds at the mark what it held here, if above the base
            return [it for it in inside
                    if it.instant > mark or it.instant >= step + slide - last
                    or step > base and step - last <= it.instant <= step]
        case syntax.Rows(count) | syntax.Partition(_, count):
            return _last(count, source.by, mark, inside)


def _last(count: int, by: tuple[int, ...], mark: int, inside: list[_Element]) -> list[_Element]:
    """The elements above the mark, and the last ones of each partition up to it."""
    found = [it for it in inside if it.instant > mark]
    seen: Counter[tuple[int | None, ...]] = Counter()
    early = [it for it in inside if it.instant <= mark]
    for element in sorted(early, key=lambda it: (it.instant, it.arrival), reverse=True):
        key = tuple(element.row[place] for place in by)
        if seen[key] < count:
            seen[key] += 1
            found.append(element)
    return found
