"""Both ends of a bridge: a producer of rows, and a reader of answers.

    with Store(url) as store:
        Clerk(store, "t").declare(Stream("S", ("k", "v"), 0), ["sensor"])
        sensor = Producer(store, "t", "sensor")
        sensor.append("S", [(3, 1, 20)])
        sensor.promise("S", 3)
        for answer in answers(store, "t", "q"):
            print(answer.instant, answer.rows)
"""

import json
from collections.abc import Iterable, Iterator, Mapping, Sequence
from dataclasses import dataclass

from ..language import read, resolve
from .parting import Unparted, Way, both_ways, part_of, way
from .script import Drop, Query, Row, Stream, object_of
from .store import START, Place, Store


@dataclass(frozen=True, slots=True)
class Answers:
    """Answers of an instant, all or some of them. A reader keeps `place`, and goes on after it."""

    place: Place
    rows: Sequence[Row]

    @property
    def instant(self) -> int:
        """The instant of the answers."""
        return self.place[0]


class Producer:
    """Sends rows and promises, and numbers them, so that each counts once.

    The number is the producer's place in its own source. After RedisGone, or a restart, another
    one with the same name says by `number` how far the last one came. Its calls raise RedisGone
    and RedisFault.
    """

    def __init__(self, store: Store, prefix: str, name: str) -> None:
        """Begins after the last entry that the producer of this name has sent."""
        self._store = store
        self._log, self._numbers = f"{prefix}:in", f"{prefix}:sent"
        self._name = name
        last = store.sent(self._numbers, name)
        self._number = -1 if last is None else last

    @property
    def number(self) -> int:
        """The number of the last entry, or -1 if there is none."""
        return self._number

    def append(self, stream: str, rows: Iterable[Row]) -> Place:
        """Sends rows under the next number, and returns the place of their entry in the log.

        They are accepted or refused together, and refused where they are more than 1,024 or take
        more than 65,000 bytes of text.
        """
        text = json.dumps([list(row) for row in rows], separators=(",", ":"))
        return self.send(self._number + 1, ["stream", stream, "rows", text])

    def promise(self, stream: str, at: int) -> Place:
        """Promises that no row at or below `at` will come from this producer."""
        return self.send(self._number + 1, ["stream", stream, "at", str(at)])

    def send(self, number: int, fields: Sequence[str]) -> Place:
        """Sends an entry of names and values under a number, which has to be above the last."""
        place = self._store.send(self._log, self._numbers, self._name, number,
                                 ["p", self._name, "n", str(number), *fields])
        self._number = number
        return place


class PartedProducer:
    """Sends each row to the bridge of its key's part, and each promise to all bridges.

    One number counts for all parts, and rises with each call. After a restart go on after
    `number`: what a part has already is not sent to it again. Its calls raise as a producer's.
    """

    def __init__(self, store: Store, parts: Sequence[str], name: str,
                 keys: Mapping[str, int]) -> None:
        """Takes the prefixes of the bridges, and of each parted stream the place of its key.

        The place is that among the stream's columns, from 0. Other streams go to each bridge.
        """
        self._producers = [Producer(store, prefix, name) for prefix in parts]
        self._keys = dict(keys)
        self._number = min(producer.number for producer in self._producers)

    @property
    def number(self) -> int:
        """The number of the last call that all parts have for certain, or -1 if there is none."""
        return self._number

    def append(self, stream: str, rows: Iterable[Row]) -> None:
        """Sends rows. Those of each part are accepted or refused by themselves."""
        parts: list[list[Row]] = [[] for _ in self._producers]
        for row in rows:
            if stream in self._keys:
                parts[part_of(row[1 + self._keys[stream]], len(parts))].append(list(row))
            else:
                for part in parts:
                    part.append(list(row))
        self._send([["stream", stream, "rows", json.dumps(part, separators=(",", ":"))]
                    if part else None for part in parts])

    def promise(self, stream: str, at: int) -> None:
        """Promises that no row at or below `at` will come from this producer."""
        self._send([["stream", stream, "at", str(at)] for _ in self._producers])

    def _send(self, entries: Sequence[Sequence[str] | None]) -> None:
        number = self._number + 1
        for producer, fields in zip(self._producers, entries):
            if fields is not None and producer.number < number:
                producer.send(number, fields)
        self._number = number


class PartedClerk:
    """Declares streams and queries at the bridges of all parts. Its calls raise as a clerk's."""

    def __init__(self, store: Store, parts: Sequence[str], keys: Mapping[str, str]) -> None:
        """Takes the prefixes of the bridges, and the name of the key of each parted stream."""
        self._clerks = [Clerk(store, prefix) for prefix in parts]
        self._keys = dict(keys)
        self._columns: dict[str, tuple[str, ...]] = {}

    def stream(self, request: Stream, producers: Iterable[str]) -> None:
        """Declares a stream."""
        names = list(producers)
        self._columns[request.name] = request.columns
        for clerk in self._clerks:
            clerk.declare(request, names)

    def query(self, name: str, text: str) -> str | None:
        """Declares a query. Returns the name of the query that a merger has to take off, or None.

        Nothing is declared if it raises: Unparted if no merger can answer the query over parts,
        or a fault of the language.
        """
        query = resolve(read(text), self._columns, text)
        how = way(query, self._keys, self._columns)
        if how is Way.STAGES:
            raise Unparted("it needs a second stage, which the driver has and a merger has not")
        if how is Way.ONE:
            raise Unparted("no stream of it is parted: ask it of a bridge of its own")
        own, other = both_ways(query.query)
        less = f"{name}_less" if how is Way.NET else None
        for clerk in self._clerks:
            clerk.declare(Query(name, own))
            if less is not None:
                clerk.declare(Query(less, other))
        return less


class Clerk:
    """Declares streams and queries of a bridge. Its calls raise RedisGone and RedisFault."""

    def __init__(self, store: Store, prefix: str) -> None:
        """Takes the prefix of the bridge's keys."""
        self._store = store
        self._log = f"{prefix}:in"

    def declare(self, request: Stream | Query | Drop, producers: Iterable[str] = ()) -> Place:
        """Declares a stream with its producers, or a query, or drops one.

        Returns the place of the entry in the log. One that was declared before is refused, and
        changes nothing.
        """
        told = object_of(request)
        if isinstance(request, Stream):
            told["producers"] = list(producers)
        return self._store.add(self._log, ["op", json.dumps(told, separators=(",", ":"))])


def answers(store: Store, prefix: str, query: str, after: Place = START) -> Iterator[Answers]:
    """Yields the answers after a place, until none is left."""
    key = f"{prefix}:out:{query}"
    while entries := store.entries(key, after, 1_000):
        for entry in entries:
            yield Answers(entry.place, json.loads(entry.fields[b"rows"]))
        after = entries[-1].place


def upto(store: Store, prefix: str, query: str) -> int:
    """Returns the instant up to which all answers are there, or -1 if none is."""
    found = store.number(f"{prefix}:upto:{query}")
    return -1 if found is None else found
