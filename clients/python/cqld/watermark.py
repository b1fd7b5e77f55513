"""A watermark of several producers: each promises its own instant, and the least is sent."""

from __future__ import annotations

import asyncio
import threading
from collections.abc import Iterable, Mapping
from typing import TYPE_CHECKING

from .columns import Clock
from .faults import ClockBack, Refused, UnknownProducer
from .schema import Instant, Schema
from .wire import Seconds, heartbeats

if TYPE_CHECKING:
    from .aio import AsyncClient
    from .connection import Connection


class Promises:
    """Keeps what each producer of a stream has promised. It sends nothing."""

    def __init__(
        self, producers: Iterable[str], closed: int, late: int, clock: Clock | None
    ) -> None:
        self.closed = closed
        self._late = late
        self._schema = Schema({}, clock)
        self._promised = {producer: closed for producer in producers}

    @property
    def promised(self) -> Mapping[str, int]:
        """Returns the instant that each producer has promised."""
        return dict(self._promised)

    @property
    def least(self) -> int:
        """Returns the least promise, or the closed instant where there is no producer."""
        return min(self._promised.values(), default=self.closed)

    @property
    def slowest(self) -> tuple[str, ...]:
        """Returns the producers with the least promise, which hold the others back."""
        least = self.least
        return tuple(name for name, at in self._promised.items() if at == least)

    def note(self, producer: str, at: Instant) -> None:
        """Keeps a promise. Raises `ClockBack` and `UnknownProducer`."""
        instant = self._schema.instant(at)
        promised = self.of(producer)
        if instant < promised:
            raise ClockBack(producer, instant, promised)
        self._promised[producer] = instant

    def note_row(self, producer: str, newest: Instant) -> None:
        """Keeps the promise that the newest row of a producer gives. Raises `UnknownProducer`."""
        instant = self._schema.instant(newest) - self._late - 1
        self._promised[producer] = max(self.of(producer), instant)

    def of(self, producer: str) -> int:
        """Returns what a producer has promised. Raises `UnknownProducer`."""
        try:
            return self._promised[producer]
        except KeyError:
            raise UnknownProducer(producer) from None

    def add(self, producer: str) -> None:
        """Adds a producer that has promised what is closed."""
        self._promised.setdefault(producer, self.closed)

    def remove(self, producer: str) -> None:
        """Removes a producer. Raises `UnknownProducer`."""
        self.of(producer)
        del self._promised[producer]


class Watermark:
    """Closes a stream up to the least promise of its producers.

    Threads may share it, where it has a client of its own.

        mark = Watermark(client, "Trades", ["london", "tokyo"])
        mark.promise("london", 12)
        mark.promise("tokyo", 9)     # sends a heartbeat at 9

    `closed` is the last instant that it knows to be closed. A leap over more than 65,536 instants
    goes in several heartbeats. An instant that somebody else has closed already counts as sent.
    """

    def __init__(
        self,
        connection: "Connection",
        stream: str,
        producers: Iterable[str],
        closed: Instant = -1,
        *,
        late: int = 0,
        clock: Clock | None = None,
        timeout: Seconds | None = None,
    ) -> None:
        """Begins with a stream that is closed up to `closed`: its first open instant less one.

        `late` is how many instants a row may come after a later one: `saw` allows for it. With a
        `clock` promises may be datetimes. `timeout` is in seconds, for each heartbeat.
        """
        self.stream = stream
        self._connection = connection
        self._timeout = timeout
        self._lock = threading.Lock()
        first = closed if isinstance(closed, int) else Schema({}, clock).instant(closed)
        self._promises = Promises(producers, first, late, clock)

    @property
    def closed(self) -> int:
        """Returns the last instant that it knows to be closed."""
        return self._promises.closed

    @property
    def promised(self) -> Mapping[str, int]:
        """Returns the instant that each producer has promised."""
        return self._promises.promised

    @property
    def slowest(self) -> tuple[str, ...]:
        """Returns the producers that hold the others back."""
        return self._promises.slowest

    def promise(self, producer: str, at: Instant) -> int:
        """Promises that a producer sends no row at or below `at`. Returns what is closed.

        Raises `ClockBack` where it had promised more, `UnknownProducer`, `BadValue`, and as every
        call. After an error of a call the promise is kept, and the next one sends its heartbeat.
        """
        with self._lock:
            self._promises.note(producer, at)
            return self._send()

    def saw(self, producer: str, newest: Instant) -> int:
        """Promises what the newest row of a producer allows: no row `late` instants before it.

        Rows of the same instant may still come. Raises as `promise`, but an older row than the
        newest one changes nothing.
        """
        with self._lock:
            self._promises.note_row(producer, newest)
            return self._send()

    def join(self, producer: str) -> None:
        """Adds a producer. It has promised what is closed already, and holds back the rest."""
        with self._lock:
            self._promises.add(producer)

    def leave(self, producer: str) -> int:
        """Removes a producer, so that it holds back nothing. Returns what is closed then.

        Where it was the last one nothing more is closed. Raises `UnknownProducer`, and as every
        call.
        """
        with self._lock:
            self._promises.remove(producer)
            return self._send()

    def _send(self) -> int:
        promises = self._promises
        for at in heartbeats(promises.closed, promises.least):
            try:
                self._connection.ask(
                    "heartbeat", timeout=self._timeout, stream=self.stream, at=at
                )
            except Refused as refused:
                if refused.code != "E11":
                    raise
                # it is closed already, as by a heartbeat whose reply was lost
            promises.closed = at
        return promises.closed


class AsyncWatermark:
    """Is a `Watermark` of an `AsyncClient`. Tasks may share it."""

    def __init__(
        self,
        client: "AsyncClient",
        stream: str,
        producers: Iterable[str],
        closed: Instant = -1,
        *,
        late: int = 0,
        clock: Clock | None = None,
        timeout: Seconds | None = None,
    ) -> None:
        """Begins as a `Watermark` does."""
        self.stream = stream
        self._client = client
        self._timeout = timeout
        self._lock = asyncio.Lock()
        first = closed if isinstance(closed, int) else Schema({}, clock).instant(closed)
        self._promises = Promises(producers, first, late, clock)

    @property
    def closed(self) -> int:
        """Returns the last instant that it knows to be closed."""
        return self._promises.closed

    @property
    def promised(self) -> Mapping[str, int]:
        """Returns the instant that each producer has promised."""
        return self._promises.promised

    @property
    def slowest(self) -> tuple[str, ...]:
        """Returns the producers that hold the others back."""
        return self._promises.slowest

    async def promise(self, producer: str, at: Instant) -> int:
        """Promises as `Watermark.promise` does."""
        self._promises.note(producer, at)
        return await self._send()

    async def saw(self, producer: str, newest: Instant) -> int:
        """Promises as `Watermark.saw` does."""
        self._promises.note_row(producer, newest)
        return await self._send()

    def join(self, producer: str) -> None:
        """Adds a producer, as `Watermark.join` does."""
        self._promises.add(producer)

    async def leave(self, producer: str) -> int:
        """Removes a producer, as `Watermark.leave` does."""
        self._promises.remove(producer)
        return await self._send()

    async def _send(self) -> int:
        promises = self._promises
        async with self._lock:
            for at in heartbeats(promises.closed, promises.least):
                try:
                    await self._client.heartbeat(self.stream, at, timeout=self._timeout)
                except Refused as refused:
                    if refused.code != "E11":
                        raise
                promises.closed = at
        return promises.closed
