"""Asks the server again and again, and keeps what the page shows."""
from __future__ import annotations

import asyncio
import time
from collections import Counter
from contextlib import contextmanager, suppress
from dataclasses import dataclass, field
from typing import Any, Iterator

from .errors import Away, PageError, Refusal
from .history import History
from .known import Known
from .link import Link, Reply

MOST = 4_096  # the most answers of a take or a peek
TAKES = 8  # takes of a query in one round
PATIENCE = 2.0  # the longest pause in seconds before the server is tried again
PLAN_AGE = 5.0  # seconds after which a plan is asked for again
NOT_KNOWN = "N2 BadRequest"  # the fault of a request that the server does not know


@dataclass
class StreamSeen:
    """What is known of a stream. `moved` is when its closed instant last grew."""

    name: str
    columns: tuple[str, ...] = ()
    rows: int | None = None
    closed: int | None = None
    moved: float | None = None


@dataclass
class QuerySeen:
    """What is known of a query, its plan and the answers that were seen."""

    name: str
    history: History
    base: int | None = None
    upto: int | None = None
    taken: int | None = None
    waiting: int | None = None
    listed: bool = False
    trouble: str | None = None
    operators: list[tuple[str, str]] = field(default_factory=list)
    planned: float = -PLAN_AGE


class Watch:
    """Watches one server. `run` goes on until it is cancelled; readers wait on `changes`."""

    def __init__(self, host: str, port: int, known: Known, every: float = 0.5,
                 keep: int = 4_000) -> None:
        self.host = host
        self.port = port
        self.known = known
        self.streams: dict[str, StreamSeen] = {}
        self.queries: dict[str, QuerySeen] = {}
        self.connected = False
        self.trouble: str | None = None
        self.status = True  # whether the server answers `status`
        self.peek = True  # whether it answers `peek`
        self.version = 0
        self.ended = False
        self._every = every
        self._keep = keep
        self._viewers: Counter[str] = Counter()
        self._changed = asyncio.Condition()
        self._hurry = asyncio.Event()
        self._told()

    def _told(self) -> None:
        """Lists what the page was told of, before the server is asked."""
        for name, shape in self.known.streams.items():
            self.streams[name] = StreamSeen(name, shape.columns)
        for name in [*self.known.queries, *self.known.taken]:
            self._query(name)

    def _query(self, name: str) -> QuerySeen:
        if name not in self.queries:
            self.queries[name] = QuerySeen(name, History(self._keep))
        return self.queries[name]

    @contextmanager
    def viewing(self, name: str) -> Iterator[None]:
        """Marks a query as looked at, so that its answers and its plan are asked for."""
        self._viewers[name] += 1
        self._hurry.set()
        try:
            yield
        finally:
            self._viewers[name] -= 1
            if not self._viewers[name]:
                del self._viewers[name]

    async def changes(self, version: int, patience: float) -> int:
        """Waits until there is more than at `version`, or for `patience` seconds."""
        with suppress(TimeoutError):
            async with asyncio.timeout(patience), self._changed:
                await self._changed.wait_for(lambda: self.version != version)
        return self.version

    async def end(self) -> None:
        """Lets those who wait for changes go."""
        self.ended = True
        await self._tell()

    async def run(self) -> None:
        """Connects, looks every so often, and connects again when the server went away."""
        pause = self._every
        while True:
            try:
                link = await Link.opened(self.host, self.port)
            except Away as away:
                await self._away(away)
                await asyncio.sleep(pause)
                pause = min(PATIENCE, 2 * pause)
                continue
            pause = self._every
            try:
                await self._watch(link)
            except Away as away:
                await self._away(away)
            except (AttributeError, IndexError, KeyError, TypeError, ValueError) as error:
                await self._away(Away(f"a reply is none of this server: {error!r}"))
            finally:
                link.close()
            await asyncio.sleep(pause)

    async def _away(self, error: PageError) -> None:
        if self.connected or self.trouble != str(error):
            self.connected, self.trouble = False, str(error)
            await self._tell()

    async def _tell(self) -> None:
        async with self._changed:
            self.version += 1
            self._changed.notify_all()

    async def _watch(self, link: Link) -> None:
        """Looks at a connected server until it goes away."""
        self.status = self.peek = True
        for query in self.queries.values():
            query.planned = -PLAN_AGE
        while True:
            self._hurry.clear()
            await self._round(link)
            self.connected, self.trouble = True, None
            await self._tell()
            with suppress(TimeoutError):
                async with asyncio.timeout(self._every):
                    await self._hurry.wait()

    async def _round(self, link: Link) -> None:
        if self.status:
            reply, = await link.asking([{"op": "status"}])
            self.status = reply.get("error") != NOT_KNOWN
            if self.status:
                self._read_status(reply)
        viewed = list(self._viewers)
        for name in viewed:
            if self.status and self.peek and name in self.queries:
                await self._look(link, self.queries[name])
        if not (self.status and self.peek):
            for name in self.known.taken:
                await self._take(link, self._query(name))
        for name in viewed:
            if name in self.queries:
                await self._plan(link, self.queries[name])

    def _read_status(self, reply: Reply) -> None:
        """Reads a reply to `status`. What is no longer listed goes."""
        now = time.monotonic()
        names = set()
        for told in reply.get("streams", []):
            name = str(told["name"])
            names.add(name)
            stream = self.streams.setdefault(name, StreamSeen(name))
            closed = _whole(told.get("closed"))
            if stream.moved is None or closed != stream.closed:
                stream.moved = now
            stream.closed = closed
            stream.rows = _whole(told.get("rows"))
            stream.columns = tuple(str(column) for column in told.get("columns", []))
        for name in set(self.streams) - names:
            del self.streams[name]
        names = set()
        for told in reply.get("queries", []):
            name = str(told["name"])
            names.add(name)
            self._read_query(self._query(name), told)
        for name in set(self.queries) - names:
            del self.queries[name]

    def _read_query(self, query: QuerySeen, told: dict[str, Any]) -> None:
        taken, upto, base = (_whole(told.get(key)) for key in ("taken", "upto", "base"))
        if query.listed and (_fell(query.taken, taken) or _fell(query.upto, upto)
                             or query.base != base):
            query.history.clear()  # another query of this name, or another life of the server
            query.planned = -PLAN_AGE
        query.taken, query.upto, query.base, query.listed = taken, upto, base, True
        query.waiting = _whole(told.get("waiting"))

    async def _look(self, link: Link, query: QuerySeen) -> None:
        """Looks at what waits, between two looks at the status that agree."""
        if query.taken is not None and query.waiting is not None:
            first = query.taken
            if query.history.next >= first + min(query.waiting, MOST):
                return
        for _ in range(3):
            before = query.taken
            peeked, reply = await link.asking(
                [{"op": "peek", "query": query.name, "limit": MOST}, {"op": "status"}])
            if peeked.get("error") == NOT_KNOWN:
                self.peek = False
                return
            query.trouble = peeked.get("error")
            if "error" in peeked or "error" in reply:
                return
            self._read_status(reply)
            if query.name not in self.queries:
                return
            if query.taken == before and before is not None:
                query.history.see(before, peeked["rows"])
                return

    async def _take(self, link: Link, query: QuerySeen) -> None:
        """Takes what waits: the only way to see it where the server knows no `peek`."""
        for _ in range(TAKES):
            try:
                reply = await link.ask("take", query=query.name, limit=MOST)
            except Refusal as refusal:
                query.trouble = refusal.fault
                return
            query.trouble = None
            rows = reply["rows"]
            query.history.see(query.history.next, rows)
            if rows:
                query.upto = rows[-1][0]
            if len(rows) < MOST:
                return

    async def _plan(self, link: Link, query: QuerySeen) -> None:
        now = time.monotonic()
        if now - query.planned < PLAN_AGE:
            return
        try:
            reply = await link.ask("plan", query=query.name)
        except Refusal:
            query.operators = []
            return
        query.planned = now
        query.operators = [(str(kind), str(slope)) for kind, slope in reply["operators"]]


def _whole(value: Any) -> int | None:
    return value if isinstance(value, int) else None


def _fell(before: int | None, after: int | None) -> bool:
    return before is not None and after is not None and after < before
