"""What every client has: its calls, requests that wait for replies, batches, and losses."""

from __future__ import annotations

import math
import time
from abc import ABC, abstractmethod
from collections.abc import Iterable, Iterator, Sequence
from contextlib import contextmanager
from types import TracebackType
from typing import Any, TypeVar, overload

from .appends import Appending, RowSchema, Skip
from .faults import (
    BadReply,
    BatchRefused,
    CannotConnect,
    Closed,
    ConnectionLost,
    CqldError,
    Refused,
    Request,
    TimedOut,
)
from .follow import Beat, Decoder, Follow
from .parts import part_steps
from .sources import sources_of
from .steps import NOTHING, Line, Nap, Steps, advance
from .waiting import Asked, Batched, Retries, Waiting
from .wire import (
    TAKE,
    Link,
    Operator,
    Reply,
    Row,
    Seconds,
    Status,
    line_of,
    operators_of,
    rows_of,
    status_of,
)

_HELD = 1 << 20  # bytes that a batch queues before it waits for the engine
_SENT = 512  # requests that a batch sends before it looks for replies

Self = TypeVar("Self", bound="Connection")


class Pending(Asked):
    """Is a request that was sent. Its reply comes once the replies before it have come."""

    def __init__(self, connection: "Connection", request: Request, begin: int) -> None:
        super().__init__(request)
        self.begin = begin  # its first byte among all that were queued
        self._connection = connection

    def reply(self, timeout: Seconds | None = None) -> Reply:
        """Waits for the reply and returns it. `timeout` is in seconds, by default the client's.

        Raises `Refused`, `TimedOut` or `ConnectionLost`. After a time-out it can be asked again.
        """
        answer = self._connection._answer(self, timeout)
        if (refused := self._refusal()) is not None:
            raise refused
        return answer


class Batch(Batched[Pending]):
    """Is what a batch has sent. Once it has ended, `refusals` has those of its requests."""

    def note(self) -> None:
        """Looks at the replies that have come."""
        self._note()

    def leave(self) -> None:
        """Leaves the replies that did not come yet to `settle`."""
        self._leave()


class Connection(Waiting[Pending], ABC):
    """Has the calls of a client. Close it, or use it in a `with`. One thread at a time may use it.

    Each call sends a request, waits for the reply, and takes a `timeout` in seconds. Where that is
    left out the client's own counts, and where that is None the call waits for good. Every call
    may raise:

    - `Refused`, where the engine refuses the request,
    - `TimedOut`, where no reply came in time,
    - `ConnectionLost`, where the connection ended before the reply came,
    - `Closed`, where the client was closed or has lost its connection before.
    """

    is_alone = False  # whether nobody works but by a drain

    def __init__(self, timeout: Seconds | None) -> None:
        super().__init__()
        self.timeout = timeout
        self.columns: dict[str, tuple[str, ...]] = {}
        self.sources: dict[str, tuple[str, ...]] = {}  # of the queries that it registered
        self._batch: Batch | None = None
        self._link: Link | None = None
        self._link = self._open(timeout)

    def __enter__(self: Self) -> Self:
        return self

    def __exit__(
        self,
        kind: type[BaseException] | None,
        error: BaseException | None,
        trace: TracebackType | None,
    ) -> None:
        try:
            self.close()
        except CqldError:
            if error is None:
                raise

    # What a kind of connection adds

    @abstractmethod
    def _open(self, timeout: Seconds | None) -> Link:
        """Connects."""

    @abstractmethod
    def _shut(self) -> None:
        """Lets go of the connection."""

    def _why(self, reason: str) -> str:
        """Says more of why a connection was lost."""
        return reason

    # Requests

    def send(self, op: str, **keys: Any) -> Pending:
        """Writes a request and returns at once. `reply` of what it returns waits for the reply.

        A key with the name of a word of Python goes in by `**{"from": 0}`. Raises `BadRequest`
        where the request cannot be written, `Closed` and `ConnectionLost`.
        """
        self._linked()
        request = {"op": op, **keys}
        return self._put(request, line_of(request))

    def ask(self, op: str, *, timeout: Seconds | None = None, **keys: Any) -> Reply:
        """Sends a request and returns its reply, a dict. Raises as every call."""
        return self.send(op, **keys).reply(timeout)

    @contextmanager
    def batch(self, timeout: Seconds | None = None) -> Iterator[Batch]:
        """Sends the calls of a `with` one after the other, and waits for their replies at its end.

            with client.batch():
                client.append("Trades", rows)
                client.heartbeat("Trades", 2)
                client.drain()

        A call that returns answers still waits for its own reply, and so for those before it. All
        requests are carried out in their order, also those after a refused one: so keep a
        heartbeat out of a batch whose rows may be refused.

        Raises `BatchRefused` with all refusals at its end. Where the body raises, that error goes
        on, and the refusals are those of the batch.
        """
        if self._batch is not None:
            yield self._batch  # a batch in a batch is a part of it
            return
        self._batch = batch = Batch()
        try:
            yield batch
        except ConnectionLost:
            batch.note()
            raise
        except Exception:
            self._batch = None
            if self._link is not None:
                self._collect(batch, timeout)
            raise
        except BaseException:
            batch.leave()
            raise
        finally:
            self._batch = None
        self._collect(batch, timeout)
        if batch.refusals:
            raise BatchRefused(batch.refusals)

    def settle(self, timeout: Seconds | None = None) -> list[tuple[Request, Reply]]:
        """Waits for the replies of all requests that have none, and returns the late ones.

        Each is a request that a call no longer waited for, and its reply: `{"error":".."}` where
        it was refused. Each is returned once. Raises `TimedOut` and `ConnectionLost`.
        """
        seconds, deadline = self._until(timeout)
        while self._waiting:
            self._read(seconds, deadline)
        return self._settled()

    def reconnect(self, timeout: Seconds | None = None) -> tuple[Request, ...]:
        """Connects anew, and returns the requests whose outcome is unknown.

        These were written when the connection was lost, and had no reply. `status` may show whether
        they were carried out. Replies that had come before, and that `settle` did not return yet,
        are kept. It tries again until `timeout` seconds are over, and then raises `CannotConnect`.
        """
        unknown = self._unknown()
        self._let_go()
        retries = Retries(timeout if timeout is not None else self.timeout)
        while True:
            try:
                self._link = self._open(retries.patience())
                self._lost = None
                return unknown
            except CannotConnect:
                if (pause := retries.pause()) is None:
                    raise
            time.sleep(pause)

    def close(self) -> None:
        """Ends the connection. What was accepted stays with a server."""
        self._let_go()

    # Calls

    def stream(
        self, name: str, columns: Iterable[str], start: int = 0, *,
        timeout: Seconds | None = None,
    ) -> None:
        """Declares a stream whose first open instant is `start`."""
        names = tuple(columns)
        self._tell("stream", timeout, name=name, columns=list(names), **{"from": start})
        self.columns[name] = names

    def query(
        self,
        name: str,
        text: str,
        chart: Iterable[Sequence[int]] | None = None,
        *,
        timeout: Seconds | None = None,
    ) -> None:
        """Registers a query. A chart has a cost and a size for each operator, by its number."""
        keys = {} if chart is None else {"chart": [list(pair) for pair in chart]}
        self._tell("query", timeout, name=name, text=text, **keys)
        self.sources[name] = sources_of(text)

    def append(
        self,
        stream: str,
        rows: Iterable[Any],
        *,
        skip: Skip | None = None,
        schema: RowSchema | None = None,
        timeout: Seconds | None = None,
    ) -> int:
        """Appends rows of any iterable, each an instant and its values. Returns how many it took.

        They go in appends of at most 1,024 rows. `timeout` is for each of these. A `schema` turns
        rows with types into numbers.

        A late or bad row raises `LateRow` or `BadRow`, which have its index. The rows before it
        are taken then, and `rest` of the error are the rows that were read after it. Where `skip`
        is given, it is called with that error instead, and the append goes on: `Skipped` counts.

        Any other error has `taken` and `rest` too. The rows of a request that is unknown are those
        of its key `rows`.

        In a batch the rows are sent without a wait, and the number is that of the rows sent. A
        refusal comes at the end of the batch then. But with `skip` each append waits.
        """
        call = Appending(stream, self.columns.get(stream), skip, schema)
        for chunk in call.chunks(rows):
            self._advance(call.steps(chunk), timeout)
        return call.taken

    def heartbeat(self, stream: str, at: int, *, timeout: Seconds | None = None) -> None:
        """Promises that no row at or below the instant `at` will come."""
        self._tell("heartbeat", timeout, stream=stream, at=at)

    def drain(self, *, timeout: Seconds | None = None) -> None:
        """Brings every query up to what is closed, except for turns that other threads have."""
        self._tell("drain", timeout)

    def take(
        self, query: str, limit: int = TAKE, *, timeout: Seconds | None = None
    ) -> list[Row]:
        """Returns the next answers that wait, at most `limit`. They wait no longer.

        Each is a list of an instant and its values.
        """
        return rows_of(self.ask("take", timeout=timeout, query=query, limit=limit))

    def peek(
        self, query: str, limit: int = TAKE, *, timeout: Seconds | None = None
    ) -> list[Row]:
        """Returns what `take` would, but leaves it waiting.

        Programs without this request refuse it as `N2 BadRequest`.
        """
        return rows_of(self.ask("peek", timeout=timeout, query=query, limit=limit))

    def answers(
        self, query: str, upto: int | None = None, *, timeout: Seconds | None = None
    ) -> Iterator[Row]:
        """Yields answers, and ends once all of them up to the instant `upto` were taken.

        By default that is the last instant that the query's streams had closed when the first
        answer was asked for. A client knows the streams of the queries that it registered.

        It looks at the status and leaves the work to a server's workers: see `Progress`. Without
        `upto`, of a query of another client, and of programs without `status`, it ends where a
        drain and a take find none.
        """
        for rows in self.parts(query, upto, timeout=timeout):
            yield from rows

    def parts(
        self,
        query: str,
        upto: int | None = None,
        *,
        sources: Sequence[str] | None = None,
        timeout: Seconds | None = None,
    ) -> Iterator[list[Row]]:
        """Yields what `answers` does, in lists as they were taken.

        `sources` names the streams that the query reads, where this client did not register it.
        """
        known = self.sources.get(query, ()) if sources is None else sources
        steps = part_steps(self.send, query, known, self.is_alone, upto)
        while (rows := self._advance(steps, timeout)) is not None:
            yield rows

    @overload
    def follow(
        self,
        query: str,
        pause: Seconds = 0.05,
        *,
        deadline: Seconds | None = None,
        beat: None = None,
        limit: int = TAKE,
        timeout: Seconds | None = None,
    ) -> Follow[Row]:
        ...

    @overload
    def follow(
        self,
        query: str,
        pause: Seconds = 0.05,
        *,
        deadline: Seconds | None = None,
        beat: Seconds,
        limit: int = TAKE,
        timeout: Seconds | None = None,
    ) -> Follow[Row | Beat]:
        ...

    @overload
    def follow(
        self,
        query: str,
        pause: Seconds = 0.05,
        *,
        deadline: Seconds | None = None,
        beat: Seconds | None = None,
        limit: int = TAKE,
        decoder: Decoder,
        timeout: Seconds | None = None,
    ) -> Follow[Any]:
        ...

    def follow(
        self,
        query: str,
        pause: Seconds = 0.05,
        *,
        deadline: Seconds | None = None,
        beat: Seconds | None = None,
        limit: int = TAKE,
        decoder: Decoder | None = None,
        timeout: Seconds | None = None,
    ) -> Follow[Any]:
        """Returns an iterator over the answers of a query, as they come. See `Follow`.

        It looks for answers every `pause` seconds. It ends `deadline` seconds from the call, or
        never. Where nothing came for `beat` seconds it yields a `Beat`. It asks for at most
        `limit` answers at a time. A `decoder`, as `Answers`, turns rows into answers.
        """
        known = self.sources.get(query, ())
        return Follow(self, query, known, pause, deadline, beat, limit, decoder, timeout)

    def plan(self, query: str, *, timeout: Seconds | None = None) -> list[Operator]:
        """Returns each operator's kind and slope, by its number."""
        return operators_of(self.ask("plan", timeout=timeout, query=query))

    def status(self, *, timeout: Seconds | None = None) -> Status:
        """Returns how far each stream and each query is.

        Programs without this request refuse it as `N2 BadRequest`.
        """
        return status_of(self.ask("status", timeout=timeout))

    def drop(self, query: str, *, timeout: Seconds | None = None) -> None:
        """Drops a query. What was not taken is gone."""
        self._tell("drop", timeout, query=query)
        self.sources.pop(query, None)

    def forget(self, *, timeout: Seconds | None = None) -> None:
        """Lets go of the rows that no query needs any longer. No later reply changes."""
        self._tell("forget", timeout)

    # Within

    def _advance(self, steps: Steps[Pending], timeout: Seconds | None) -> Any:
        """Carries steps of a call out, and returns what they find: see `advance`."""
        return advance(steps, self._carry_out, timeout)

    def _carry_out(self, step: Pending | Line | Nap, timeout: Seconds | None) -> Reply:
        """Carries out a step of a call, and returns its reply, if it has one."""
        if isinstance(step, Pending):
            return step.reply(timeout)
        if isinstance(step, Line):
            self._tell_line(step.request, step.line, timeout, step.waits)
        else:
            time.sleep(step.seconds)
        return NOTHING

    def _put(self, request: Request, line: bytes) -> Pending:
        """Writes a request."""
        link = self._linked()
        pending = Pending(self, request, link.queued)
        self._waiting.append(pending)
        link.put(line)
        return pending

    def _tell(self, op: str, timeout: Seconds | None, **keys: Any) -> None:
        """Sends a request whose reply says nothing. In a batch its reply is read at the end."""
        request = {"op": op, **keys}
        self._tell_line(request, line_of(request), timeout, False)

    def _tell_line(
        self, request: Request, line: bytes, timeout: Seconds | None, waits: bool
    ) -> None:
        """Sends a request as `_tell` does, but also in a batch waits where it `waits`."""
        pending = self._put(request, line)
        batch = self._batch
        if batch is None or waits:
            pending.reply(timeout)
            return
        batch.sent.append(pending)
        link = self._linked()
        seconds, deadline = self._until(timeout)
        try:
            link.flush(_HELD, deadline)
        except TimeoutError:
            raise TimedOut(seconds, self._requests()) from None
        except ConnectionError:
            self._answer(pending, timeout)  # reads the replies that came, and then raises
        if len(batch.sent) >= _SENT:
            link.gather()
        while link.has_line:
            self._read(seconds, deadline)
        batch.note()

    def _collect(self, batch: Batch, timeout: Seconds | None) -> None:
        """Reads the replies of a batch."""
        try:
            while batch.sent:
                self._answer(batch.sent[0], timeout)
                batch.note()
        except BaseException:
            batch.note()
            batch.leave()
            raise

    def _answer(self, pending: Pending, timeout: Seconds | None) -> Reply:
        """Waits for the reply of a request, and for all replies before it."""
        seconds, deadline = self._until(timeout)
        self._want(pending)
        try:
            while pending.answer is None:
                self._read(seconds, deadline)
        except BaseException:
            pending.is_late = True
            raise
        return pending.answer

    def _read(self, seconds: Seconds, deadline: float | None) -> None:
        """Reads a reply, and gives it to the first request that waits."""
        link = self._linked()
        try:
            line = link.line(deadline)
        except TimeoutError:
            raise TimedOut(seconds, self._requests()) from None
        except ConnectionError as error:
            raise self._ended(ConnectionLost, str(error)) from None
        try:
            self._match(line)
        except BadReply as error:
            raise self._ended(BadReply, error.reason) from None

    def _ended(self, kind: type[ConnectionLost], reason: str) -> ConnectionLost:
        """Lets go of a lost connection, and returns the error that says what is unknown."""
        link = self._linked()
        unknown = [it.request for it in self._waiting if it.begin < link.written]
        unsent = [it.request for it in self._waiting if it.begin >= link.written]
        self._lost = kind(self._why(reason), unknown, unsent)
        self._let_go()
        return self._lost

    def _let_go(self) -> None:
        """Lets go of the connection, if there is one."""
        self._waiting.clear()
        if self._link is not None:
            self._link = None
            self._shut()

    def _linked(self) -> Link:
        """Returns the link. Raises `Closed` where there is none."""
        if self._link is None:
            raise Closed()
        return self._link

    def _until(self, timeout: Seconds | None) -> tuple[Seconds, float | None]:
        """Returns the seconds of a call, and the monotonic time at which they are over."""
        seconds = timeout if timeout is not None else self.timeout
        if seconds is None or seconds == math.inf:
            return math.inf, None
        return seconds, time.monotonic() + seconds
