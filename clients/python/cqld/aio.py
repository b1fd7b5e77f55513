"""A client for asyncio, with the calls of `Client`. Tasks may share it: their requests pipeline."""

from __future__ import annotations

import asyncio
import math
import socket
from abc import ABC, abstractmethod
from collections.abc import AsyncIterable, AsyncIterator, Iterable, Sequence
from contextlib import asynccontextmanager
from types import TracebackType
from typing import Any, overload

from .appends import Appending, RowSchema, Skip
from .async_follow import AsyncFollow
from .faults import (
    BadReply,
    BatchRefused,
    CannotConnect,
    Closed,
    ConnectionLost,
    Refused,
    Request,
    TimedOut,
)
from .follow import Beat, Decoder
from .parts import part_steps
from .sources import sources_of
from .steps import NOTHING, Line, Nap, Steps, advance_async
from .waiting import Asked, Batched, Retries, Waiting
from .wire import (
    ROWS,
    TAKE,
    Operator,
    Reply,
    Row,
    Seconds,
    Status,
    line_of,
    operators_of,
    rows_of,
    status_of,
)

_LONGEST = 1 << 27  # bytes of a reply


class AsyncPending(Asked):
    """Is a request that was sent. Its reply comes once the replies before it have come."""

    def __init__(self, client: "AsyncClient", request: Request) -> None:
        super().__init__(request)
        self.lost: ConnectionLost | None = None
        self.done = asyncio.Event()
        self._client = client

    async def reply(self, timeout: Seconds | None = None) -> Reply:
        """Waits for the reply and returns it. `timeout` is in seconds, by default the client's.

        Raises `Refused`, `TimedOut` or `ConnectionLost`. After a time-out it can be asked again.
        """
        answer = await self._client._answer(self, timeout)
        if (refused := self._refusal()) is not None:
            raise refused
        return answer


class AsyncCalls(ABC):
    """Has the calls whose replies say nothing. See `Client` for each."""

    columns: dict[str, tuple[str, ...]]
    sources: dict[str, tuple[str, ...]]

    @abstractmethod
    async def _tell_line(
        self, request: Request, line: bytes, timeout: Seconds | None, waits: bool
    ) -> None:
        """Sends a request. In a batch its reply is read at the end, unless it `waits`."""

    async def _advance(self, steps: Steps[AsyncPending], timeout: Seconds | None) -> Any:
        """Carries steps of a call out, and returns what they find: see `advance_async`."""
        return await advance_async(steps, self._carry_out, timeout)

    async def _carry_out(
        self, step: AsyncPending | Line | Nap, timeout: Seconds | None
    ) -> Reply:
        """Carries out a step of a call, and returns its reply, if it has one."""
        if isinstance(step, AsyncPending):
            return await step.reply(timeout)
        if isinstance(step, Line):
            await self._tell_line(step.request, step.line, timeout, step.waits)
        else:
            await asyncio.sleep(step.seconds)
        return NOTHING

    async def _tell(self, op: str, timeout: Seconds | None, **keys: Any) -> None:
        """Sends a request whose reply says nothing."""
        request = {"op": op, **keys}
        await self._tell_line(request, line_of(request), timeout, False)

    async def stream(
        self, name: str, columns: Iterable[str], start: int = 0, *,
        timeout: Seconds | None = None,
    ) -> None:
        """Declares a stream whose first open instant is `start`."""
        names = tuple(columns)
        keys = {"columns": list(names), "from": start}
        await self._tell("stream", timeout, name=name, **keys)
        self.columns[name] = names

    async def query(
        self,
        name: str,
        text: str,
        chart: Iterable[Sequence[int]] | None = None,
        *,
        timeout: Seconds | None = None,
    ) -> None:
        """Registers a query. A chart has a cost and a size for each operator, by its number."""
        keys = {} if chart is None else {"chart": [list(pair) for pair in chart]}
        await self._tell("query", timeout, name=name, text=text, **keys)
        self.sources[name] = sources_of(text)

    async def append(
        self,
        stream: str,
        rows: Iterable[Any] | AsyncIterable[Any],
        *,
        skip: Skip | None = None,
        schema: RowSchema | None = None,
        timeout: Seconds | None = None,
    ) -> int:
        """Appends rows of any iterable, also an asynchronous one. Returns how many it took.

        Rows, errors and `skip` are those of `Client.append`. A call that is cancelled may have
        appended rows, and has read some that it did not append.
        """
        call = Appending(stream, self.columns.get(stream), skip, schema)
        async for chunk in _chunks(call, rows):
            await self._advance(call.steps(chunk), timeout)
        return call.taken

    async def heartbeat(self, stream: str, at: int, *, timeout: Seconds | None = None) -> None:
        """Promises that no row at or below the instant `at` will come."""
        await self._tell("heartbeat", timeout, stream=stream, at=at)

    async def drain(self, *, timeout: Seconds | None = None) -> None:
        """Brings every query up to what is closed, except for turns that other threads have."""
        await self._tell("drain", timeout)

    async def drop(self, query: str, *, timeout: Seconds | None = None) -> None:
        """Drops a query. What was not taken is gone."""
        await self._tell("drop", timeout, query=query)
        self.sources.pop(query, None)

    async def forget(self, *, timeout: Seconds | None = None) -> None:
        """Lets go of the rows that no query needs any longer. No later reply changes."""
        await self._tell("forget", timeout)


class AsyncBatch(Batched[AsyncPending], AsyncCalls):
    """Sends calls one after the other. `refusals` has those of its requests, once it has ended."""

    def __init__(self, client: "AsyncClient") -> None:
        """Is what `batch` of a client yields."""
        super().__init__()
        self.columns = client.columns
        self.sources = client.sources
        self._client = client

    async def _tell_line(
        self, request: Request, line: bytes, timeout: Seconds | None, waits: bool
    ) -> None:
        pending = self._client._put(request, line)
        if waits:
            await pending.reply(timeout)
            return
        self.sent.append(pending)
        await self._client._flush()
        self._note()

    async def _collect(self, timeout: Seconds | None) -> None:
        """Reads the replies."""
        try:
            while self.sent:
                await self._client._wait(self.sent[0], timeout)
                self._note()
        except BaseException:
            self._note()
            self._leave()
            raise


class AsyncClient(Waiting[AsyncPending], AsyncCalls):
    """Is a connection to a `cqld`. Its calls are those of `Client`, and raise the same errors.

        async with AsyncClient(7711, timeout=30) as client:
            await client.append("Trades", rows)
            async for row in client.follow("high", deadline=60):
                print(row)

    Requests are sent in the order of the calls, and any number may be on their way. A call that is
    cancelled may be carried out all the same: `settle` returns its reply.
    """

    def __init__(
        self, port: int, host: str = "127.0.0.1", timeout: Seconds | None = None
    ) -> None:
        """Takes where the server is. `timeout` is in seconds, for the connection and each call."""
        super().__init__()
        self.port = port
        self.host = host
        self.timeout = timeout
        self.columns = {}
        self.sources = {}  # of the queries that it registered
        self._writer: asyncio.StreamWriter | None = None
        self._reading: asyncio.Task[None] | None = None

    async def __aenter__(self) -> "AsyncClient":
        await self.connect()
        return self

    async def __aexit__(
        self,
        kind: type[BaseException] | None,
        error: BaseException | None,
        trace: TracebackType | None,
    ) -> None:
        await self.close()

    async def connect(self, timeout: Seconds | None = None) -> None:
        """Connects, unless it is connected. Raises `CannotConnect`."""
        if self._writer is not None:
            return
        seconds = timeout if timeout is not None else self.timeout
        try:
            reader, writer = await asyncio.wait_for(
                asyncio.open_connection(self.host, self.port, limit=_LONGEST),
                None if seconds == math.inf else seconds,
            )
        except (OSError, OverflowError, asyncio.TimeoutError) as error:
            reason = str(error) or "timed out"
            raise CannotConnect(self.host, self.port, reason) from error
        made: socket.socket = writer.get_extra_info("socket")
        made.setsockopt(socket.IPPROTO_TCP, socket.TCP_NODELAY, 1)
        self._writer = writer
        self._lost = None
        self._reading = asyncio.create_task(self._read(reader, made))

    async def close(self) -> None:
        """Ends the connection. What was accepted stays with the server."""
        reading, self._reading = self._reading, None
        if reading is not None:
            reading.cancel()
            await asyncio.wait([reading])
        self._let_go(ConnectionLost("the client was closed", self._requests()))

    # Requests

    def send(self, op: str, **keys: Any) -> AsyncPending:
        """Writes a request and returns at once. `reply` of what it returns waits for the reply.

        Raises `BadRequest` where the request cannot be written, and `Closed`.
        """
        request = {"op": op, **keys}
        return self._put(request, line_of(request))

    def _put(self, request: Request, line: bytes) -> AsyncPending:
        """Writes a request."""
        if self._writer is None:
            raise Closed()
        pending = AsyncPending(self, request)
        self._waiting.append(pending)
        self._writer.write(line)
        return pending

    async def ask(self, op: str, *, timeout: Seconds | None = None, **keys: Any) -> Reply:
        """Sends a request and returns its reply, a dict. Raises as every call."""
        return await self.send(op, **keys).reply(timeout)

    @asynccontextmanager
    async def batch(self, timeout: Seconds | None = None) -> AsyncIterator[AsyncBatch]:
        """Sends the calls of a batch one after the other, and waits for the replies at its end.

            async with client.batch() as batch:
                await batch.append("Trades", rows)
                await batch.drain()

        It has the rules of `Client.batch`, but its calls are those of what it yields. Raises
        `BatchRefused` with all refusals at its end.
        """
        batch = AsyncBatch(self)
        try:
            yield batch
        except ConnectionLost:
            batch._note()
            raise
        except Exception:
            await batch._collect(timeout)
            raise
        except BaseException:
            batch._leave()
            raise
        await batch._collect(timeout)
        if batch.refusals:
            raise BatchRefused(batch.refusals)

    async def settle(self, timeout: Seconds | None = None) -> list[tuple[Request, Reply]]:
        """Waits for the replies of all requests that have none, and returns the late ones.

        See `Client.settle`. Raises `TimedOut` and `ConnectionLost`.
        """
        if self._waiting:
            await self._wait(self._waiting[-1], timeout)
        return self._settled()

    async def reconnect(self, timeout: Seconds | None = None) -> tuple[Request, ...]:
        """Connects anew, and returns the requests whose outcome is unknown.

        See `Client.reconnect`. It tries again until `timeout` seconds are over, and then raises
        `CannotConnect`.
        """
        unknown = self._unknown()
        await self.close()
        retries = Retries(timeout if timeout is not None else self.timeout)
        while True:
            try:
                await self.connect(retries.patience())
                return unknown
            except CannotConnect:
                if (pause := retries.pause()) is None:
                    raise
            await asyncio.sleep(pause)

    # Calls

    async def take(
        self, query: str, limit: int = TAKE, *, timeout: Seconds | None = None
    ) -> list[Row]:
        """Returns the next answers that wait, at most `limit`. They wait no longer."""
        return rows_of(await self.ask("take", timeout=timeout, query=query, limit=limit))

    async def peek(
        self, query: str, limit: int = TAKE, *, timeout: Seconds | None = None
    ) -> list[Row]:
        """Returns what `take` would, but leaves it waiting.

        Programs without this request refuse it as `N2 BadRequest`.
        """
        return rows_of(await self.ask("peek", timeout=timeout, query=query, limit=limit))

    async def answers(
        self, query: str, upto: int | None = None, *, timeout: Seconds | None = None
    ) -> AsyncIterator[Row]:
        """Yields answers, and ends once all of them up to the instant `upto` were taken.

        It has the rules of `Client.answers`.
        """
        async for rows in self.parts(query, upto, timeout=timeout):
            for row in rows:
                yield row

    async def parts(
        self,
        query: str,
        upto: int | None = None,
        *,
        sources: Sequence[str] | None = None,
        timeout: Seconds | None = None,
    ) -> AsyncIterator[list[Row]]:
        """Yields what `answers` does, in lists as they were taken. See `Client.parts`."""
        known = self.sources.get(query, ()) if sources is None else sources
        steps = part_steps(self.send, query, known, False, upto)
        while (rows := await self._advance(steps, timeout)) is not None:
            yield rows

    @overload
    def follow(
        self,
        query: str,
        pause: Seconds = 0.05,
        *,
        deadline: Seconds | None = None,
        beat: None = None,
        limit: int = TAKE,
        timeout: Seconds | None = None,
    ) -> AsyncFollow[Row]:
        ...

    @overload
    def follow(
        self,
        query: str,
        pause: Seconds = 0.05,
        *,
        deadline: Seconds | None = None,
        beat: Seconds,
        limit: int = TAKE,
        timeout: Seconds | None = None,
    ) -> AsyncFollow[Row | Beat]:
        ...

    @overload
    def follow(
        self,
        query: str,
        pause: Seconds = 0.05,
        *,
        deadline: Seconds | None = None,
        beat: Seconds | None = None,
        limit: int = TAKE,
        decoder: Decoder,
        timeout: Seconds | None = None,
    ) -> AsyncFollow[Any]:
        ...

    def follow(
        self,
        query: str,
        pause: Seconds = 0.05,
        *,
        deadline: Seconds | None = None,
        beat: Seconds | None = None,
        limit: int = TAKE,
        decoder: Decoder | None = None,
        timeout: Seconds | None = None,
    ) -> AsyncFollow[Any]:
        """Returns an asynchronous iterator over the answers of a query. See `Follow`.

        It looks for answers every `pause` seconds. It ends `deadline` seconds from the call, or
        never. Where nothing came for `beat` seconds it yields a `Beat`. It asks for at most
        `limit` answers at a time. A `decoder`, as `Answers`, turns rows into answers.
        """
        known = self.sources.get(query, ())
        return AsyncFollow(self, query, known, pause, deadline, beat, limit, decoder, timeout)

    async def plan(self, query: str, *, timeout: Seconds | None = None) -> list[Operator]:
        """Returns each operator's kind and slope, by its number."""
        return operators_of(await self.ask("plan", timeout=timeout, query=query))

    async def status(self, *, timeout: Seconds | None = None) -> Status:
        """Returns how far each stream and each query is.

        Programs without this request refuse it as `N2 BadRequest`.
        """
        return status_of(await self.ask("status", timeout=timeout))

    # Within

    async def _tell_line(
        self, request: Request, line: bytes, timeout: Seconds | None, waits: bool
    ) -> None:
        await self._put(request, line).reply(timeout)

    async def _flush(self) -> None:
        """Waits while much is written and not sent."""
        if self._writer is not None:
            try:
                await self._writer.drain()
            except OSError:
                pass  # whoever waits for a reply gets the error

    async def _answer(self, pending: AsyncPending, timeout: Seconds | None) -> Reply:
        """Waits for the reply of a request."""
        self._want(pending)
        try:
            await self._wait(pending, timeout)
        except BaseException:
            pending.is_late = True
            if pending.answer is not None:
                self._late.append(pending)  # it came, but the caller is gone
            raise
        assert pending.answer is not None
        return pending.answer

    async def _wait(self, pending: AsyncPending, timeout: Seconds | None) -> None:
        """Waits until a request is done. Raises `TimedOut` and `ConnectionLost`."""
        seconds = timeout if timeout is not None else self.timeout
        try:
            async with asyncio.timeout(None if seconds == math.inf else seconds):
                await pending.done.wait()
        except TimeoutError:
            if not pending.done.is_set():
                raise TimedOut(seconds or 0, self._requests()) from None
        if pending.answer is None and pending.lost is not None:
            lost = pending.lost
            raise type(lost)(lost.reason, lost.unknown, lost.unsent)

    async def _read(self, reader: asyncio.StreamReader, made: socket.socket) -> None:
        """Gives each reply to the first request that waits."""
        try:
            while (line := await reader.readline()).endswith(b"\n"):
                # a server may hold the next reply back until this one is acknowledged
                made.setsockopt(socket.IPPROTO_TCP, socket.TCP_QUICKACK, 1)
                self._match(line).done.set()
            self._let_go(ConnectionLost("the server closed the connection", self._requests()))
        except (BadReply, ValueError) as error:
            self._let_go(BadReply(str(getattr(error, "reason", error)), self._requests()))
        except OSError as error:
            self._let_go(ConnectionLost(str(error), self._requests()))

    def _let_go(self, lost: ConnectionLost) -> None:
        """Lets go of the connection, and says so to all requests that wait."""
        writer, self._writer = self._writer, None
        if writer is None:
            return
        self._lost = lost
        writer.close()
        while self._waiting:
            pending = self._waiting.popleft()
            pending.lost = lost
            pending.done.set()


async def _chunks(
    call: Appending, rows: Iterable[Any] | AsyncIterable[Any]
) -> AsyncIterator[list[Any]]:
    """Yields the rows in lists of at most 1,024."""
    if isinstance(rows, Iterable):
        for chunk in call.chunks(rows):
            yield chunk
        return
    chunk = []
    try:
        async for row in rows:
            chunk.append(row)
            if len(chunk) == ROWS:
                yield chunk
                chunk = []
    except Exception as error:
        if chunk:
            yield chunk
        raise call.noted(error)
    if chunk:
        yield chunk
