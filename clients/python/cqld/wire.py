"""Lines of JSON to and from an engine: limits, requests, replies, and what carries them."""

from __future__ import annotations

import json
import os
import select
import time
from collections.abc import Callable, Iterator, Mapping
from typing import Any, NamedTuple

from .faults import BadReply, BadRequest, Request

ROWS = 1_024  # the most rows of an append
TAKE = 4_096  # the most answers of a take
LINE = 65_536  # the most bytes of a line, without its line feed
LEAP = 65_536  # the most instants that one heartbeat closes
LAST = 2**40  # the last instant
VALUE = 2**40 - 1  # the greatest value in a stream; its negative is the least

Value = int | None
Row = list[Value]
Reply = dict[str, Any]
Seconds = int | float

_CHUNK = 262_144  # bytes of a read


class Operator(NamedTuple):
    """Describes an operator of a plan: its kind, and its slope as a fraction in text."""

    kind: str
    slope: str


class QueryStatus(NamedTuple):
    """Describes a query: instants `base` and `upto`, and answers `taken` and `waiting`.

    Its answers begin after `base`. Up to `upto` all of them were taken or wait. One that is
    `broken` ran out of memory, and no more answers come.
    """

    name: str
    base: int
    upto: int
    taken: int
    waiting: int
    broken: bool = False


class StreamStatus(NamedTuple):
    """Describes a stream: its columns, its last closed instant, and how many rows it was given.

    What was forgotten counts in `rows`.
    """

    name: str
    columns: tuple[str, ...]
    closed: int
    rows: int


class Status(NamedTuple):
    """Describes an engine: its streams and its queries by their names."""

    streams: Mapping[str, StreamStatus]
    queries: Mapping[str, QueryStatus]


def line_of(request: Request) -> bytes:
    """Returns a request as a line with its line feed.

    Raises `BadRequest` where a part of it is no JSON, or where the line would be too long.
    """
    try:
        line = json.dumps(request, separators=(",", ":"), allow_nan=False).encode()
    except (TypeError, ValueError, RecursionError) as error:
        raise BadRequest(request, str(error)) from error
    if len(line) > LINE:
        raise BadRequest(request, f"N3 LineTooLong: {len(line)} bytes, at most {LINE}")
    return line + b"\n"


def reply_of(line: bytes) -> Reply:
    """Returns the reply of a line, `{"ok":true,..}` or `{"error":".."}`. Raises `BadReply`."""
    try:
        reply = json.loads(line)
    except (ValueError, RecursionError):
        reply = None
    if isinstance(reply, dict):
        if reply.get("ok") is True or isinstance(reply.get("error"), str):
            return reply
    raise BadReply(f"this is no reply of an engine: {line[:80]!r}")


def operators_of(reply: Reply) -> list[Operator]:
    """Returns the operators of the reply to a `plan`. Raises `BadReply` where it has none."""
    try:
        return [Operator(str(kind), str(slope)) for kind, slope in reply["operators"]]
    except (LookupError, TypeError, ValueError) as error:
        raise BadReply("the reply to a plan has no operators") from error


def rows_of(reply: Reply) -> list[Row]:
    """Returns the rows of the reply to a `take` or a `peek`. Raises `BadReply` without them."""
    rows = reply.get("rows")
    if not isinstance(rows, list):
        raise BadReply("the reply to a take has no rows")
    return rows


def status_of(reply: Reply) -> Status:
    """Returns the status of the reply to a `status`. Raises `BadReply` where it has none."""
    try:
        streams = [
            StreamStatus(str(it["name"]), tuple(it["columns"]), int(it["closed"]), int(it["rows"]))
            for it in reply["streams"]
        ]
        queries = [
            QueryStatus(
                str(it["name"]), int(it["base"]), int(it["upto"]), int(it["taken"]),
                int(it["waiting"]), it.get("broken") is True,
            )
            for it in reply["queries"]
        ]
    except (AttributeError, LookupError, TypeError, ValueError) as error:
        raise BadReply("the reply to a status is not as described") from error
    return Status({it.name: it for it in streams}, {it.name: it for it in queries})


def heartbeats(closed: int, at: int) -> Iterator[int]:
    """Yields the instants of the heartbeats that close all after `closed` up to `at`.

    Each closes at most 65,536 instants, so that the engine refuses none (`E12 Leap`).
    """
    while closed < at:
        closed = min(closed + LEAP, at)
        yield closed


class Link:
    """Carries bytes both ways over file descriptors, a socket's or the two of pipes.

    It never waits past a deadline, and reads while it writes. So neither side can block the other
    for good, however many requests are on their way.
    """

    def __init__(
        self, reader: int, writer: int, on_read: Callable[[], None] | None = None
    ) -> None:
        """Takes descriptors over, as non-blocking ones. Whoever opened them closes them.

        `on_read` is called after each read.
        """
        os.set_blocking(reader, False)
        os.set_blocking(writer, False)
        self._reader = reader
        self._writer = writer
        self._on_read = on_read
        self._out = bytearray()
        self._in = bytearray()
        self._scanned = 0
        self._deaf = False  # the other side reads no longer
        self._ended = False  # the other side writes no longer
        self.written = 0  # bytes handed to the system since the start

    @property
    def queued(self) -> int:
        """Returns how many bytes were put since the start, written or not."""
        return self.written + len(self._out)

    @property
    def has_line(self) -> bool:
        """Returns whether `line` would not wait."""
        return self._in.find(b"\n", self._scanned) >= 0

    def gather(self) -> None:
        """Reads what has come, without a wait."""
        if not self._ended:
            self._read()

    def put(self, data: bytes) -> None:
        """Queues bytes, and writes as many as go without a wait."""
        self._out += data
        self._write()

    def flush(self, most: int, deadline: float | None) -> None:
        """Waits until at most `most` bytes are queued. `deadline` is a monotonic time or None.

        Raises `TimeoutError`, or `ConnectionError` where the other side reads no longer.
        """
        while len(self._out) > most:
            if self._deaf:
                raise ConnectionError("the other side reads no longer")
            self._turn(deadline)

    def line(self, deadline: float | None) -> bytes:
        """Waits for the next line, and returns it with its line feed.

        Raises `TimeoutError` past the deadline, and `ConnectionError` where no more come.
        """
        while True:
            end = self._in.find(b"\n", self._scanned)
            if end >= 0:
                line = bytes(self._in[: end + 1])
                del self._in[: end + 1]
                self._scanned = 0
                return line
            self._scanned = len(self._in)
            if self._ended:
                raise ConnectionError("the other side closed the connection")
            self._turn(deadline)

    def _turn(self, deadline: float | None) -> None:
        """Waits until bytes go or come, and moves them."""
        poll = select.poll()
        if not self._ended:
            poll.register(self._reader, select.POLLIN)
        if self._out and not self._deaf:
            # one descriptor may be both
            ways = select.POLLOUT
            if self._writer == self._reader and not self._ended:
                ways |= select.POLLIN
            poll.register(self._writer, ways)
        wait: float | None = None
        if deadline is not None:
            wait = max(0.0, deadline - time.monotonic()) * 1_000
        found = poll.poll(wait)
        if not found:
            raise TimeoutError
        for descriptor, events in found:
            if descriptor == self._reader and events & ~select.POLLOUT:
                self._read()
            if descriptor == self._writer and events & ~select.POLLIN:
                self._write()

    def _read(self) -> None:
        try:
            data = os.read(self._reader, _CHUNK)
        except BlockingIOError:
            return
        except OSError:
            data = b""
        if data:
            self._in += data
            if self._on_read is not None:
                self._on_read()
        else:
            self._ended = True

    def _write(self) -> None:
        while self._out and not self._deaf:
            try:
                count = os.write(self._writer, self._out[:_CHUNK])
            except BlockingIOError:
                return
            except OSError:
                self._deaf = True
                return
            self.written += count
            del self._out[:count]
