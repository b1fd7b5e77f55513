"""Follows a query: its answers as they come, and a beat while none comes."""

from __future__ import annotations

import time
from collections import deque
from collections.abc import Callable, Generator, Iterator, Sequence
from types import TracebackType
from typing import TYPE_CHECKING, Any, Generic, NamedTuple, Protocol, TypeVar

from .faults import CqldError, OtherConsumer, Refused
from .progress import Progress
from .steps import Found, Nap, Steps
from .waiting import Sent
from .wire import Reply, Row, Seconds, rows_of, status_of

if TYPE_CHECKING:
    from .connection import Connection, Pending

Item = TypeVar("Item", covariant=True)


class Decoder(Protocol):
    """Turns rows into answers, as `Answers` does."""

    def prepare(self, rows: Sequence[Row]) -> None:
        """Prepares to decode rows."""

    def decode(self, row: Row) -> Any:
        """Returns the answer of a row, or None where it is left out."""


class Beat(NamedTuple):
    """Says that no answer came for a while.

    All answers up to and including the instant `upto` were handed out. It is None where the
    program has no `status`, since it cannot be known then.
    """

    upto: int | None


class Following(Generic[Sent]):
    """Keeps what a follower has in hand, and has the steps of its calls."""

    def __init__(
        self,
        send: Callable[..., Sent],
        query: str,
        sources: Sequence[str],
        is_alone: bool,
        pause: Seconds,
        deadline: Seconds | None,
        beat: Seconds | None,
        limit: int,
        decoder: Decoder | None,
    ) -> None:
        self.query = query
        self.progress = Progress(query, sources, is_alone)
        self.peeks: bool | None = None  # whether the program has `peek`, once that is known
        self.number: int | None = None  # of the answer that was handed out last, from 0 on
        self.first = 0  # the number of the first that is given
        self.ready: deque[Row] = deque()  # to be handed out
        self.given: list[Row] = []  # handed out, and not taken yet
        self.pause = pause
        self.beat = beat
        self.limit = limit
        self.decoder = decoder
        self.quiet = time.monotonic()  # since when nothing came
        self.until = None if deadline is None else self.quiet + deadline
        self._send = send
        self._taking: tuple[Sent, int] | None = None
        self._looking: tuple[Sent | None, Sent | None, Sent] | None = None

    @property
    def unseen(self) -> list[Row]:
        """Returns the answers in hand that were not handed out yet."""
        return list(self.ready)

    def next_item(self) -> Any:
        """Returns the next answer in hand, decoded, and keeps it as handed out.

        It is None for an answer that is left out.
        """
        row = self.ready[0]
        item = row if self.decoder is None else self.decoder.decode(row)
        self.ready.popleft()
        if self.peeks:
            self.number = self.first + len(self.given)
            self.given.append(row)
        self.quiet = time.monotonic()
        return item

    def is_over(self) -> bool:
        """Returns whether the deadline is over."""
        return self.until is not None and time.monotonic() >= self.until

    def is_silent(self) -> bool:
        """Returns whether it is time for a beat, and then begins to wait for the next one."""
        if self.beat is None or time.monotonic() < self.quiet + self.beat:
            return False
        self.quiet = time.monotonic()
        return True

    def nap(self) -> float:
        """Returns for how many seconds to wait before the next look."""
        now = time.monotonic()
        naps = [float(self.pause)]
        if self.until is not None:
            naps.append(self.until - now)
        if self.beat is not None:
            naps.append(self.quiet + self.beat - now)
        return max(0.0, min(naps))

    @property
    def op(self) -> str:
        """Returns the request that looks for answers."""
        return "take" if self.peeks is False else "peek"

    @property
    def asks_status(self) -> bool:
        """Returns whether a look asks for the status."""
        return self.peeks is not False

    @property
    def asks_drain(self) -> bool:
        """Returns whether a look asks for a drain: only where it helps, or without a status."""
        return self.peeks is False or self.progress.wants_drain

    def found(self, rows: Sequence[Row], status: Reply | None) -> None:
        """Notes answers that were found, and the status of before."""
        self.peeks = self.op == "peek"
        if status is not None:
            self.progress.see(status_of(status))
            self.first = self.progress.taken
        self.ready.extend(rows)
        if rows and self.decoder is not None:
            self.decoder.prepare(rows)

    def note_refusal(self, refused: Refused) -> None:
        """Notes that the program has no `peek`. Raises any other refusal of a look."""
        if self.peeks is not None or refused.code != "N2":
            raise refused
        self.peeks = False

    def end_look(self, refused: Refused | None) -> None:
        """Raises the refusal of a drain, unless all turns are out: others do that work."""
        if refused is not None and refused.code != "E18":
            raise refused

    def taken(self, reply: Reply, count: int) -> None:
        """Notes that the first `count` answers that were handed out are taken.

        Raises `OtherConsumer` where the reply has others.
        """
        rows = rows_of(reply)
        given, self.given = self.given[:count], self.given[count:]
        self.first += count
        if rows == given:
            return
        # somebody took the first answers before, so as many came that were not handed out
        self.given.clear()
        self.ready.clear()
        ahead = 0
        while rows[: max(0, count - ahead)] != given[ahead:]:
            ahead += 1
        raise OtherConsumer(self.query, rows[max(0, count - ahead) :])

    def _in_hand(self) -> Any:
        """Returns the next answer in hand that is not left out, or None where there is none."""
        while self.ready:
            item = self.next_item()
            if item is not None:
                return item
        return None

    def _next_steps(self) -> Steps[Sent]:
        """Yields the steps that find the next answer, or a beat. At the deadline there is none."""
        while (item := self._in_hand()) is None:
            yield from self._confirm_steps()
            yield from self._look_steps()
            if self.ready:
                continue
            if self.is_over():
                return
            if self.is_silent():
                yield Found(Beat(self.progress.upto))
                return
            yield Nap(self.nap())
        yield Found(item)

    def _confirm_steps(self) -> Generator[Sent, Reply, None]:
        """Takes every answer that was handed out."""
        yield from self._take_steps(len(self.given))

    def _exit_steps(self, is_handled: bool) -> Generator[Sent, Reply, None]:
        """Takes what was handled, at the end of a `with`: all, or all except the last answer."""
        if is_handled:
            yield from self._confirm_steps()
            return
        try:
            yield from self._take_steps(len(self.given) - 1)
        except CqldError:
            pass  # the error of the body goes on, and these answers come again

    def _take_steps(self, count: int) -> Generator[Sent, Reply, None]:
        """Takes the first answers that were handed out. A take that timed out goes on."""
        if self._taking is None:
            if count < 1:
                return
            self._taking = self._send("take", query=self.query, limit=count), count
        pending, count = self._taking
        reply = yield pending
        self._taking = None
        self.taken(reply, count)

    def _look_steps(self) -> Generator[Sent, Reply, None]:
        """Asks for answers, and for how far they are complete. A look that timed out goes on."""
        look = self._looking
        if look is None:
            drain = self._send("drain") if self.asks_drain else None
            status = self._send("status") if self.asks_status else None
            rows = self._send(self.op, query=self.query, limit=self.limit)
            look = self._looking = drain, status, rows
        drain, status, rows = look
        try:
            found = rows_of((yield rows))
        except Refused as refused:
            self._looking = None
            self.note_refusal(refused)
            yield from self._look_steps()
            return
        self._looking = None
        refusal: Refused | None = None
        if drain is not None:
            try:
                yield drain
            except Refused as refused:
                refusal = refused
            self.progress.drained(refusal is None)
        self.found(found, None if status is None else (yield status))
        self.end_look(refusal)


class Follow(Following["Pending"], Iterator[Item], Generic[Item]):
    """Is an iterator over the answers of a query, as they come.

        for row in client.follow("high", deadline=60):
            print(row)

        with client.follow("high", beat=5) as answers:
            for row in answers:
                if isinstance(row, Beat):
                    print("nothing new; complete up to", row.upto)
                else:
                    print(row)

    An answer is taken only after the consumer has asked for more: once the last answer in hand was
    handed out and the next is asked for, at the end of a `with`, or by `confirm`. So a consumer
    that dies loses nothing, and the next one sees the last answers again. A `with` that ends by an
    error leaves the answer that was last handed out waiting.

    `number` counts the answers of a query from 0 on, as they are handed out. Whoever keeps it
    beside the effect of an answer, in one transaction, can pass over what comes again:

        with client.follow("high") as answers:
            for row in answers:
                if answers.number > kept:
                    ...

    It asks for the status and for what waits, and leaves the work to a server's workers: see
    `Progress`. Programs without `peek` and `status` are asked by `drain` and `take`. Then answers
    are taken before they are handed out, `unseen` has those that were not, and there is no number.

    One consumer at a time may follow a query: another one shows as `OtherConsumer`.
    """

    def __init__(
        self,
        connection: "Connection",
        query: str,
        sources: Sequence[str],
        pause: Seconds,
        deadline: Seconds | None,
        beat: Seconds | None,
        limit: int,
        decoder: Decoder | None,
        timeout: Seconds | None,
    ) -> None:
        """Is what `follow` of a client returns. `sources` are the streams that the query reads."""
        is_alone = connection.is_alone
        send = connection.send
        super().__init__(send, query, sources, is_alone, pause, deadline, beat, limit, decoder)
        self._connection = connection
        self._timeout = timeout

    def __iter__(self) -> "Follow[Item]":
        return self

    def __next__(self) -> Item:
        """Returns the next answer, or a `Beat`. Ends at the deadline. Raises as every call."""
        item: Item | None = self._in_hand()
        if item is None:
            item = self._connection._advance(self._next_steps(), self._timeout)
        if item is None:
            raise StopIteration
        return item

    def __enter__(self) -> "Follow[Item]":
        return self

    def __exit__(
        self,
        kind: type[BaseException] | None,
        error: BaseException | None,
        trace: TracebackType | None,
    ) -> None:
        self._connection._advance(self._exit_steps(error is None), self._timeout)

    def confirm(self) -> None:
        """Takes every answer that was handed out. Raises `OtherConsumer`, and as every call."""
        self._connection._advance(self._confirm_steps(), self._timeout)
