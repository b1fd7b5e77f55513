"""What waits at a connection of either client: requests for replies, batches, a new connection."""

from __future__ import annotations

import math
import time
from collections import deque
from typing import Generic, TypeVar

from .faults import BadReply, ConnectionLost, Refused, Request
from .wire import Reply, Seconds, reply_of


class Asked:
    """Is a request that was sent, and its reply once that has come."""

    def __init__(self, request: Request) -> None:
        self.request = request
        self.answer: Reply | None = None
        self.is_late = False  # nobody waits for it any longer: `settle` returns it

    def _refusal(self) -> Refused | None:
        """Returns the refusal, where that is the reply."""
        if self.answer is None or "error" not in self.answer:
            return None
        return Refused(self.answer["error"], self.request)


Sent = TypeVar("Sent", bound=Asked)


class Batched(Generic[Sent]):
    """Keeps the requests of a batch, and those of its replies that are refusals."""

    def __init__(self) -> None:
        self.sent: deque[Sent] = deque()  # whose replies were not looked at yet
        self.refusals: list[Refused] = []

    def _note(self) -> None:
        """Looks at the replies that have come."""
        while self.sent and self.sent[0].answer is not None:
            refused = self.sent.popleft()._refusal()
            if refused is not None:
                self.refusals.append(refused)

    def _leave(self) -> None:
        """Leaves the replies that did not come yet to `settle`."""
        for pending in self.sent:
            pending.is_late = True


class Waiting(Generic[Sent]):
    """Keeps the requests of a connection that have no reply, and the replies that came late."""

    def __init__(self) -> None:
        self._waiting: deque[Sent] = deque()
        self._late: list[Sent] = []
        self._lost: ConnectionLost | None = None

    def _requests(self) -> list[Request]:
        """Returns the requests that have no reply."""
        return [it.request for it in self._waiting]

    def _unknown(self) -> tuple[Request, ...]:
        """Returns the requests whose outcome nobody knows once the connection is over."""
        return self._lost.unknown if self._lost is not None else tuple(self._requests())

    def _match(self, line: bytes) -> Sent:
        """Gives the reply of a line to the first request that waits. Raises `BadReply`."""
        reply = reply_of(line)
        if not self._waiting:
            raise BadReply("a reply came that no request waits for")
        pending = self._waiting.popleft()
        pending.answer = reply
        if pending.is_late:
            self._late.append(pending)
        return pending

    def _want(self, pending: Sent) -> None:
        """Notes that somebody waits for a reply: `settle` is not to return it."""
        if pending.is_late:
            pending.is_late = False
            self._late = [it for it in self._late if it is not pending]

    def _settled(self) -> list[tuple[Request, Reply]]:
        """Returns the late replies, each once."""
        late, self._late = self._late, []
        return [(it.request, it.answer) for it in late if it.answer is not None]


class Retries:
    """Says how long to try to connect again, and how long to pause after a failure."""

    def __init__(self, seconds: Seconds | None) -> None:
        """Begins. It gives up after so many seconds; None makes one try of it."""
        self._is_one = seconds is None
        self._until = math.inf if seconds is None else time.monotonic() + seconds
        self._pause = 0.01

    def patience(self) -> float:
        """Returns for how many seconds the next try may go on."""
        return max(0.001, min(self._until - time.monotonic(), 3_600))

    def pause(self) -> float | None:
        """Returns for how many seconds to wait before the next try, or None to give up."""
        pause = self._pause
        if self._is_one or time.monotonic() + pause > self._until:
            return None
        self._pause = min(2 * pause, 1.0)
        return pause
