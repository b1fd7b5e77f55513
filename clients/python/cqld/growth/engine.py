"""A `cqlrun` behind a pipe, asked by requests as data.

    with Engine() as engine:
        engine.tell([Stream("S", ("a",), 0), Query("q", "Select Rstream(*) From S [Now]")])
        rows = list(engine.waiting("q"))
"""

import subprocess
from collections.abc import Iterable, Iterator, Sequence
from contextlib import suppress
from pathlib import Path
from typing import Self

from .. import Pending, Process
from ..faults import CqldError, ProgramFailed, ProgramMissing, Refused
from ..wire import reply_of
from .script import TAKE, Reply, Request, Row, Take, object_of, reply_from

_AHEAD = 512  # requests that are sent before the first of their replies is read


class Engine:
    """Takes requests as data. Close it, or use it in a `with`; one thread at a time may use it.

    Each call raises what those of `Process` do: `ConnectionLost` if the engine has gone.
    """

    def __init__(self, program: str | None = None) -> None:
        """Starts a program, by default the one that is found. Raises `ProgramMissing`."""
        self._process = Process(program)

    def __enter__(self) -> Self:
        return self

    def __exit__(self, *_: object) -> None:
        self.close()

    @property
    def pid(self) -> int:
        """The id of the engine's process."""
        return self._process.pid

    def close(self) -> None:
        """Ends the engine, however it is. What it knew is gone."""
        with suppress(CqldError):
            self._process.close()

    def carry(self, request: Request) -> Reply:
        """Sends a request and returns its reply. Raises `Refused`."""
        return reply_from(self._put(request).reply())

    def tell(self, requests: Iterable[Request]) -> None:
        """Carries out many requests. Raises `Refused` for the first one refused, after all."""
        told = list(requests)
        for request, reply in zip(told, self.replies(told)):
            if reply.fault is not None:
                raise Refused(reply.fault, object_of(request))

    def replies(self, requests: Sequence[Request]) -> list[Reply]:
        """Returns the replies to requests, refusals too."""
        found: list[Reply] = []
        for at in range(0, len(requests), _AHEAD):
            for pending in [self._put(request) for request in requests[at:at + _AHEAD]]:
                try:
                    found.append(reply_from(pending.reply()))
                except Refused as refused:
                    found.append(Reply(refused.fault))
        return found

    def waiting(self, query: str) -> Iterator[Row]:
        """Yields the answers of a query that wait, and takes them."""
        while rows := self.carry(Take(query, TAKE)).rows or ():
            yield from rows

    def _put(self, request: Request) -> Pending:
        keys = object_of(request)
        return self._process.send(str(keys.pop("op")), **keys)


def replies_to(program: str, log: Path) -> Iterator[Reply]:
    """Yields the replies that an engine gives a file of requests.

    Raises `ProgramMissing` if the engine cannot be started, `ProgramFailed` if it does not end
    well.
    """
    try:
        file = log.open("rb")
        process = subprocess.Popen([program], stdin=file, stdout=subprocess.PIPE)
    except OSError as fault:
        raise ProgramMissing(program, fault.strerror or "cannot be started") from fault
    with file, process:
        assert process.stdout is not None
        for line in process.stdout:
            yield reply_from(reply_of(line))
    if process.returncode != 0:
        raise ProgramFailed(program, process.returncode, "")
