"""Steps of a call, which a client carries out.

A call that both clients have is a generator of steps: what it sends, waits for and finds. So its
rules stand once, and the clients differ only by the `await` of `advance_async`.
"""

from __future__ import annotations

from collections.abc import Awaitable, Callable, Generator
from typing import Any, NamedTuple

from .faults import CqldError, Request
from .waiting import Sent
from .wire import Reply, Seconds

NOTHING: Reply = {}  # the outcome of a step without a reply


class Line(NamedTuple):
    """Sends a request whose reply says nothing, by its line.

    In a batch its reply is read at the end, unless it `waits`.
    """

    request: Request
    line: bytes
    waits: bool


class Nap(NamedTuple):
    """Waits for so many seconds."""

    seconds: float


class Found(NamedTuple):
    """Is what the caller is given. The steps go on once more is asked for."""

    item: Any


# a request that was sent is the step that waits for its reply
Steps = Generator[Sent | Line | Nap | Found, Reply, None]


def _resume(steps: Steps[Sent], outcome: Reply | CqldError) -> Sent | Line | Nap | Found:
    """Gives the steps what came of the last one, or raises it in them. Returns the next one."""
    if isinstance(outcome, CqldError):
        return steps.throw(outcome)
    return steps.send(outcome)


def advance(
    steps: Steps[Sent],
    carry_out: Callable[[Sent | Line | Nap, Seconds | None], Reply],
    timeout: Seconds | None,
) -> Any:
    """Carries steps out up to the next thing that they find. Returns it, or None at their end.

    The steps get the errors of the client. `timeout` is for each of them.
    """
    outcome: Reply | CqldError
    try:
        step = next(steps)
        while not isinstance(step, Found):
            try:
                outcome = carry_out(step, timeout)
            except CqldError as error:
                outcome = error
            # outside of the `except`, so that no other error of the steps names this one
            step = _resume(steps, outcome)
    except StopIteration:
        return None
    return step.item


async def advance_async(
    steps: Steps[Sent],
    carry_out: Callable[[Sent | Line | Nap, Seconds | None], Awaitable[Reply]],
    timeout: Seconds | None,
) -> Any:
    """Does what `advance` does, for asyncio."""
    outcome: Reply | CqldError
    try:
        step = next(steps)
        while not isinstance(step, Found):
            try:
                outcome = await carry_out(step, timeout)
            except CqldError as error:
                outcome = error
            step = _resume(steps, outcome)
    except StopIteration:
        return None
    return step.item
