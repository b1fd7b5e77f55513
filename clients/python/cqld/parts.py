"""Takes the answers of a query until they are complete."""

from __future__ import annotations

from collections.abc import Callable, Generator, Sequence

from .faults import Refused
from .progress import Progress
from .steps import Found, Nap, Steps
from .waiting import Sent
from .wire import TAKE, Reply, Row, rows_of, status_of


def part_steps(
    send: Callable[..., Sent],
    query: str,
    sources: Sequence[str],
    is_alone: bool,
    goal: int | None,
) -> Steps[Sent]:
    """Yields the steps that find the answers up to the instant `goal`, in lists as they were taken.

    `send` is that of a client. Without the sources and a goal, and over programs without `status`,
    it ends where a drain and a take find none.
    """

    def take(limit: int = TAKE) -> Generator[Sent, Reply, list[Row]]:
        return rows_of((yield send("take", query=query, limit=limit)))

    has_status = goal is not None or bool(sources)
    progress = Progress(query, sources, is_alone, goal)
    while has_status:
        try:
            progress.see(status_of((yield send("status"))))
        except Refused as refused:
            if refused.code != "N2":
                raise
            has_status = False
            break
        if progress.is_complete:
            break
        if progress.upto is None:
            yield Found((yield from take()))  # raises, as there is no such query
        elif progress.wants_drain:
            progress.drained((yield from _drain(send)))
        elif progress.waiting > 0:
            yield Found((yield from take()))
        else:
            yield Nap(progress.nap())
    left = progress.waiting
    while left > 0 and (rows := (yield from take(min(left, TAKE)))):
        left -= len(rows)
        yield Found(rows)
    if progress.is_broken:
        yield from take()  # raises
    while not has_status:
        yield send("drain")
        if not (rows := (yield from take())):
            return
        yield Found(rows)


def _drain(send: Callable[..., Sent]) -> Generator[Sent, Reply, bool]:
    """Asks for a drain. Returns whether it was done: other threads may have all turns out."""
    try:
        yield send("drain")
    except Refused as refused:
        if refused.code != "E18":
            raise
        return False
    return True
