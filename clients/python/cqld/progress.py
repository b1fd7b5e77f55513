"""Judges looks at the status: how far a query is, and whether anybody works at the rest."""

from __future__ import annotations

import time
from collections.abc import Sequence

from .wire import Status

_SHORTEST, _LONGEST = 0.001, 0.05  # seconds between two looks
_STILL = 0.5  # seconds without any change after which nobody seems to work
_STILLEST = 5.0  # and the most of them, once drains changed nothing


class Progress:
    """Judges one look after the other. It sends nothing itself.

    The workers of a server do the work by themselves, and a drain would do the backlog of all
    queries first. So it wants a drain only where nobody seems to work: always in a `cqlrun`, and
    elsewhere once no query has changed for half a second. After a drain it wants no other one until
    something has changed.
    """

    def __init__(
        self,
        query: str,
        sources: Sequence[str],
        is_alone: bool = False,
        goal: int | None = None,
    ) -> None:
        """Begins without a look.

        `sources` are the streams that the query reads, none where that is unknown. `is_alone` says
        that nobody works but by a drain. `goal` is the instant up to which the answers are wanted,
        by default what the sources have closed at the first look.
        """
        self.query = query
        self.goal = goal
        self.upto: int | None = None  # up to where the answers are complete; None: no such query
        self.taken = 0  # how many answers were taken before the last look
        self.waiting = 0  # how many waited
        self.is_broken = False
        self._sources = sources
        self._is_alone = is_alone
        self._is_behind = True
        self._is_drained = False  # and nothing has changed since
        self._seen: object = None  # of all queries and streams
        self._queries: object = None  # of all queries
        self._now = self._since = time.monotonic()
        self._still = _STILL
        self._nap = _SHORTEST

    def see(self, status: Status) -> None:
        """Notes a look."""
        self._now = time.monotonic()
        queries = [(it.name, it.taken + it.waiting, it.upto) for it in status.queries.values()]
        closed = {it.name: it.closed for it in status.streams.values()}
        was_idle = self._is_drained or not self._is_behind
        if (queries, closed) != self._seen:
            self._is_drained = False
        if queries != self._queries:
            self._since, self._still, self._nap = self._now, _STILL, _SHORTEST
        self._seen, self._queries = (queries, closed), queries
        query = status.queries.get(self.query)
        if query is None:
            self.upto, self.waiting = None, 0
            return
        self.upto, self.taken, self.waiting = query.upto, query.taken, query.waiting
        self.is_broken = query.broken
        known = [closed[it] for it in self._sources if it in closed]
        # without knowledge of its sources any stream may be one
        end = min(known) if known else max(closed.values(), default=-1)
        if self.goal is None:
            self.goal = end
        self._is_behind = query.upto < end
        if was_idle and self._is_behind and not self._is_drained:
            self._since = self._now

    @property
    def is_complete(self) -> bool:
        """Returns whether all answers up to the goal wait or were taken, or no more will come."""
        if self.upto is None or self.goal is None:
            return False
        if self._is_alone and (self._is_drained or not self._is_behind):
            return True
        return self.is_broken or self.upto >= self.goal

    @property
    def wants_drain(self) -> bool:
        """Returns whether to ask for a drain before the next look."""
        if self._is_alone:
            return True
        if not self._is_behind or self._is_drained or self._seen is None:
            return False
        return self._now - self._since >= self._still

    def drained(self, was_done: bool) -> None:
        """Notes a drain, and whether it was done: it is refused where all turns are out."""
        self._since = time.monotonic()
        self._still = min(2 * self._still, _STILLEST)
        self._is_drained = was_done

    def nap(self) -> float:
        """Returns for how many seconds to wait before the next look."""
        nap = self._nap
        self._nap = min(2 * nap, _LONGEST)
        return nap
