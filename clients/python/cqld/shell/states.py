"""What the shell knows of its streams and queries."""

from collections import deque
from collections.abc import Mapping
from dataclasses import dataclass, field
from itertools import islice

from ..columns import Clock
from ..language import Declared, Rewritten
from ..wire import Row

KEPT = 100_000
"""The most answers of a query that the shell keeps; older ones are forgotten."""
NEAR = 65_536
"""A stream whose first row is at most at this instant begins at 0."""
DATED = 100_000_000
"""From so many seconds after 1970 on an instant is shown as a time."""


@dataclass(slots=True)
class StreamState:
    """A stream: where it begins, what is closed, and what was sent.

    `headers` has the names that columns have in files. `start` is its first open instant where that
    was said, `closed` the closed instant where it is known. It is open once the engine has it.
    """

    name: str
    declared: Declared
    headers: Mapping[str, str]
    start: int | None = None
    is_open: bool = False
    if_not_exists: bool = False
    closed: int | None = None
    rows: int = 0
    is_dated: bool = False

    def begin(self, start: int) -> None:
        """Notes that the engine has the stream from an instant on."""
        self.is_open = True
        self.closed = start - 1
        self.date(start)

    def date(self, instant: int) -> None:
        """Notes whether instants like this one are shown as times."""
        clock = self.declared.clock
        if clock is not None:
            seconds = clock.time(instant).timestamp()
            self.is_dated = seconds >= DATED

    @property
    def clock(self) -> Clock | None:
        """The clock by which its instants are shown, if they are."""
        return self.declared.clock if self.is_dated else None


@dataclass(slots=True)
class QueryState:
    """A query: what it means, and its answers so far.

    `kept` are the last of its answers as the engine gives them. `count` is how many there were,
    `watched` how many of these `watch` has shown, and `raw` how many the engine gave.
    """

    name: str
    rewritten: Rewritten
    is_registered: bool = False
    if_not_exists: bool = False
    kept: deque[Row] = field(default_factory=lambda: deque(maxlen=KEPT))
    count: int = 0
    raw: int = 0
    watched: int = 0

    def unwatched(self, most: int | None) -> list[Row]:
        """Returns the first answers that `watch` has not shown, at most so many, as shown."""
        count = min(self.count - self.watched, len(self.kept))
        rows = list(islice(self.kept, len(self.kept) - count, None))[:most]
        self.watched = self.count - count + len(rows)
        return rows

    @property
    def is_filtered(self) -> bool:
        """Whether the client keeps only some of the engine's answers."""
        return self.rewritten.having is not None or self.rewritten.every is not None


def start_for(first: int) -> int:
    """Returns where a stream begins whose first row is at an instant."""
    return 0 if first <= NEAR else first
