"""The answers of one query that the page has seen, by their place in the query's answers."""
from __future__ import annotations

from collections import deque
from dataclasses import dataclass
from typing import Sequence

Values = tuple[int | None, ...]


@dataclass(frozen=True)
class Answer:
    """One answer. `place` counts the query's answers from 0."""

    place: int
    instant: int
    values: Values


class History:
    """Keeps the newest answers that were seen, at most `keep` of them."""

    def __init__(self, keep: int) -> None:
        self._answers: deque[Answer] = deque(maxlen=keep)
        self.next = 0  # the place after the last answer that was seen
        self.missed = 0  # answers that someone else took before they were seen
        self.life = 0  # grows whenever all is thrown away

    def clear(self) -> None:
        """Throws all away: the query begins again."""
        self._answers.clear()
        self.next = self.missed = 0
        self.life += 1

    def see(self, place: int, rows: Sequence[Sequence[int | None]]) -> int:
        """Adds rows that begin at a place. Returns how many of them are new."""
        if place > self.next:
            self.missed += place - self.next if self._answers or self.missed else 0
            self.next = place
        fresh = rows[self.next - place:]
        if fresh and self._answers and _instant(fresh[0]) < self._answers[-1].instant:
            self.clear()
            self.next, fresh = place, rows
        for row in fresh:
            self._answers.append(Answer(self.next, _instant(row), tuple(row[1:])))
            self.next += 1
        return len(fresh)

    def since(self, place: int) -> list[Answer]:
        """Returns the answers from a place on that are still kept."""
        if place >= self.next:
            return []
        return [answer for answer in self._answers if answer.place >= place]

    def __len__(self) -> int:
        return len(self._answers)


def _instant(row: Sequence[int | None]) -> int:
    return row[0] or 0
