"""Shows how far a long copy is: its rows, its rate, and its share of the file."""

import time
from collections.abc import Callable
from typing import TextIO

PAUSE = 0.25
"""The least seconds between two lines."""


class Progress:
    """Writes one line over and over on a terminal, and nothing elsewhere."""

    def __init__(
        self,
        out: TextIO,
        size: int | None,
        *,
        is_shown: bool | None = None,
        now: Callable[[], float] = time.monotonic,
    ) -> None:
        self._out = out
        self._size = size
        self._is_shown = out.isatty() if is_shown is None else is_shown
        self._now = now
        self._begun = now()
        self._next = self._begun + PAUSE
        self._width = 0

    def restart(self) -> None:
        """Begins to count seconds anew, for another reading of the file."""
        self._begun = self._now()

    def tell(self, what: str, rows: int, read: int) -> None:
        """Shows how many rows and bytes are done, at most once in a pause."""
        if not self._is_shown:
            return
        now = self._now()
        if now < self._next:
            return
        self._next = now + PAUSE
        self._write(line_of(what, rows, now - self._begun, read, self._size))

    def end(self) -> None:
        """Clears the line."""
        if self._width:
            self._write("")
            self._out.write("\r")
            self._out.flush()
            self._width = 0

    def _write(self, line: str) -> None:
        self._out.write("\r" + line.ljust(self._width))
        self._out.flush()
        self._width = len(line)


def line_of(what: str, rows: int, seconds: float, read: int, size: int | None) -> str:
    """Returns the line: what is done, rows, rows a second, and the share or the bytes of a file."""
    rate = f"{rows / seconds:,.0f} rows/s" if seconds > 0 else ""
    share = f"{100 * read / size:.0f}% of {bytes_of(size)}" if size else bytes_of(read)
    return f"{what} {rows:,} rows  {rate}  {share}"


def bytes_of(count: int) -> str:
    """Returns a count of bytes, as `12.3 MB`."""
    if count < 1_000:
        return f"{count} B"
    for unit, size in (("kB", 1e3), ("MB", 1e6), ("GB", 1e9)):
        if count < 1_000 * size:
            return f"{count / size:.1f} {unit}"
    return f"{count / 1e12:.1f} TB"
