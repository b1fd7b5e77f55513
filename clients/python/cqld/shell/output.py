"""Where the shell writes: answers in a mode, and messages beside them."""

import json
import shutil
from collections.abc import Iterable, Sequence
from typing import TextIO

from .statements import Mode
from .tables import Layout, csv_lines, table

HALF = 20
"""How many of the first and of the last answers a table shows where there are more."""


class Output:
    """Writes answers to `out`. Messages go there too, but to `notes` where answers are data."""

    def __init__(
        self, out: TextIO, notes: TextIO, mode: Mode = Mode.TABLE, width: int | None = None
    ) -> None:
        """Takes the width of tables in places; without one it is that of the terminal."""
        self.out = out
        self.notes = notes
        self.mode = mode
        self._width = width

    @property
    def width(self) -> int | None:
        """The greatest width of a table; None where `out` is no terminal and none was given."""
        if self._width is not None:
            return self._width
        return shutil.get_terminal_size().columns if self.out.isatty() else None

    def say(self, text: str) -> None:
        """Writes a message."""
        where = self.out if self.mode is Mode.TABLE else self.notes
        print(text, file=where, flush=True)

    def warn(self, text: str) -> None:
        """Writes an error."""
        self.out.flush()
        print(text, file=self.notes, flush=True)

    def lines(self, lines: Iterable[str]) -> None:
        """Writes lines of data."""
        for line in lines:
            self.out.write(line + "\n")
        self.out.flush()

    def table(
        self, names: Sequence[str], rows: Sequence[Sequence[str]], right: Sequence[bool] = ()
    ) -> None:
        """Writes a table of the shell's own, also in a mode of data."""
        if self.mode is Mode.CSV:
            self.lines(csv_lines(names, rows))
        elif self.mode is Mode.JSON:
            self.lines(json.dumps(dict(zip(names, row)), ensure_ascii=False) for row in rows)
        else:
            for line in table(names, rows, right=right, width=self.width):
                self.say(line)

    def layout(self, names: Sequence[str], right: Sequence[bool]) -> Layout:
        """Returns the layout of a table whose rows come one after the other."""
        return Layout(names, right, self.width)
