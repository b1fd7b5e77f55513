"""Draws tables that fit a width, and writes rows as CSV and as JSON lines."""

import csv
import io
import unicodedata
from collections.abc import Iterable, Sequence

GAP = "  "
"""What stands between two columns."""
LEAST = 4
"""The least width to which a column is cut."""


def width_of(text: str) -> int:
    """Returns how many places of a terminal a text takes."""
    if text.isascii():
        return len(text)
    return sum(
        0 if unicodedata.combining(letter) else 2 if _is_wide(letter) else 1 for letter in text
    )


def _is_wide(letter: str) -> bool:
    return unicodedata.east_asian_width(letter) in ("W", "F")


class Layout:
    """The columns of a table: their names, sides and widths.

    Columns that are `right` stand to the right. Where the table is wider than `width`, the widest
    columns are cut, and each cut text ends in `…`.
    """

    def __init__(
        self, names: Sequence[str], right: Sequence[bool] = (), width: int | None = None
    ) -> None:
        self._names = names
        self._right = [*right, *[False] * (len(names) - len(right))]
        self._width = width
        self._widths = [width_of(name) for name in names]

    def fit(self, rows: Sequence[Sequence[str]]) -> None:
        """Makes the columns wide enough for further rows, as far as there is room."""
        needs = [[width_of(_line(text)) for text in row] for row in rows]
        self._widths = [
            max([width, *(need[place] for need in needs)])
            for place, width in enumerate(self._widths)
        ]
        if self._width is not None:
            _shrink(self._widths, self._width - len(GAP) * (len(self._widths) - 1))

    def head(self) -> list[str]:
        """Returns the line of names, and a rule."""
        return [self.row(self._names), GAP.join("─" * each for each in self._widths)]

    def row(self, row: Sequence[str]) -> str:
        """Returns the line of a row."""
        parts = zip(row, self._widths, self._right)
        return GAP.join(_cell(_line(text), width, side) for text, width, side in parts).rstrip()


def table(
    names: Sequence[str],
    rows: Sequence[Sequence[str]],
    *,
    right: Sequence[bool] = (),
    width: int | None = None,
) -> list[str]:
    """Returns the lines of a table: names, a rule, and the rows, in a `Layout`."""
    layout = Layout(names, right, width)
    layout.fit(rows)
    return [*layout.head(), *(layout.row(row) for row in rows)]


def _shrink(widths: list[int], room: int) -> None:
    """Takes from the widest columns until they fit the room, or all are as narrow as may be."""
    while sum(widths) > room:
        most = max(widths)
        if most <= LEAST:
            return
        second = max([each for each in widths if each < most], default=LEAST)
        count = widths.count(most)
        excess = sum(widths) - room
        down = max(1, min(most - max(second, LEAST), -(-excess // count)))
        for place, each in enumerate(widths):
            if each == most and sum(widths) > room:
                widths[place] = max(LEAST, each - down)


def _cell(text: str, width: int, right: bool) -> str:
    shown = _cut(text, width)
    space = " " * (width - width_of(shown))
    return space + shown if right else shown + space


def _cut(text: str, width: int) -> str:
    if width_of(text) <= width:
        return text
    kept = ""
    for letter in text:
        if width_of(kept + letter) > width - 1:
            break
        kept += letter
    return kept + "…"


def _line(text: str) -> str:
    """Returns the text in one line, without characters that move a terminal's cursor."""
    if text.isprintable():
        return text
    return "".join(letter if letter.isprintable() else _escaped(letter) for letter in text)


def _escaped(letter: str) -> str:
    return letter.encode("unicode_escape").decode()


def csv_lines(names: Sequence[str] | None, rows: Iterable[Sequence[str]]) -> Iterable[str]:
    """Yields the lines of a CSV file; the first has the names, unless they are None."""
    for row in [] if names is None else [names]:
        yield _csv(row)
    for row in rows:
        yield _csv(row)


def _csv(row: Sequence[str]) -> str:
    out = io.StringIO()
    csv.writer(out, lineterminator="").writerow(row)
    return out.getvalue()
