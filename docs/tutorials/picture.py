"""Draws the plots of the tutorials as SVG: axes, lines, bars, marks and words."""
from __future__ import annotations

from collections.abc import Callable, Sequence
from html import escape
from pathlib import Path

INK, GREY, PALE = "#222222", "#767676", "#e3e3e3"
GREEN, ORANGE, BLUE, RED = "#0b6e4f", "#b3541e", "#0072b2", "#b00020"

Point = tuple[float, float]


class Plot:
    """A plot of a title, over a range of times and a range of values."""

    width, height = 760, 360
    left, right, top, bottom = 64, 40, 56, 44

    def __init__(self, title: str, times: Point, values: Point) -> None:
        self._times = times
        self._values = values
        self._legend = self.left
        self._parts = [
            f'<svg xmlns="http://www.w3.org/2000/svg" viewBox="0 0 {self.width} {self.height}" '
            f'width="{self.width}" height="{self.height}" font-family="sans-serif" '
            'font-size="12">',
            f"<title>{escape(title)}</title>",
            f'<rect width="{self.width}" height="{self.height}" fill="white"/>',
        ]
        self._words(self.left, 22, title, weight="bold", size=14)

    def axes(self, times: Sequence[float], values: Sequence[float],
             named: Callable[[float], str]) -> None:
        """Draws a grid at values and ticks at times, which are named."""
        low = self._values[0]
        for value in values:
            y = self._y(value)
            self._line([(self.left, y), (self.width - self.right, y)], PALE, 1)
            self._words(self.left - 8, y + 4, f"{value:,.10g}", "end", GREY)
        for time in times:
            x, y = self._x(time), self._y(low)
            self._line([(x, y), (x, y + 4)], GREY, 1)
            self._words(x, y + 18, named(time), "middle", GREY)
        self._line([(self.left, self._y(low)), (self.width - self.right, self._y(low))], GREY, 1)

    def line(self, name: str, points: Sequence[Point], color: str, wide: float = 1.8,
             dashed: bool = False) -> None:
        """Draws a line through points, and names it."""
        self._line([(self._x(time), self._y(value)) for time, value in points], color, wide,
                   dashed)
        self._line([(self._legend, 38), (self._legend + 18, 38)], color, wide, dashed)
        self._name(name, 24)

    def bars(self, name: str, points: Sequence[Point], color: str, wide: float) -> None:
        """Draws bars of a width in time that end at their times, and names them."""
        for time, value in points:
            x, y = self._x(time - wide), self._y(value)
            self._box(x + 1.5, y, self._x(time) - x - 3, self._y(self._values[0]) - y, color)
        self._box(self._legend, 33, 12, 10, color)
        self._name(name, 18)

    def mark(self, time: float, value: float, color: str, up: bool = True) -> None:
        """Draws a triangle at a point."""
        x, y, turn = self._x(time), self._y(value), 1 if up else -1
        corners = f"{x:.1f},{y - 6 * turn:.1f} {x - 5:.1f},{y + 4 * turn:.1f} " \
                  f"{x + 5:.1f},{y + 4 * turn:.1f}"
        self._parts.append(f'<polygon points="{corners}" fill="{color}" stroke="white" '
                           'stroke-width="0.8"/>')

    def note(self, time: float, value: float, words: str, color: str = INK,
             anchor: str = "middle") -> None:
        """Writes words at a point."""
        self._words(self._x(time), self._y(value), words, anchor, color)

    def moment(self, time: float, words: str, color: str = RED) -> None:
        """Draws a dashed line at a time, with words beside it."""
        x = self._x(time)
        self._line([(x, self.top), (x, self._y(self._values[0]))], color, 1.2, True)
        self._words(x + 6, self.top + 10, words, "start", color)

    def write(self, path: Path) -> None:
        """Writes the picture."""
        path.write_text("\n".join([*self._parts, "</svg>"]) + "\n")

    def _x(self, time: float) -> float:
        first, last = self._times
        return self.left + (self.width - self.left - self.right) * (time - first) / (last - first)

    def _y(self, value: float) -> float:
        low, high = self._values
        share = (value - low) / (high - low)
        return self.height - self.bottom - (self.height - self.top - self.bottom) * share

    def _name(self, name: str, after: float) -> None:
        self._words(self._legend + after, 42, name)
        self._legend += int(after + 20 + 6.6 * len(name))

    def _words(self, x: float, y: float, words: str, anchor: str = "start", color: str = INK,
               weight: str = "normal", size: int = 12) -> None:
        self._parts.append(f'<text x="{x:.1f}" y="{y:.1f}" text-anchor="{anchor}" fill="{color}" '
                           f'font-weight="{weight}" font-size="{size}">{escape(words)}</text>')

    def _line(self, points: Sequence[Point], color: str, wide: float,
              dashed: bool = False) -> None:
        places = " ".join(f"{x:.1f},{y:.1f}" for x, y in points)
        dashes = ' stroke-dasharray="5 4"' if dashed else ""
        self._parts.append(f'<polyline points="{places}" fill="none" stroke="{color}" '
                           f'stroke-width="{wide}" stroke-linejoin="round"{dashes}/>')

    def _box(self, x: float, y: float, width: float, height: float, color: str) -> None:
        self._parts.append(f'<rect x="{x:.1f}" y="{y:.1f}" width="{width:.1f}" '
                           f'height="{max(0.0, height):.1f}" rx="2" fill="{color}"/>')
