#!/usr/bin/env python3
"""Draws performance.svg: the engine's share of the speed of a program written by hand.

Run it as `python3 docs/performance.py`. It writes the picture beside itself, from the first table
of docs/performance.md.
"""
import re
import sys
from pathlib import Path

sys.dont_write_bytecode = True
from drawing import GREEN, GREY, INK, PALE, RED, Drawing

SPANS = ["10", "100", "1,000", "10,000"]
SHADES = ["#9fd3bf", "#62b495", "#2f8f6f", GREEN]
LEFT, TOP, HEIGHT, BAR, GAP = 70, 56, 220, 26, 34


def numbers(cell):
    """The numbers of a cell."""
    return [float(it.replace(",", "")) for it in re.findall(r"[\d,]*\d(?:\.\d+)?", cell)]


def rates():
    """Each query of the page's first two tables: its name, its rates, those by hand, its goal."""
    page = (Path(__file__).parent / "performance.md").read_text()
    page = page[page.index("## The engine"):]
    pairs = re.findall(r"^\| (\w+) \| engine \|(.*)\|\n\| \1 \| by hand \|(.*)\|$", page, re.M)
    for name, ours, by_hand in pairs:
        goal = re.search(rf"^\| {name} \| [^|]* \| [^|]* \| ([\d.]+) \|", page, re.M)
        yield name, numbers(ours.replace("|", " ")), numbers(by_hand.replace("|", " ")), goal


def main():
    found = list(rates())
    width = LEFT + sum(BAR * len(ours) + GAP for _, ours, _, _ in found) + 150
    drawing = Drawing(width, TOP + HEIGHT + 62,
                      "The engine's share of the speed of a program written by hand")

    def y(share):
        return TOP + HEIGHT * (1 - share / 0.9)

    right = width - 140
    for tenths in range(0, 10, 2):
        drawing.line([(LEFT, y(tenths / 10)), (right, y(tenths / 10))], PALE, 1)
        drawing.text(LEFT - 10, y(tenths / 10) + 4, f"0.{tenths}", "end")
    drawing.text(20, TOP - 28, "share of the rate of the program by hand", "start")
    x = LEFT + GAP / 2
    for name, ours, by_hand, goal in found:
        if goal:
            at = y(float(goal[1]))
            ends = [(x - 6, at), (x + BAR * len(ours) + 3, at)]
            drawing.line(ends, RED, 2, dashed=True)
        for place, (rate, other) in enumerate(zip(ours, by_hand)):
            share = rate / other
            shade = SHADES[place] if len(ours) > 1 else GREY
            drawing.box(x + place * BAR, y(share), BAR - 3, y(0) - y(share), shade, shade, 0, 1)
            drawing.box(x + place * BAR + 1, y(share) - 15, BAR - 5, 13, "white", "white", 0, 0)
            drawing.text(x + place * BAR + BAR / 2 - 1.5, y(share) - 5, f"{share:.2f}"[1:], size=11)
        middle = x + BAR * len(ours) / 2
        drawing.text(middle, y(0) + 20, name, weight="bold")
        shown = " to ".join(f"{it:,.0f}" for it in sorted({min(ours), max(ours)}))
        drawing.text(middle, y(0) + 38, shown, color=GREY, size=12)
        x += BAR * len(ours) + GAP
    drawing.text(right + 10, y(0) + 38, "thousand rows/s", "start", GREY, size=12)
    drawing.text(right + 10, TOP + 40, "red: the goal", "start", RED, "bold")
    drawing.text(right + 10, TOP + 70, "window, in instants", "start", INK, size=12)
    for place, span in enumerate(SPANS):
        drawing.box(right + 10, TOP + 80 + 20 * place, 14, 14, SHADES[place], SHADES[place], 0, 1)
        drawing.text(right + 32, TOP + 92 + 20 * place, span, "start", size=12)
    drawing.box(right + 10, TOP + 160, 14, 14, GREY, GREY, 0, 1)
    drawing.text(right + 32, TOP + 172, "no window", "start", size=12)
    drawing.write(__file__)


if __name__ == "__main__":
    main()
