#!/usr/bin/env python3
"""Draws memory.svg: the rows of a stream on a time line, what two queries need of them, and what
is kept.

Run it as `python3 docs/memory.py`. It writes the picture beside itself,
from the rows, windows and marks below.
"""
import sys

sys.dont_write_bytecode = True
from drawing import GREEN, GREY, INK, LIGHT_GREEN, LIGHT_ORANGE, ORANGE, PALE, Drawing

# a row at each instant
LAST = 11
# what heartbeats have closed
CLOSED = 9
# the words of the window, its mark, and the rows that it shows at the mark
QUERIES = [("[Range 2]", 7, {5, 6, 7}), ("[Rows 2]", 9, {8, 9})]

LEFT, WIDTH, TOP, HEIGHT = 196, 58, 64, 58


def main():
    lines = 2 + len(QUERIES)
    bottom = TOP + HEIGHT * lines
    drawing = Drawing(LEFT + WIDTH * (LAST + 1) + 20, bottom + 42,
                      "The rows of a stream S, what two queries need, and what is kept")

    def x(instant):
        return LEFT + WIDTH * (instant + 0.5)

    def row_of_dots(y, shown, ahead):
        for instant in range(LAST + 1):
            if instant in shown:
                drawing.dot(x(instant), y, 13, GREEN, GREEN)
            elif instant in ahead:
                drawing.dot(x(instant), y, 13, ORANGE, ORANGE)
            else:
                drawing.dot(x(instant), y, 13, "white", PALE)
            needed = instant in shown or instant in ahead
            drawing.text(x(instant), y + 4, str(instant), color="white" if needed else GREY,
                         weight="bold" if needed else "normal", size=12)

    drawing.box(LEFT, TOP - 40, WIDTH * (CLOSED + 1), 22, LIGHT_GREEN, LIGHT_GREEN, 0)
    drawing.text(LEFT + WIDTH * (CLOSED + 1) / 2, TOP - 24, "closed: in the log", color=INK)
    drawing.box(LEFT + WIDTH * (CLOSED + 1), TOP - 40, WIDTH * (LAST - CLOSED), 22, LIGHT_ORANGE,
                LIGHT_ORANGE, 0)
    drawing.text(LEFT + WIDTH * (CLOSED + 1 + (LAST - CLOSED) / 2), TOP - 24, "open")
    middle = TOP + HEIGHT / 2
    drawing.text(LEFT - 14, middle + 4, "rows of S, by instant", "end")
    row_of_dots(middle, set(), set())
    kept = set()
    for number, (window, mark, shown) in enumerate(QUERIES, 1):
        top = TOP + HEIGHT * number
        drawing.line([(20, top), (x(LAST) + WIDTH / 2, top)], PALE, 1)
        drawing.code(20, top + 22, window, "start")
        drawing.text(LEFT - 14, top + 42, f"its root has ticked at {mark}", "end", GREY, size=12)
        ahead = set(range(mark + 1, LAST + 1))
        row_of_dots(top + HEIGHT / 2, shown, ahead)
        at = x(mark) + WIDTH / 2
        drawing.line([(at, top + 5), (at, top + HEIGHT - 5)], INK, 2, dashed=True)
        kept |= shown | ahead
    top = TOP + HEIGHT * (1 + len(QUERIES))
    drawing.line([(20, top), (x(LAST) + WIDTH / 2, top)], INK, 1)
    drawing.text(LEFT - 14, top + HEIGHT / 2 + 4, "what is kept", "end", weight="bold")
    for instant in range(LAST + 1):
        is_kept = instant in kept
        drawing.dot(x(instant), top + HEIGHT / 2, 13, INK if is_kept else "white",
                    INK if is_kept else PALE, dashed=not is_kept)
        drawing.text(x(instant), top + HEIGHT / 2 + 4, str(instant),
                     color="white" if is_kept else PALE, size=12)
    y = bottom + 26
    places = [(GREEN, "its window shows it at the mark", 0), (ORANGE, "above its mark", 250)]
    for color, words, along in places:
        drawing.dot(LEFT + 14 + along, y - 4, 7, color, color)
        drawing.text(LEFT + 28 + along, y, words, "start", INK)
    drawing.line([(LEFT + 392, y - 12), (LEFT + 392, y + 4)], INK, 2, dashed=True)
    drawing.text(LEFT + 402, y, "mark", "start", INK)
    drawing.write(__file__)


if __name__ == "__main__":
    main()
