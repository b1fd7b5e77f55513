#!/usr/bin/env python3
"""Draws windows.svg: the rows of a stream on a time line, and which of them five windows hold.

Run it as `python3 docs/windows.py`. It writes the picture beside itself,
from the rows and windows below.
"""
import sys

sys.dont_write_bytecode = True
from drawing import GREEN, GREY, INK, LIGHT_GREEN, ORANGE, PALE, PAPER, Drawing

# instant, k, v, in the order of arrival
ROWS = [(0, 1, 10), (0, 2, 20), (1, 1, 11), (3, 1, 12), (3, 1, 13), (4, 1, 14), (6, 2, 21)]
AT = 4
LAST = 6


def within(rows, length):
    """The rows from the instant AT less the length to AT."""
    return [row for row in rows if AT - length <= row[0] <= AT]


def last(rows, count, key):
    """The last rows up to AT of each key; of two rows of an instant the later arrival is later."""
    so_far = sorted((row for row in rows if row[0] <= AT), key=lambda row: row[0])
    kept = []
    for value in {key(row) for row in so_far}:
        kept += [row for row in so_far if key(row) == value][-count:]
    return kept


WINDOWS = [
    ("[Now]", lambda rows: within(rows, 0)),
    ("[Range 2]", lambda rows: within(rows, 2)),
    ("[Rows 2]", lambda rows: last(rows, 2, lambda row: None)),
    ("[Partition By k Rows 1]", lambda rows: last(rows, 1, lambda row: row[1])),
    ("[Range Unbounded]", lambda rows: within(rows, AT)),
]
SPANS = {"[Now]": (AT, AT), "[Range 2]": (AT - 2, AT), "[Range Unbounded]": (0, AT)}

LEFT, STEP, TOP, HEIGHT = 210, 78, 70, 46


def main():
    drawing = Drawing(LEFT + STEP * (LAST + 1) + 20, TOP + HEIGHT * (len(WINDOWS) + 1) + 40,
                      f"The rows of a stream S, and which of them windows hold at the instant {AT}")

    def x(instant):
        return LEFT + STEP * (instant + 0.5)

    bottom = TOP + HEIGHT * (len(WINDOWS) + 1)
    drawing.box(x(AT) - STEP / 2, TOP - 34, STEP, bottom - TOP + 34, PAPER, PAPER, 0, 0)
    for instant in range(LAST + 1):
        weight = "bold" if instant == AT else "normal"
        drawing.text(x(instant), TOP - 16, str(instant), weight=weight)
    drawing.text(LEFT - 14, TOP - 16, "instant", "end", GREY)
    drawing.text(x(AT), TOP - 40, "held at this instant", "middle", GREY)

    def row_of_dots(y, held):
        for instant in range(LAST + 1):
            there = [row for row in ROWS if row[0] == instant]
            for place, row in enumerate(there):
                at = x(instant) + (place - (len(there) - 1) / 2) * 33
                color = {1: GREEN, 2: ORANGE}[row[1]]
                if row in held:
                    drawing.dot(at, y, 14, color, color)
                    drawing.text(at, y + 4, str(row[2]), color="white", weight="bold", size=12)
                else:
                    drawing.dot(at, y, 14, "white", PALE, dashed=row[0] > AT)
                    drawing.text(at, y + 4, str(row[2]), color=GREY, size=12)

    middle = TOP + HEIGHT / 2
    drawing.text(LEFT - 14, middle + 4, "rows of S, by v", "end")
    drawing.line([(x(0) - STEP / 2, middle), (x(LAST) + STEP / 2, middle)], PALE)
    row_of_dots(middle, ROWS)
    for number, (name, holds) in enumerate(WINDOWS, 1):
        middle = TOP + HEIGHT * (number + 0.5)
        top, right = middle - HEIGHT / 2, x(LAST) + STEP / 2
        drawing.line([(20, top), (right, top)], PALE, 1)
        drawing.code(LEFT - 14, middle + 4, name, "end")
        if name in SPANS:
            first, end = SPANS[name]
            width = STEP * (end - first + 1) - 6
            drawing.box(x(first) - STEP / 2 + 3, middle - 20, width, 40,
                        LIGHT_GREEN, LIGHT_GREEN, 0, 8)
        row_of_dots(middle, holds(ROWS))
    y = bottom + 24
    for place, (words, color) in enumerate([("k is 1", GREEN), ("k is 2", ORANGE)]):
        drawing.dot(LEFT + 14 + place * 90, y - 4, 7, color, color)
        drawing.text(LEFT + 28 + place * 90, y, words, "start")
    drawing.dot(LEFT + 194, y - 4, 7, "white", PALE)
    drawing.text(LEFT + 208, y, "not held", "start", INK)
    drawing.dot(LEFT + 304, y - 4, 7, "white", PALE, dashed=True)
    drawing.text(LEFT + 318, y, "comes later", "start", INK)
    drawing.write(__file__)


if __name__ == "__main__":
    main()
