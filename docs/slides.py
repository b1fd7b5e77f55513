#!/usr/bin/env python3
"""Draws slides.svg: the rows of a stream on a time line, and what two windows that slide hold.

Run it as `python3 docs/slides.py`. It writes the picture beside itself,
from the rows and windows below.
"""
import sys

sys.dont_write_bytecode = True
from drawing import GREEN, GREY, INK, LIGHT_GREEN, ORANGE, PALE, Drawing

# instant, v
ROWS = [(0, 10), (1, 11), (2, 12), (3, 13), (3, 14), (4, 15), (5, 16), (6, 17), (7, 18), (8, 19)]
LAST = 8
STEP = 3
# how many instants back each window holds
LENGTHS = [1, 4]

LEFT, WIDTH, TOP, HEIGHT = 236, 64, 70, 44


def held(length, multiple):
    """The rows that a window holds from a multiple of the step on."""
    return [row for row in ROWS if multiple - length <= row[0] <= multiple]


def main():
    multiples = range(0, LAST + 1, STEP)
    lines = 1 + len(LENGTHS) * len(multiples)
    bottom = TOP + HEIGHT * lines
    drawing = Drawing(LEFT + WIDTH * (LAST + 1) + 20, bottom + 40,
                      f"The rows of a stream S, and what windows hold that slide by {STEP}")

    def x(instant):
        return LEFT + WIDTH * (instant + 0.5)

    def row_of_dots(y, shown):
        for instant in range(LAST + 1):
            there = [row for row in ROWS if row[0] == instant]
            for place, row in enumerate(there):
                at = x(instant) + (place - (len(there) - 1) / 2) * 29
                if row in shown:
                    drawing.dot(at, y, 13, GREEN, GREEN)
                    drawing.text(at, y + 4, str(row[1]), color="white", weight="bold", size=12)
                else:
                    drawing.dot(at, y, 13, "white", PALE)
                    drawing.text(at, y + 4, str(row[1]), color=GREY, size=12)

    for instant in range(LAST + 1):
        weight = "bold" if instant in multiples else "normal"
        drawing.text(x(instant), TOP - 16, str(instant), weight=weight)
    drawing.text(LEFT - 14, TOP - 16, "instant", "end", GREY)
    for multiple in multiples:
        drawing.text(x(multiple), TOP - 36, "moves", "middle", GREY)
    middle = TOP + HEIGHT / 2
    drawing.text(LEFT - 14, middle + 4, "rows of S, by v", "end")
    row_of_dots(middle, ROWS)
    number = 1
    for length in LENGTHS:
        top = TOP + HEIGHT * number
        drawing.line([(20, top), (x(LAST) + WIDTH / 2, top)], PALE, 1)
        drawing.code(20, top + HEIGHT / 2 + 4, f"[Range {length} Slide {STEP}]", "start")
        for multiple in multiples:
            middle = TOP + HEIGHT * (number + 0.5)
            until = min(multiple + STEP - 1, LAST)
            drawing.text(LEFT - 14, middle + 4, f"at {multiple} to {until}", "end", ORANGE)
            first = max(multiple - length, 0)
            width = WIDTH * (multiple - first + 1) - 6
            drawing.box(x(first) - WIDTH / 2 + 3, middle - 17, width, 34,
                        LIGHT_GREEN, LIGHT_GREEN, 0, 8)
            row_of_dots(middle, held(length, multiple))
            under = middle + HEIGHT / 2 - 3
            drawing.line([(x(multiple) - WIDTH / 2 + 3, under), (x(until) + WIDTH / 2 - 3, under)],
                         ORANGE, 3)
            number += 1
    y = bottom + 24
    drawing.dot(LEFT + 14, y - 4, 7, GREEN, GREEN)
    drawing.text(LEFT + 28, y, "held", "start", INK)
    drawing.dot(LEFT + 84, y - 4, 7, "white", PALE)
    drawing.text(LEFT + 98, y, "not held", "start", INK)
    drawing.line([(LEFT + 174, y - 4), (LEFT + 204, y - 4)], ORANGE, 3)
    drawing.text(LEFT + 212, y, "the instants at which these rows are held", "start", INK)
    drawing.write(__file__)


if __name__ == "__main__":
    main()
