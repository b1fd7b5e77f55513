#!/usr/bin/env python3
"""Draws operators.svg: one turn of an operator, from its queue to the next.

Run it as `python3 docs/operators.py`. It writes the picture beside itself.
"""
import sys

sys.dont_write_bytecode = True
from drawing import GREEN, GREY, INK, LIGHT_GREEN, LIGHT_ORANGE, ORANGE, PALE, PAPER, Drawing


def queue(drawing, x, y, items, words):
    """A queue from left to right, whose first item is at its right end."""
    for place, (name, fill) in enumerate(items):
        drawing.box(x + 58 * place, y, 54, 34, fill, INK, 1, 3)
        drawing.text(x + 58 * place + 27, y + 21, name, size=12)
    drawing.text(x + 29 * len(items) - 2, y - 10, words, color=GREY)


def main():
    drawing = Drawing(900, 330, "One turn of an operator: an item and an excerpt go out, "
                      "outputs and a change come back")
    drawing.box(230, 34, 190, 240, PAPER, PALE, 1, 8)
    drawing.text(325, 294, "the engine: one caller at a time", color=GREY)
    drawing.box(480, 34, 150, 240, LIGHT_GREEN, GREEN, 1, 8, dashed=True)
    drawing.text(555, 294, "any thread", color=GREEN)

    waiting = [("tick 5", "white"), ("+c  -a", "white"), ("+a  +b", LIGHT_ORANGE)]
    queue(drawing, 24, 70, waiting, "its queue")
    meaning = ["a batch of signed rows: plus", "enters, minus leaves; the tick",
               "ends the rows of an instant"]
    for place, words in enumerate(meaning):
        drawing.text(24, 130 + 17 * place, words, "start", GREY, size=12)

    drawing.line([(196, 87), (253, 87)], head=True)
    drawing.box(255, 64, 140, 46, LIGHT_ORANGE, ORANGE)
    drawing.text(325, 84, "item", weight="bold")
    drawing.text(325, 101, "a copy of what is first", color=GREY, size=12)
    drawing.box(255, 128, 140, 46, LIGHT_ORANGE, ORANGE)
    drawing.text(325, 148, "excerpt", weight="bold")
    drawing.text(325, 165, "what the item needs", color=GREY, size=12)
    drawing.line([(325, 204), (325, 176)], head=True)
    drawing.code(333, 194, "near", "start")
    drawing.box(255, 206, 140, 52, "white", INK, 2)
    drawing.text(325, 228, "state", weight="bold")
    drawing.text(325, 246, "rows held, groups, ..", color=GREY, size=12)

    drawing.line([(395, 87), (440, 87), (440, 119), (496, 119)], head=True)
    drawing.line([(395, 151), (440, 151), (440, 119)])
    drawing.box(498, 92, 114, 54, "white", GREEN, 2)
    drawing.code(555, 116, "Turn::run", size=13)
    drawing.text(555, 135, "sees no state", color=GREY, size=12)

    fed = [("+b", LIGHT_GREEN), ("tick 4", "white")]
    queue(drawing, 720, 102, fed, "the next operator's queue")
    drawing.line([(612, 119), (718, 119)], GREEN, 2, head=True)
    drawing.text(676, 110, "outputs", color=GREEN, weight="bold")
    drawing.line([(555, 146), (555, 232), (397, 232)], ORANGE, 2, head=True)
    drawing.text(449, 224, "change", color=ORANGE, weight="bold")
    drawing.code(449, 248, "apply", color=ORANGE)

    for x, words in [(325, "1  lease"), (555, "2  run"), (778, "3  finish")]:
        drawing.text(x, 22, words, weight="bold")
    finish = ["The outputs go to the end", "of the next queue, the change",
              "is applied, and only now the", "item leaves its own queue."]
    for place, words in enumerate(finish):
        drawing.text(690, 176 + 18 * place, words, "start")
    drawing.write(__file__)


if __name__ == "__main__":
    main()
