#!/usr/bin/env python3
"""Draws growth.svg: what two bridges read from Redis, and what they write there.

Run it as `python3 docs/growth.py`. It writes the picture beside itself, from the entries below.
"""
import sys

sys.dont_write_bytecode = True
from drawing import GREEN, GREY, INK, LIGHT_GREEN, LIGHT_ORANGE, ORANGE, PAPER, RED, Drawing

# the entries of the log: the id that Redis chose, who sent it, what it says
LOG = [("170-0", "p0", "rows at 4, 5"), ("171-0", "p1", "rows at 5"),
       ("172-0", "p0", "promises 5"), ("173-0", "p1", "rows at 6"), ("174-0", "p1", "promises 5")]
# the entries of the answers: the id is the instant and the part
ANSWERS = [("4-1", "answers of 4"), ("5-1", "answers of 5"), ("5-2", "and the rest of them")]
# who tries to write which answer, and whether Redis takes it
TRIES = [("5-1", True), ("5-1", False)]

TOP, HEIGHT = 66, 30
LOG_LEFT, LOG_WIDTH = 150, 232
BRIDGE_LEFT, BRIDGE_WIDTH = 462, 128
OUT_LEFT, OUT_WIDTH = 672, 208


def main():
    bottom = TOP + HEIGHT * len(LOG)
    drawing = Drawing(OUT_LEFT + OUT_WIDTH + 136, bottom + 96,
                      "Two bridges read one log, and write each answer once")
    for number, name in enumerate(["p0", "p1"]):
        y = TOP + 34 + 72 * number
        drawing.box(20, y - 18, 84, 36, PAPER)
        drawing.text(62, y + 5, f"producer {name}", size=12)
        drawing.line([(104, y), (LOG_LEFT - 4, y)], head=True)

    drawing.code(LOG_LEFT + LOG_WIDTH / 2, TOP - 14, "t:in, the log", color=ORANGE, size=13)
    for number, (place, sender, words) in enumerate(LOG):
        y = TOP + HEIGHT * number
        drawing.box(LOG_LEFT, y, LOG_WIDTH, HEIGHT, LIGHT_ORANGE, ORANGE, 1, 0)
        drawing.code(LOG_LEFT + 8, y + 20, place, "start")
        drawing.text(LOG_LEFT + 72, y + 20, f"{sender} {words}", "start", size=12)

    for number in range(2):
        y = TOP + 6 + 78 * number
        drawing.box(BRIDGE_LEFT, y, BRIDGE_WIDTH, 58, "white")
        drawing.text(BRIDGE_LEFT + BRIDGE_WIDTH / 2, y + 23, f"bridge {number + 1}", weight="bold")
        drawing.text(BRIDGE_LEFT + BRIDGE_WIDTH / 2, y + 43, "and its cqlrun", color=GREY, size=12)
        middle = TOP + HEIGHT * len(LOG) / 2
        drawing.line([(LOG_LEFT + LOG_WIDTH + 2, middle), (BRIDGE_LEFT - 30, middle),
                      (BRIDGE_LEFT - 2, y + 29)], head=True)
        place, is_taken = TRIES[number]
        goal = TOP + HEIGHT * (1 + [entry[0] for entry in ANSWERS].index(place)) - HEIGHT / 2
        color = GREEN if is_taken else RED
        drawing.line([(BRIDGE_LEFT + BRIDGE_WIDTH + 2, y + 29), (OUT_LEFT - 3, goal + 4 * number)],
                     color, dashed=not is_taken, head=True)
        words = f"XADD {place}" if is_taken else "refused"
        drawing.code(BRIDGE_LEFT + BRIDGE_WIDTH + 8, y + (12 if is_taken else 50), words,
                     "start", color, 11)

    drawing.code(OUT_LEFT + OUT_WIDTH / 2, TOP - 14, "t:out:volume", color=GREEN, size=13)
    for number, (place, words) in enumerate(ANSWERS):
        y = TOP + HEIGHT * number
        drawing.box(OUT_LEFT, y, OUT_WIDTH, HEIGHT, LIGHT_GREEN, GREEN, 1, 0)
        drawing.code(OUT_LEFT + 8, y + 20, place, "start")
        drawing.text(OUT_LEFT + 48, y + 20, words, "start", size=12)
    drawing.code(OUT_LEFT, TOP + HEIGHT * len(ANSWERS) + 24, "t:upto:volume = 5", "start", GREEN)
    y = TOP + HEIGHT * 1.5
    drawing.line([(OUT_LEFT + OUT_WIDTH + 2, y), (OUT_LEFT + OUT_WIDTH + 34, y)], head=True)
    drawing.box(OUT_LEFT + OUT_WIDTH + 38, y - 18, 84, 36, PAPER)
    drawing.text(OUT_LEFT + OUT_WIDTH + 80, y + 5, "reader", size=12)

    y = bottom + 36
    drawing.box(LOG_LEFT, y, LOG_WIDTH, 34, "white", INK, dashed=True)
    drawing.code(LOG_LEFT + LOG_WIDTH / 2, y + 21, "t:snapshot of 172-0")
    drawing.text(LOG_LEFT + LOG_WIDTH + 14, y + 14,
                 "what later answers need of the log up to that entry:", "start", GREY, size=12)
    drawing.text(LOG_LEFT + LOG_WIDTH + 14, y + 30, "a bridge that starts again reads it, and goes "
                 "on at the next entry", "start", GREY, size=12)
    drawing.write(__file__)


if __name__ == "__main__":
    main()
