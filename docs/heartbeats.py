#!/usr/bin/env python3
"""Draws heartbeats.svg: calls one below the other, what each closes, a query's base, a late row.

Run it as `python3 docs/heartbeats.py`. It writes the picture beside itself,
from the calls below.
"""
import sys

sys.dont_write_bytecode = True
from drawing import GREEN, GREY, INK, LIGHT_GREEN, PALE, RED, Drawing

# each call with its number: the instants of an append, or the instant of a heartbeat
CALLS = [
    ("stream S from 0", "stream", []),
    ("append rows of 1 and 2", "append", [1, 2]),
    ("heartbeat 3", "heartbeat", 3),
    ("query q", "query", []),
    ("append rows of 7, 5 and 5", "append", [7, 5, 5]),
    ("heartbeat 6", "heartbeat", 6),
    ("append a row of 4", "append", [4]),
    ("drain, then take", "take", []),
]
LAST = 8
LEFT, STEP, TOP, HEIGHT = 200, 52, 62, 40


def main():
    right = LEFT + STEP * (LAST + 1)
    bottom = TOP + HEIGHT * len(CALLS)
    drawing = Drawing(right + 250, bottom + 66,
                      "Heartbeats close instants, a query starts at its base, "
                      "and a late row is refused")

    def x(instant):
        return LEFT + STEP * (instant + 0.5)

    for instant in range(LAST + 1):
        drawing.text(x(instant), TOP - 14, str(instant))
    drawing.text(LEFT - 14, TOP - 14, "instant", "end", GREY)
    closed, base = -1, None
    for number, (words, kind, told) in enumerate(CALLS):
        top = TOP + HEIGHT * number
        middle = top + HEIGHT / 2
        said = "ok"
        late = kind == "append" and any(instant <= closed for instant in told)
        if kind == "heartbeat":
            said, closed = f"ok: closes {closed + 1} to {told}", told
        if kind == "query":
            said, base = f"ok: its base is {closed}", closed
        if closed >= 0:
            drawing.box(LEFT, top + 1, STEP * (closed + 1), HEIGHT - 2, PALE, PALE, 0, 0)
        drawing.line([(20, top), (right + 230, top)], PALE, 1)
        drawing.text(LEFT - 14, middle + 4, words, "end")
        for place in sorted(set(told)) if kind == "append" else []:
            there = told.count(place)
            for copy in range(there):
                at = x(place) + (copy - (there - 1) / 2) * 20
                color = RED if late else GREEN if base is not None else GREY
                drawing.dot(at, middle, 8, "white" if late else color, color)
                if late:
                    drawing.line([(at - 4, middle - 4), (at + 4, middle + 4)], RED)
                    drawing.line([(at - 4, middle + 4), (at + 4, middle - 4)], RED)
        if kind == "append":
            said = "ok: before the query" if base is None else "ok: rows wait"
            said = "E10 Late: nothing is changed" if late else said
        if kind == "take":
            first, last = base + 1, closed
            width = STEP * (last - first + 1) - 6
            drawing.box(x(first) - STEP / 2 + 3, top + 6, width, HEIGHT - 12, LIGHT_GREEN, GREEN)
            drawing.text((x(first) + x(last)) / 2, middle + 4, f"answers of {first} to {last}",
                         color=GREEN)
            said = "ok: the row of 7 waits on"
        drawing.text(right + 14, middle + 4, said, "start", RED if late else INK)
    registered = [kind for _, kind, _ in CALLS].index("query")
    at = x(base) + STEP / 2
    drawing.line([(at, TOP + HEIGHT * registered), (at, bottom + 8)], GREEN, 2, dashed=True)
    words = f"base {base}: what is at or before it does not count for q"
    drawing.text(at, bottom + 24, words, color=GREEN)
    y = bottom + 52
    drawing.box(LEFT, y - 12, 22, 14, PALE, PALE, 0, 0)
    drawing.text(LEFT + 30, y, "closed after the call", "start")
    keys = [("a row that counts for q", GREEN), ("one that does not", GREY)]
    for place, (words, color) in enumerate(keys):
        drawing.dot(LEFT + 206 + place * 180, y - 4, 7, color, color)
        drawing.text(LEFT + 220 + place * 180, y, words, "start")
    drawing.write(__file__)


if __name__ == "__main__":
    main()
