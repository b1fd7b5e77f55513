#!/usr/bin/env python3
"""Draws headline.svg: the chain of the theorem, from a text to the engine, and what says each step.

Run it as `python3 docs/headline.py`. It writes the picture beside itself,
from the lists below.
"""
import sys

sys.dont_write_bytecode = True
from drawing import GREEN, GREY, INK, LIGHT_GREEN, LIGHT_ORANGE, ORANGE, Drawing

# what stands one below the other, and the name of the value or of the type
LEVELS = [
    ("text", "bytes"),
    ("meaning", "Resolved"),
    ("plan", "nodes"),
    ("dataflow", "IsGood"),
    ("running query", "PlainQuery"),
    ("engine, as a plain value", "GoodEngine"),
    ("the engine of the code", "Engine"),
    ("a script's replies", "bytes"),
]
# from each to the next: what it says, the function or the lemma that says it, and the crates
STEPS = [
    ("what the grammar and the names give, or the first fault", "read, resolve",
     "cql_reader, names"),
    ("the plan's value is the relation of the meaning", "plans_are_right", "plan"),
    ("each operator keeps its law; edges are paths", "good_queries_give_their_answers",
     "operators' crates, laws_dataflow"),
    ("the code's operators are such operators", "registrations_run",
     "laws_queries, laws_engine"),
    ("each call keeps a good engine good", "engines_keep_their_promises", "laws_engine"),
    ("each call does what the plain engine does", "Engine's clauses", "leases"),
    ("each call does what the machine's step says", "does, run_script, run",
     "reference, wire, programs"),
]
# what says at a level that the answers given are a prefix of CQL's
GIVEN = {
    3: "good_queries_give_their_answers",
    4: "running_queries_give_their_answers",
    5: "good_engines_keep_their_promises",
    6: "promises",
}
LEFT, WIDTH, TOP, STEP, HEIGHT = 30, 200, 30, 92, 44
RIGHT = 590


def main():
    drawing = Drawing(RIGHT + 230, TOP + STEP * (len(LEVELS) - 1) + HEIGHT + 30,
                      "The chain of the theorem, from a text to the replies")

    def y(level):
        return TOP + STEP * level

    drawing.box(RIGHT, y(1), 200, y(6) + HEIGHT - y(1), LIGHT_ORANGE, ORANGE, 2, 8)
    drawing.text(RIGHT + 100, y(1) + 62, "CQL's answers", weight="bold")
    drawing.text(RIGHT + 100, y(1) + 80, "for the closed instants", color=GREY)
    drawing.code(RIGHT + 100, y(1) + 104, "closed_answers")
    drawing.text(RIGHT + 100, y(1) + 128, "of the meaning and the rows", color=GREY, size=12)
    drawing.text(RIGHT + 100, y(1) + 145, "only: no plan, no queue", color=GREY, size=12)
    begin, between = LEFT + WIDTH, (LEFT + WIDTH + RIGHT) / 2
    middle = y(1) + HEIGHT / 2
    drawing.line([(begin, middle), (RIGHT - 2, middle)], ORANGE, 2, head=True)
    drawing.text(between, middle - 8, "defines, with the rows of its streams", color=ORANGE)
    for level, (name, value) in enumerate(LEVELS):
        fill, color = (LIGHT_GREEN, GREEN) if level in GIVEN else ("white", INK)
        drawing.box(LEFT, y(level), WIDTH, HEIGHT, fill, color, 1.5)
        drawing.text(LEFT + WIDTH / 2, y(level) + 19, name, weight="bold")
        drawing.code(LEFT + WIDTH / 2, y(level) + 36, value, color=GREY)
        if level in GIVEN:
            middle = y(level) + HEIGHT / 2
            drawing.line([(begin, middle), (RIGHT - 2, middle)], GREEN, 2, head=True)
            words = "has given a prefix, and all once idle"
            drawing.text(between, middle - 8, words, color=GREEN)
            drawing.code(between, middle + 16, GIVEN[level], color=GREEN, size=11)
    for level, (says, law, crates) in enumerate(STEPS):
        top, end = y(level) + HEIGHT, y(level + 1)
        drawing.line([(LEFT + 28, top), (LEFT + 28, end - 1)], INK, 1.5, head=True)
        drawing.text(LEFT + 42, top + 20, says, "start", size=12)
        drawing.code(LEFT + 42, top + 37, law, "start", size=11)
        drawing.text(LEFT + 50 + 6.9 * len(law), top + 37, crates, "start", GREY, size=11)
    drawing.write(__file__)


if __name__ == "__main__":
    main()
