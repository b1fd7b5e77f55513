"""Writes scripts of request lines into a folder: two streams of few values, so that rows are
repeated, leave and come again, and every kind of query over them. What comes at an instant is none,
few or, in one script, more rows than a batch has."""
import json
import random
import sys

WINDOWS = [
    "[Now]",
    "[Range 1]",
    "[Range 3]",
    "[Range Unbounded]",
    "[Rows 1]",
    "[Rows 5]",
    "[Partition By k Rows 1]",
    "[Partition By k, v Rows 2]",
]

LISTS = [
    "(*) From S {} Where v > 1 Or Not (w < 3)",
    "(v, k, v) From S {} Where k = v",
    "(Distinct v) From S {}",
    "(Count(*), Count(v), Sum(w), Min(v), Max(w)) From S {}",
    "(k, Count(*), Min(v), Max(v), Sum(w)) From S {} Group By k",
    "(Distinct Min(w)) From S {} Where v < 3 Group By k, v",
    "(Count(*), Sum(v)) From S {} Where k > 9",
]

JOINS = [
    "(*) From S {} a, T {} b Where a.k = b.k",
    "(a.v, b.v) From S {} a, T {} b Where a.k = b.k And a.v = b.v And a.w > 0",
    "(Distinct a.w) From S {} a, S {} b Where a.k = b.v And (a.w > b.w Or b.w = 1)",
    "(a.k, Count(*), Min(b.v)) From S {} a, T {} b Where a.k = b.k Group By a.k",
]


def value(chance):
    return None if chance.random() < 0.2 else chance.randrange(4)


def rows(chance, at, width, least, most):
    return [[at] + [value(chance) for _ in range(width)]
            for _ in range(chance.randrange(least, most + 1))]


def texts(chance, windows, joins):
    for shape in LISTS:
        for window in chance.sample(windows, min(3, len(windows))):
            yield chance.choice(["Istream", "Dstream", "Rstream"]), shape.format(window)
    for shape in JOINS:
        for _ in range(joins):
            pair = chance.choice(WINDOWS), chance.choice(WINDOWS)
            yield chance.choice(["Istream", "Dstream", "Rstream"]), shape.format(*pair)


def script(seed, instants, least, most, joins, drains, windows=WINDOWS):
    chance = random.Random(seed)
    lines = [
        {"op": "stream", "name": "S", "columns": ["k", "v", "w"], "from": 0},
        {"op": "stream", "name": "T", "columns": ["k", "v"], "from": chance.randrange(3)},
    ]
    closed = {"S": -1, "T": lines[1]["from"] - 1}
    waiting = [f"Select {operator}{rest}" for operator, rest in texts(chance, windows, joins)]
    chance.shuffle(waiting)
    names = []
    while min(closed.values()) < instants:
        # a third of the queries come while the streams run
        while waiting and (len(names) < 2 * len(waiting) or chance.random() < 0.2):
            names.append(f"q{len(names)}")
            lines.append({"op": "query", "name": names[-1], "text": waiting.pop()})
        stream = min(closed, key=closed.get) if chance.random() < 0.8 else chance.choice("ST")
        width = 3 if stream == "S" else 2
        later = closed[stream] + 1 + chance.randrange(3)
        more = (rows(chance, closed[stream] + 1, width, least, most)
                + rows(chance, later, width, 0, most // 2))
        chance.shuffle(more)
        for first in range(0, len(more), 1000):
            lines.append({"op": "append", "stream": stream, "rows": more[first : first + 1000]})
        if chance.random() < 0.8:
            closed[stream] += 1 + (chance.randrange(4) if chance.random() < 0.3 else 0)
            lines.append({"op": "heartbeat", "stream": stream, "at": closed[stream]})
        if chance.random() < drains:
            lines.append({"op": "drain"})
            lines.append({"op": "take", "query": chance.choice(names),
                          "limit": chance.randrange(1, 20)})
    return "".join(json.dumps(line) + "\n" for line in lines)


folder = sys.argv[1]
for seed in range(4):
    with open(f"{folder}/few_{seed}", "w") as file:
        file.write(script(seed, 12, 0, 3, 3, 0.3))
    with open(f"{folder}/some_{seed}", "w") as file:
        file.write(script(100 + seed, 5, 0, 12, 1, 0.1))
with open(f"{folder}/many", "w") as file:
    file.write(script(200, 0, 1025, 1100, 0, 0, ["[Range 1]"]))
