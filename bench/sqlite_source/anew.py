"""Measures cqlrun beside SQLite, which evaluates the windows anew at each instant.

usage: anew.py CQLRUN FOLDER SHARE
"""

import json
import os
import random
import sqlite3
import sys
import time

ROWS = 8
SPANS = (10, 100, 1_000, 10_000)
STRIDE = 64
TAKE = 4_096
# At most so many rows are held by all windows that one measurement of SQLite goes over.
MOST_SHOWN = 40_000_000

TEXTS = {
    "range": "Select Istream(k, v) From A [Range {span}]",
    "groups": "Select Istream(k, Count(*), Sum(v)) From A [Range {span}] Group By k",
    "join": "Select Istream(A.v, B.v) From A [Range {span}], B [Range {span}] Where A.k = B.k",
    "distinct": "Select Istream(Distinct k) From A [Range {span}]",
}

# Of each query its columns, and its relation at one instant, ? to ?, both included.
WINDOWS = {
    "range": ("k, v", "Select k, v From A Where at Between {} And {}"),
    "groups": ("k, n, s", "Select k, Count(*) As n, Sum(v) As s From A Where at Between {} And {} "
                          "Group By k"),
    "join": ("a, b", "Select A.v As a, B.v As b From A Join B On A.k = B.k "
                     "Where A.at Between {0} And {1} And B.at Between {0} And {1}"),
    "distinct": ("k", "Select Distinct k From A Where at Between {} And {}"),
}


def istream(kind):
    """The statement for what came into the relation: now it is there more often than before."""
    columns, window = WINDOWS[kind]
    now, before = window.format("?1", "?2"), window.format("?3", "?4")
    return (f"Select {columns}, Sum(c) From (Select {columns}, 1 As c From ({now}) "
            f"Union All Select {columns}, -1 As c From ({before})) "
            f"Group By {columns} Having Sum(c) > 0 Order By {columns}")


def value_of(draw):
    return None if draw.randrange(16) == 0 else draw.randrange(-1000, 1000)


def rows_of(kind, span, instants):
    """Of each stream its rows, by rising instants."""
    draw = random.Random(1)
    keys = ROWS * (span + 1) if kind in ("join", "distinct") else 64
    return {
        name: [
            (at, draw.randrange(keys), value_of(draw))
            for at in range(instants) for _ in range(ROWS)
        ]
        for name in (("A", "B") if kind == "join" else ("A",))
    }


def by_engine(program, folder, kind, span, rows, instants):
    """The answers, and the seconds of the processor that a run took."""
    path, replies = os.path.join(folder, "script"), os.path.join(folder, "replies")
    with open(path, "w") as out:
        def say(**line):
            out.write(json.dumps(line, separators=(",", ":")) + "\n")
        for name in rows:
            say(op="stream", name=name, columns=["k", "v"], **{"from": 0})
        say(op="query", name="q", text=TEXTS[kind].format(span=span))
        for first in range(0, instants, STRIDE):
            last = min(first + STRIDE, instants) - 1
            for name, held in rows.items():
                say(op="append", stream=name, rows=held[first * ROWS:(last + 1) * ROWS])
            for name in rows:
                say(op="heartbeat", stream=name, at=last)
            say(op="drain")
            say(op="take", query="q", limit=TAKE)
    with open(path) as source, open(replies, "w") as sink:
        child = os.posix_spawn(program, [program], {}, file_actions=[
            (os.POSIX_SPAWN_DUP2, source.fileno(), 0), (os.POSIX_SPAWN_DUP2, sink.fileno(), 1)])
        _, status, used = os.wait4(child, 0)
    if status != 0:
        sys.exit(f"bench/sqlite: {program} ended with {status}")
    answers = []
    with open(replies) as lines:
        for reply in map(json.loads, lines):
            if "error" in reply:
                sys.exit(f"bench/sqlite: a request was refused: {reply['error']}")
            answers += map(tuple, reply.get("rows", ()))
    return answers, used.ru_utime + used.ru_stime


def by_sqlite(kind, span, rows, instants, asked):
    """The answers at the first `asked` instants, and the seconds that these took."""
    base = sqlite3.connect(":memory:", isolation_level=None)
    for name in rows:
        base.execute(f"Create Table {name} (at Integer, k Integer, v Integer)")
        base.execute(f"Create Index {name}_at On {name} (at, k, v)")
    statement, answers = istream(kind), []
    began = time.process_time()
    for first in range(0, asked, STRIDE):
        last = min(first + STRIDE, instants) - 1
        base.execute("Begin")
        for name, held in rows.items():
            some = held[first * ROWS:(last + 1) * ROWS]
            base.executemany(f"Insert Into {name} Values (?, ?, ?)", some)
        base.execute("Commit")
        for at in range(first, last + 1):
            window = (max(at - span, 0), at, max(at - 1 - span, 0), at - 1)
            for *values, count in base.execute(statement, window):
                answers += [(at, *values)] * count
    return answers, time.process_time() - began


def main():
    program, folder, share = sys.argv[1], sys.argv[2], float(sys.argv[3])
    print(f"{'query':<9} {'span':>6} {'rows':>8} {'engine':>10} {'SQLite':>10} {'ratio':>8}"
          "   rows a second")
    status = 0
    for kind in TEXTS:
        for span in SPANS:
            instants = max(STRIDE, int(30_000 * share))
            # the windows are full at the instants behind the span, which count the most
            asked = min(instants, span + max(STRIDE, MOST_SHOWN // (ROWS * (span + 1))))
            asked = min(instants, -(-asked // STRIDE) * STRIDE)
            rows = rows_of(kind, span, instants)
            mine, seconds = by_engine(program, folder, kind, span, rows, instants)
            theirs, theirs_seconds = by_sqlite(kind, span, rows, instants, asked)
            if [it for it in mine if it[0] < asked] != theirs:
                print(f"{kind} {span}: THE ANSWERS DIFFER")
                status = 1
            each = ROWS * len(rows)
            rate, other = each * instants / seconds, each * asked / theirs_seconds
            print(f"{kind:<9} {span:>6} {each * instants:>8} {rate:>10.0f} {other:>10.0f} "
                  f"{rate / other:>8.1f}", flush=True)
    sys.exit(status)


if __name__ == "__main__":
    main()
