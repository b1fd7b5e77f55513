"""Counts what a row costs where rows are rare: bench/gaps says how.

usage: measure.py CQLRUN
"""

import json
import os
import random
import re
import subprocess
import sys
import tempfile
from collections.abc import Iterable, Iterator
from concurrent.futures import Future, ThreadPoolExecutor

QUERIES = {
    "filter": "Select Rstream(k, v) From A [Now] Where v > 500",
    "filter, Istream": "Select Istream(k, v) From A [Now] Where v > 500",
    "range": "Select Istream(k, v) From A [Range 100]",
    "groups": "Select Istream(k, Count(*), Sum(v)) From A [Range 100] Group By k",
    "join": "Select Istream(A.v, B.v) From A [Range 100], B [Range 100] Where A.k = B.k",
    "distinct": "Select Istream(Distinct k) From A [Range 100]",
    "slide": "Select Istream(k, v) From A [Range 100 Slide 10]",
}
# Instants from one row to the next on average, and rows of the longer run for each.
GAPS = {1: 96, 1_000: 96, 60_000: 24}
FIRST = 8  # rows of the shorter run
GOAL = 3.0
LONGEST = 300  # seconds that a run may take
INSTANTS = 65_536  # the most that a heartbeat closes
BEATS = 9  # heartbeats of the longer run; the shorter one has one
BEAT_GOAL = 20_000  # instructions of a heartbeat with its drain, under one query
MANY = 256  # queries
Request = dict[str, object]


def requests(text: str, gap: int, rows: int) -> Iterator[Request]:
    """Yields the requests of a script: each row comes at some instant of its gap."""
    draw = random.Random(1)
    streams = [name for name in "AB" if f"{name} [" in text]
    for name in streams:
        yield {"op": "stream", "name": name, "columns": ["k", "v"], "from": 0}
    yield {"op": "query", "name": "q", "text": text}
    for place in range(rows):
        for name in streams:
            row = [place * gap + draw.randrange(gap), draw.randrange(4), draw.randrange(1000)]
            yield {"op": "append", "stream": name, "rows": [row]}
        for name in streams:
            yield {"op": "heartbeat", "stream": name, "at": (place + 1) * gap - 1}
        yield {"op": "drain"}
        yield {"op": "take", "query": "q", "limit": 4096}


def heartbeats(queries: int, count: int) -> Iterator[Request]:
    """Yields heartbeats without rows under so many queries, each with a drain."""
    yield {"op": "stream", "name": "A", "columns": ["k", "v"], "from": 0}
    for number in range(queries):
        yield {"op": "query", "name": f"q{number}", "text": "Select Istream(k) From A [Now]"}
    for place in range(count):
        yield {"op": "heartbeat", "stream": "A", "at": (place + 1) * INSTANTS - 1}
        yield {"op": "drain"}


def instructions(program: str, asked: Iterable[Request]) -> int | None:
    """Returns how many instructions the program runs for a script; None if it takes too long.

    Each request must be answered without a fault."""
    with tempfile.TemporaryFile("w+") as script, tempfile.TemporaryFile("w+") as replies:
        for request in asked:
            print(json.dumps(request, separators=(",", ":")), file=script)
        script.seek(0)
        words = ["valgrind", "--tool=callgrind", "--callgrind-out-file=/dev/null", program]
        try:
            ran = subprocess.run(
                words, stdin=script, stdout=replies, stderr=subprocess.PIPE, text=True, check=True,
                timeout=LONGEST,
            )
        except subprocess.TimeoutExpired:
            return None
        replies.seek(0)
        if faults := [reply for reply in replies if reply.startswith('{"error"')]:
            sys.exit(f"bench/gaps: a request was refused: {faults[0]}")
    found = re.search(r"Collected : (\d+)", ran.stderr)
    if found is None:
        sys.exit(f"valgrind says no count:\n{ran.stderr}")
    return int(found[1])


def difference(program: str, less: Iterable[Request], more: Iterable[Request]) -> int | None:
    """Returns how many instructions more the second script takes."""
    first, second = instructions(program, less), instructions(program, more)
    return None if first is None or second is None else second - first


def of_a_row(program: str, name: str, gap: int) -> float | None:
    """Returns the instructions of an instant's rows, by the difference of two scripts."""
    text, most = QUERIES[name], GAPS[gap]
    more = difference(program, requests(text, gap, FIRST), requests(text, gap, most))
    return None if more is None else more / (most - FIRST)


def of_a_heartbeat(program: str, queries: int) -> float | None:
    """Returns the instructions of a heartbeat over as many empty instants as may be, with its
    drain."""
    more = difference(program, heartbeats(queries, 1), heartbeats(queries, BEATS))
    return None if more is None else more / (BEATS - 1)


def said(count: float | None) -> str:
    """Returns a number of instructions as a table shows it."""
    return "longer" if count is None else f"{count:,.0f}"


def rows_missed(costs: dict[tuple[str, int], Future[float | None]]) -> int:
    """Prints a table of all queries and gaps, and returns how many miss the goal."""
    heads = " | ".join(f"each {gap:,}" for gap in GAPS)
    print(f"| Query | {heads} | Most over none | Goal | Met |")
    print(f"|---|{'---|' * (len(GAPS) + 3)}")
    missed = 0
    for name in QUERIES:
        found = [costs[name, gap].result() for gap in GAPS]
        known = [it for it in found if it is not None]
        ratio = max(known) / known[0] if len(known) == len(GAPS) else None
        is_met = ratio is not None and ratio <= GOAL
        missed += not is_met
        shown = "" if ratio is None else f"{ratio:,.1f}"
        print(f"| {name} | {' | '.join(map(said, found))} | {shown} | {GOAL:.0f} | "
              f"{'yes' if is_met else 'no'} |", flush=True)
    return missed


def heartbeats_missed(one: float | None, many: float | None) -> int:
    """Prints a table of a heartbeat under one query and under many, and returns how many goals are
    missed."""
    print(f"\n| One heartbeat over {INSTANTS:,} empty instants, with its drain | Instructions | "
          "Times one query | Goal | Met |")
    print("|---|---|---|---|---|")
    is_short = one is not None and one <= BEAT_GOAL
    print(f"| 1 query | {said(one)} | | {BEAT_GOAL:,} | {'yes' if is_short else 'no'} |")
    times = None if one is None or many is None else many / one
    is_met = times is not None and times <= MANY
    shown = "" if times is None else f"{times:,.0f}"
    print(f"| {MANY} queries | {said(many)} | {shown} | {MANY} times | "
          f"{'yes' if is_met else 'no'} |", flush=True)
    return (not is_short) + (not is_met)


def main() -> int:
    """Prints both tables, and says where a goal is missed."""
    program = sys.argv[1]
    with ThreadPoolExecutor(int(os.environ.get("JOBS", 2))) as pool:
        costs = {(name, gap): pool.submit(of_a_row, program, name, gap)
                 for name in QUERIES for gap in GAPS}
        one, many = (pool.submit(of_a_heartbeat, program, it) for it in (1, MANY))
        missed = rows_missed(costs) + heartbeats_missed(one.result(), many.result())
    return 1 if missed else 0


if __name__ == "__main__":
    sys.exit(main())
