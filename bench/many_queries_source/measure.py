"""Counts what a row costs a query: bench/many_queries says how.

usage: measure.py CQLRUN
"""

import json
import random
import re
import subprocess
import sys
import tempfile
from collections.abc import Iterator

QUERIES = 4  # of each stream
STRIDE = 64  # the instants of an append, a heartbeat and a drain
GOAL = 1.5


def requests(streams: int, instants: int) -> Iterator[dict[str, object]]:
    """Yields the requests of a script: a row an instant and stream, filtered by four queries."""
    draw = random.Random(1)
    for stream in range(streams):
        yield {"op": "stream", "name": f"S{stream}", "columns": ["a", "b"], "from": 0}
    names = [f"q{number}" for number in range(streams * QUERIES)]
    for number, name in enumerate(names):
        test = f"From S{number % streams} [Now] Where b > {draw.randrange(100)}"
        yield {"op": "query", "name": name, "text": f"Select Istream(a) {test}"}
    for first in range(0, instants, STRIDE):
        for stream in range(streams):
            rows = [
                [at, draw.randrange(1000), draw.randrange(100)]
                for at in range(first, first + STRIDE)
            ]
            yield {"op": "append", "stream": f"S{stream}", "rows": rows}
            yield {"op": "heartbeat", "stream": f"S{stream}", "at": first + STRIDE - 1}
        yield {"op": "drain"}
        for name in names:
            yield {"op": "take", "query": name, "limit": 4096}


def instructions(program: str, streams: int, instants: int) -> int:
    """Returns how many instructions the program runs for a script."""
    with tempfile.TemporaryFile("w+") as script:
        for request in requests(streams, instants):
            print(json.dumps(request, separators=(",", ":")), file=script)
        script.seek(0)
        words = ["valgrind", "--tool=callgrind", "--callgrind-out-file=/dev/null", program]
        ran = subprocess.run(
            words, stdin=script, stdout=subprocess.DEVNULL, stderr=subprocess.PIPE, text=True,
            check=True,
        )
    found = re.search(r"Collected : (\d+)", ran.stderr)
    if found is None:
        sys.exit(f"valgrind says no count:\n{ran.stderr}")
    return int(found[1])


def of_a_row(program: str, streams: int, most: int) -> float:
    """Returns the instructions of a row and query, by the difference of two scripts."""
    more = instructions(program, streams, most) - instructions(program, streams, STRIDE)
    return more / (most - STRIDE) / streams / QUERIES


def main() -> int:
    """Prints a table of both, and their ratio beside the goal; returns 1 if it is missed."""
    program = sys.argv[1]
    one, many = of_a_row(program, 1, 16 * STRIDE), of_a_row(program, 64, 2 * STRIDE)
    print("| Streams, with 4 queries each | Instructions a row and query |")
    print("|---|---|")
    print(f"| 1 | {one:,.0f} |")
    print(f"| 64 | {many:,.0f} |")
    ratio = many / one
    is_met = ratio <= GOAL
    print(f"ratio {ratio:.2f}, goal {GOAL}: {'met' if is_met else 'missed'}")
    return 0 if is_met else 1


if __name__ == "__main__":
    sys.exit(main())
