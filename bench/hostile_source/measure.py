"""Measures short hostile inputs: bench/hostile says how.

usage: measure.py CQLRUN
"""

import json
import os
import resource
import signal
import subprocess
import sys
import tempfile
from collections.abc import Iterator
from typing import NamedTuple

LONGEST = 300  # seconds of processor time that a run may take
ENDED = 128 + signal.SIGXCPU  # the status of `time` if the program took longer
INSTANTS = 65_536  # the most that a heartbeat closes
Request = dict[str, object]


class Cost(NamedTuple):
    """What a run took: processor seconds, the peak of memory in MiB, and bytes of replies."""

    seconds: float
    mebibytes: float
    replies: int
    has_ended: bool


def stream(name: str) -> Request:
    """Returns the request for a stream of two columns."""
    return {"op": "stream", "name": name, "columns": ["a", "b"], "from": 0}


def query(name: str, text: str) -> Request:
    """Returns the request for a query."""
    return {"op": "query", "name": name, "text": text}


def rows(name: str, instants: int, each: int, keys: int) -> Iterator[Request]:
    """Yields appends of `each` rows an instant, and the heartbeats that close them."""
    for at in range(instants):
        values = [[at, place % keys, place] for place in range(each)]
        yield {"op": "append", "stream": name, "rows": values}
        yield {"op": "heartbeat", "stream": name, "at": at}


def take_all(name: str, answers: int) -> Iterator[Request]:
    """Yields a drain, and as many takes as so many answers need."""
    yield {"op": "drain"}
    for _ in range(answers // 4096 + 1):
        yield {"op": "take", "query": name, "limit": 4096}


def gap(queries: int) -> Iterator[Request]:
    """Yields one heartbeat over as many empty instants as may be, under so many queries."""
    yield stream("S")
    for number in range(queries):
        yield query(f"q{number}", "Select Istream(a) From S [Now]")
    yield {"op": "heartbeat", "stream": "S", "at": INSTANTS - 1}
    yield {"op": "drain"}


def levels(depth: int) -> Iterator[Request]:
    """Yields a condition under so many `Not`, over 64 appends of 1,024 rows."""
    yield stream("S")
    yield query("q", f"Select Rstream(a) From S [Now] Where {'Not ' * depth}a > b")
    yield from rows("S", 64, 1024, 1024)
    yield from take_all("q", 0)


def hot_key(keys: int) -> Iterator[Request]:
    """Yields a join of four streams, 16 rows each, with so many keys."""
    names = ["S", "T", "U", "V"]
    for name in names:
        yield stream(name)
    tests = " And ".join(f"S.a = {name}.a" for name in names[1:])
    yield query("q", f"Select Istream(S.b) From {', '.join(names)} Where {tests}")
    for name in names:
        yield from rows(name, 1, 16, keys)
    yield from take_all("q", 65_536)


def relation(operator: str) -> Iterator[Request]:
    """Yields a window of 1,024 rows that stays over 256 instants."""
    yield stream("S")
    yield query("q", f"Select {operator}(*) From S [Range 1000]")
    yield from rows("S", 1, 1024, 1024)
    yield {"op": "heartbeat", "stream": "S", "at": 255}
    yield from take_all("q", 262_144)


CASES = [
    ("one heartbeat over 65,536 empty instants", "256 queries", gap(256), "1 query", gap(1)),
    ("a condition over 65,536 rows", "under 32 `Not`", levels(32), "under none", levels(0)),
    ("a join of four streams, 16 rows each", "one key", hot_key(1), "16 keys", hot_key(16)),
    ("a window of 1,024 rows, 256 instants", "`Rstream(*)`", relation("Rstream"), "`Istream(*)`",
     relation("Istream")),
]


def run(program: str, requests: Iterator[Request]) -> Cost:
    """Runs a script, and returns what it took.

    The peak is asked of `time`: what wait4 says of a child counts what its parent, Python, held."""
    with (tempfile.TemporaryFile("w+") as script, tempfile.TemporaryFile() as replies,
          tempfile.NamedTemporaryFile("w+") as said):
        for request in requests:
            print(json.dumps(request, separators=(",", ":")), file=script)
        script.seek(0)
        words = ["/usr/bin/time", "-f", "%M", "-o", said.name, program]
        process = subprocess.Popen(words, stdin=script, stdout=replies, preexec_fn=limit)
        _, status, used = os.wait4(process.pid, 0)
        process.returncode = os.waitstatus_to_exitcode(status)
        if process.returncode not in (0, ENDED):
            sys.exit(f"{program} ended with status {process.returncode}")
        seconds = used.ru_utime + used.ru_stime
        # a line before it says if the program was ended
        mebibytes = int(said.read().splitlines()[-1]) / 1024
        size = replies.seek(0, os.SEEK_END)
        return Cost(seconds, mebibytes, size, process.returncode == 0)


def limit() -> None:
    """Ends a run that takes too long, by SIGXCPU: at the second limit it would be SIGKILL."""
    resource.setrlimit(resource.RLIMIT_CPU, (LONGEST, LONGEST + 1))


def main() -> None:
    """Prints a table of the hostile inputs, each beside the mild one."""
    program = sys.argv[1]
    print("| Input | | Processor seconds | Peak MiB | MB of replies | Times the mild one |")
    print("|---|---|---|---|---|---|")
    for what, hostile, requests, mild, others in CASES:
        cost, less = run(program, requests), run(program, others)
        for kind, it in ((mild, less), (hostile, cost)):
            more = "" if it.has_ended else "over "
            times = f"{more}{it.seconds / less.seconds:,.0f}" if it is cost else ""
            print(f"| {what} | {kind} | {more}{it.seconds:.3f} | {it.mebibytes:.1f} |"
                  f" {it.replies / 1e6:.1f} | {times} |", flush=True)


main()
