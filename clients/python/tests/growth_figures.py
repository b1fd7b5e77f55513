"""Measures the figures of docs/growth.md: `growth_figures.py [ROWS]`, by default a million rows.

It says seconds of a processor, the least of three runs, and ratios of them. Beside other work they
hold better than seconds of a clock.
"""

from __future__ import annotations

import os
import subprocess
import sys
import tempfile
import time
from collections.abc import Sequence
from pathlib import Path
from random import Random
from typing import NamedTuple, Union

HERE = Path(__file__).resolve().parent
sys.path.insert(0, str(HERE))

from growth_support import PACKAGE, RedisServer, compact_json, python  # noqa: E402

from cqld import find_program  # noqa: E402
from cqld.growth.bridge import Bridge  # noqa: E402
from cqld.growth.feed import Clerk, Producer  # noqa: E402
from cqld.growth.parting import part_of  # noqa: E402
from cqld.growth.script import Query, Stream  # noqa: E402
from cqld.growth.store import Store  # noqa: E402

ROWS = 1_000_000
APPEND = 512  # rows of a line
RUNS = 3
QUERIES = {
    "groups": "Select Istream(k, Count(*), Sum(v)) From A [Range 60] Group By k",
    "range": "Select Istream(k, v) From A [Range 60] Where v > 900",
    "join": "Select Istream(A.k, B.v) From A [Range 60], B [Range 60] "
            "Where A.k = B.k And A.v > 990",
}


class Used(NamedTuple):
    """Seconds of a processor that processes used: of all, and of the one that used most."""

    together: float
    greatest: float


def write(path: Path, query: str, rows: int, at_once: int, parts: int = 1) -> list[Path]:
    """Writes the script of a query, `at_once` rows an instant, in so many parts by k."""
    draw = Random(5)
    names = ["A", "B"] if query == "join" else ["A"]
    paths = [path.with_name(f"{path.name}.{parts}.{part}") for part in range(parts)]
    files = [each.open("w") for each in paths]

    def tell(request: object) -> None:
        for file in files:
            file.write(compact_json(request) + "\n")

    for name in names:
        tell({"op": "stream", "name": name, "columns": ["k", "v"], "from": 0})
    tell({"op": "query", "name": "q", "text": QUERIES[query]})
    span = APPEND // at_once
    for start in range(0, rows // len(names) // at_once, span):
        for name in names:
            pieces: list[list[list[int]]] = [[] for _ in files]
            for number in range(APPEND):
                row = [start + number // at_once, draw.randrange(1_000), draw.randrange(1_000)]
                pieces[part_of(row[1], parts)].append(row)
            for file, piece in zip(files, pieces):
                file.write(compact_json({"op": "append", "stream": name, "rows": piece}) + "\n")
        for name in names:
            tell({"op": "heartbeat", "stream": name, "at": start + span - 1})
        tell({"op": "drain"})
        for _ in range(2):
            tell({"op": "take", "query": "q", "limit": 4_096})
    for file in files:
        file.close()
    return paths


def run(words: Sequence[Union[str, Path]], inputs: Sequence[Path]) -> Used:
    """Runs a program over each input at once, in the least of three runs."""
    best = Used(float("inf"), float("inf"))
    for _ in range(RUNS):
        processes = []
        for path in inputs:
            with path.open("rb") as file:
                processes.append(subprocess.Popen(
                    words, stdin=file, stdout=subprocess.DEVNULL, cwd=PACKAGE))
        used = []
        for process in processes:
            _, status, spent = os.wait4(process.pid, 0)
            process.returncode = os.waitstatus_to_exitcode(status)
            assert process.returncode == 0, words
            used.append(spent.ru_utime + spent.ru_stime)
        best = min(best, Used(sum(used), max(used)), key=lambda it: it.greatest)
    return best


def replay_and_compaction(folder: Path, rows: int, program: str) -> None:
    """Prints what it costs to replay a log, and what compaction makes of it."""
    for query in QUERIES:
        log = write(folder / query, query, rows, 8)[0]
        new = folder / f"{query}.new"
        whole = run([program], [log])
        words = python("cqld.growth.compact", log, new, "--program", program)
        started = os.times()
        subprocess.run(words, cwd=PACKAGE, check=True, stdout=subprocess.DEVNULL)
        ended = os.times()
        cut = sum(ended[2:4]) - sum(started[2:4])
        short = run([program], [new])
        lines = new.read_bytes().count(b"\n")
        print(f"{query}: {rows} rows, {log.stat().st_size / 1e6:.1f} MB, replayed in "
              f"{whole.together:.2f} s; compacted in {cut:.2f} s to {lines} lines, "
              f"{new.stat().st_size / 1e3:.1f} KB, restored in {short.together:.3f} s", flush=True)
        log.unlink()


def parts(folder: Path, rows: int, program: str) -> None:
    """Prints what parts gain: the processor of one engine by that of the busiest part."""
    for query in ("groups", "join"):
        for at_once in (8, 64):
            one = run([program], write(folder / query, query, rows, at_once))
            for count in (2, 3):
                used = run([program], write(folder / query, query, rows, at_once, count))
                print(f"{query}, {at_once} rows an instant, {count} parts: "
                      f"{one.greatest / used.greatest:.1f} times, all together "
                      f"{used.together / one.together:.2f} of one", flush=True)


def bridge(folder: Path, rows: int, program: str) -> None:
    """Prints how many rows a bridge carries, and how long it takes to begin again."""
    server = RedisServer(folder)
    try:
        with Store(server.url) as store:
            clerk = Clerk(store, "t")
            clerk.declare(Stream("A", ("k", "v"), 0), ["p"])
            clerk.declare(Query("q", QUERIES["groups"]))
            producer, draw = Producer(store, "t", "p"), Random(5)
            for start in range(0, rows // 8, 32):
                producer.append("A", [(start + number // 8, draw.randrange(1_000),
                                       draw.randrange(1_000)) for number in range(256)])
                producer.promise("A", start + 31)
            before = time.process_time(), time.perf_counter()
            with Bridge(store, "t", program, every=500) as first:
                while first.turn():
                    pass
                first.snapshot()
            used = time.process_time() - before[0]
            print(f"bridge: {rows} rows, {rows / used:.0f} a second of its processor, "
                  f"{rows / (time.perf_counter() - before[1]):.0f} of the clock")
            begun = time.perf_counter()
            with Bridge(store, "t", program):
                print(f"bridge: begun again in {time.perf_counter() - begun:.2f} s")
    finally:
        server.kill()


def main() -> None:
    """Prints all figures."""
    rows = int(sys.argv[1]) if len(sys.argv) > 1 else ROWS
    program = find_program("cqlrun")
    with tempfile.TemporaryDirectory() as folder:
        replay_and_compaction(Path(folder), rows, program)
        parts(Path(folder), rows, program)
        bridge(Path(folder), rows // 5, program)


if __name__ == "__main__":
    main()
