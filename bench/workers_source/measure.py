"""Measures scripts by cqlrun with and without workers: bench/workers says how.

usage: measure.py [--quick] CQLRUN
"""

import json
import random
import re
import subprocess
import sys
import tempfile
import time
from collections.abc import Iterator
from dataclasses import dataclass
from pathlib import Path
from typing import NamedTuple

WORKERS = (1, 2, 4)
PROCESSES = 4  # at once, for the limit
ROUNDS = 5
DRAINED = 1024  # rows of a stream between two drains
ROWS = 24_576  # of a stream in a script
MIXED = (
    "Select Rstream(k, v) From S0 [Now] Where v > 500",
    "Select Istream(k, v) From S1 [Range 100]",
    "Select Dstream(k, v) From S0 [Rows 100] Where k < 8",
    "Select Istream(k, Count(*), Sum(v)) From S1 [Range 100] Group By k",
    "Select Istream(k, Min(v), Max(v)) From S0 [Range 50] Group By k",
    "Select Istream(Distinct k) From S1 [Range 100]",
    "Select Istream(S0.v, S1.v) From S0 [Range 10], S1 [Now] Where S0.k = S1.k",
    "Select Istream(k, v) From S0 [Range 100 Slide 10]",
    "Select Istream(Count(*)) From S1 [Range 100]",
    "Select Istream(k, Sum(v)) From S0 [Partition By k Rows 4] Group By k",
    "Select Rstream(v) From S1 [Now] Where k = 3",
    "Select Istream(Distinct k, v) From S0 [Range 20]",
    "Select Istream(k, Count(*)) From S1 [Range 200] Where v > 250 Group By k",
    "Select Istream(x.v, y.v) From S0 [Range 5] x, S0 [Now] y Where x.k = y.k",
)
HEAVY = "Select Istream(k, Min(v), Max(v)) From S0 [Range 100] Where v > {least} Group By k"
FILTER = "Select Rstream(k, v) From S{stream} [Now] Where v > {least}"
JOIN = "Select Istream(S0.v, S1.v) From S0 [Range 10], S1 [Range 10] Where S0.k = S1.k"


# What runs under the lock and by itself takes most of its instructions, by the names that callgrind
# shows. None of these calls another. The first is what threads of a drain share among them. Turns
# that are left after a drain query by query are not here: nothing is left in these scripts.
SHARED = r"leases::state::shares::run_jobs"
LOCKED = (SHARED, r"hub::locked::Locked::call", r"leases::state::EngineState::bring_home",
          r"leases::state::EngineState::jobs_to_lend", r"leases::state::EngineState::run_until")


class Script(NamedTuple):
    """A kind of script: its queries, how many streams, and the rows of an instant and a drain."""
    name: str
    queries: tuple[str, ...]
    streams: int
    dense: tuple[int, ...]  # rows of an instant and stream, a line of the table each
    drained: int
    goals: tuple[float, ...]  # of four workers, a number for each of `dense`


SCRIPTS = (
    Script("14 mixed queries", MIXED, 2, (8, 64, 512), DRAINED, (1.8, 1.5, 1.6)),
    Script("8 groups with Min and Max", tuple(HEAVY.format(least=it * 50) for it in range(8)), 1,
           (8, 64, 512), DRAINED, (1.7, 1.6, 1.6)),
    Script("64 filters over 16 streams",
           tuple(FILTER.format(stream=it % 16, least=it * 15) for it in range(64)), 16,
           (8, 64, 512), DRAINED, (2.5, 1.7, 1.5)),
    Script("14 mixed queries, drains of 8 rows", MIXED, 2, (8,), 8, (0.9,)),
    Script("one join", (JOIN,), 2, (8, 64, 512), DRAINED, (0.9, 0.9, 0.9)),
)


@dataclass
class Times:
    """The seconds of a script's runs, by the number of workers, and of processes at once."""
    runs: dict[int, list[float]]
    at_once: list[float]

    def speed(self, workers: int) -> float:
        """Returns how many times as fast it is with so many workers as without."""
        return min(self.runs[0]) / min(self.runs[workers])

    def limit(self) -> float:
        """Returns how many times one process's work four at once do in its time."""
        return PROCESSES * min(self.runs[0]) / min(self.at_once)


def requests(script: Script, dense: int, rows: int) -> Iterator[dict[str, object]]:
    """Yields the requests of a script, with so many rows an instant and in each stream."""
    draw = random.Random(1)
    for stream in range(script.streams):
        yield {"op": "stream", "name": f"S{stream}", "columns": ["k", "v"], "from": 0}
    for number, text in enumerate(script.queries):
        yield {"op": "query", "name": f"q{number}", "text": text}
    for first in range(0, rows, script.drained):
        instants = range(first // dense, max((first + script.drained) // dense, first // dense + 1))
        for stream in range(script.streams):
            come = [[at, draw.randrange(16), draw.randrange(1000)]
                    for at in instants for _ in range(dense)]
            yield {"op": "append", "stream": f"S{stream}", "rows": come}
            yield {"op": "heartbeat", "stream": f"S{stream}", "at": instants[-1]}
        yield {"op": "drain"}
        for number in range(len(script.queries)):
            yield {"op": "take", "query": f"q{number}", "limit": 4_096}


def started(program: str, workers: int, script: Path, replies: Path) -> subprocess.Popen[bytes]:
    """Starts a run, which reads one file and writes another."""
    words = [program] if workers == 0 else [program, f"--workers={workers}"]
    with script.open("rb") as read, replies.open("wb") as written:
        return subprocess.Popen(words, stdin=read, stdout=written)


def ended(runs: list[subprocess.Popen[bytes]]) -> None:
    """Waits for runs, and ends this program if one of them failed."""
    if any([it.wait() for it in runs]):
        sys.exit("bench/workers: cqlrun failed")


def measured(program: str, script: Script, dense: int, rows: int, rounds: int) -> Times:
    """Times one script in each way, and ends this program if the replies of two ways differ."""
    times = Times({workers: [] for workers in (0, *WORKERS)}, [])
    with tempfile.TemporaryDirectory() as name:
        room = Path(name)
        lines = (json.dumps(it, separators=(",", ":")) for it in requests(script, dense, rows))
        (room / "script").write_text("\n".join(lines) + "\n", encoding="utf-8")
        replies = [room / f"replies{place}" for place in range(PROCESSES)]
        expected = b""
        for _ in range(rounds):
            for workers in times.runs:
                began = time.perf_counter()
                ended([started(program, workers, room / "script", replies[0])])
                times.runs[workers].append(time.perf_counter() - began)
                said = replies[0].read_bytes()
                expected = expected or said
                if said != expected:
                    sys.exit(f"bench/workers: {script.name}: --workers {workers} differs")
            began = time.perf_counter()
            ended([started(program, 0, room / "script", it) for it in replies])
            times.at_once.append(time.perf_counter() - began)
    return times


def under_lock(program: str, script: Script, rows: int) -> tuple[float, float]:
    """Counts the instructions under the lock by one worker: their share of all, and the share that
    threads of a drain would have among them."""
    with tempfile.TemporaryDirectory() as name:
        room = Path(name)
        lines = (json.dumps(it) for it in requests(script, script.dense[0], rows))
        (room / "script").write_text("\n".join(lines) + "\n", encoding="utf-8")
        words = ["valgrind", "--tool=callgrind", f"--callgrind-out-file={room}/counts", program,
                 "--workers=1"]
        with (room / "script").open("rb") as read:
            subprocess.run(words, check=True, stdin=read, stdout=subprocess.DEVNULL,
                           stderr=subprocess.DEVNULL)
        said = subprocess.run(["callgrind_annotate", "--inclusive=yes", "--threshold=100",
                               f"{room}/counts"], check=True, stdout=subprocess.PIPE,
                              text=True).stdout

    def count(what: str) -> int:
        found = re.search(rf"^ *([\d,]+) .*{what}\b", said, re.MULTILINE)
        if not found:
            sys.exit(f"bench/workers: {script.name}: callgrind shows no {what}")
        return int(found[1].replace(",", ""))

    whole = count("PROGRAM TOTALS")
    return sum(map(count, LOCKED)) / whole, count(SHARED) / whole


def print_under_lock(program: str, rows: int) -> None:
    """Prints for each script how much of its instructions is under the lock."""
    print("\n| Script | Rows an instant | Under the lock | In jobs that threads share |")
    print("|---|---|---|---|")
    for script in SCRIPTS:
        of_script = rows if script.drained == DRAINED else rows // 8
        locked, shared = under_lock(program, script, of_script)
        print(f"| {script.name} | {script.dense[0]} | {locked:.2f} | {shared:.2f} |", flush=True)


def main() -> int:
    """Prints a table of all scripts, and says which goals are missed. Then prints what is under the
    lock."""
    quick = "--quick" in sys.argv[1:]
    program = sys.argv[-1]
    rounds, part = (1, 8) if quick else (ROUNDS, 1)
    shown = " | ".join(f"{it} workers" for it in WORKERS)
    print(f"| Script | Rows an instant | {shown} | Limit | Goal of 4 | Met |")
    print("|---" * (len(WORKERS) + 5) + "|")
    missed, all_speeds = 0, []
    for script in SCRIPTS:
        for dense, goal in zip(script.dense, script.goals):
            times = measured(program, script, dense, ROWS // part, rounds)
            speeds = [times.speed(it) for it in WORKERS]
            all_speeds.append(speeds)
            is_met = speeds[-1] >= goal
            missed += not is_met
            cells = " | ".join(f"{it:.2f}" for it in [*speeds, times.limit(), goal])
            print(f"| {script.name} | {dense} | {cells} | {'yes' if is_met else '**no**'} |",
                  flush=True)
    least = ", ".join(f"{speed:.2f} by {workers}"
                      for speed, workers in zip(map(min, *all_speeds), WORKERS))
    print(f"\nThe least speed of a line was {least} workers. Only {WORKERS[-1]} have goals.")
    print_under_lock(program, ROWS // part // 4)
    return 1 if missed else 0


sys.exit(main())
