"""Measures cqld beside cqlrun and an echo: bench/server builds what it needs and says what runs."""

import argparse
import os
import re
import subprocess
import sys
import time
from pathlib import Path
from typing import NamedTuple

from programs import MeasureError, Program, Timed
from waits import WaitedAppends

CLIENTS = (1, 8, 64)
ROWS = (1, 16, 256)
WORKERS = (1, 2, 4)
MOST_KIB = 3_000_000  # where the curve of memory ends early
FILLING = {16: 40_000, 256: 3_000}  # cycles after which a history was filled, by rows of an append
PARTS = ("cycles", "workers", "takes", "waits", "memory", "instructions")
QUERIES = {
    "filter": "Select Rstream(k, v) From S [Now] Where v > 500",
    "groups": "Select Istream(k, Count(*), Sum(v)) From S [Range 100] Group By k",
    "join": "Select Istream(x.v, y.v) From S [Range 10] x, S [Now] y Where x.k = y.k",
}
LONG_QUERIES = {
    "range": "Select Istream(k, v) From S0 [Range 1000]",
    "groups": "Select Istream(k, Count(*), Sum(v)) From S0 [Range 1000] Group By k",
}
MANY_PAIRS = "Select Istream(x.v, y.v) From S [Now] x, S [Now] y Where x.k = y.k"


class Sizes(NamedTuple):
    """How much is measured."""
    rounds: int
    seconds: float  # of a run at most
    cycles: int  # of a run at most, all clients together
    rows: int  # of a run at most
    takes: int
    step: int  # rows between two looks at the peak
    empty: int  # takes that find nothing
    instants: int  # of a run whose instructions are counted
    waiting: int  # appends of 1,024 rows that wait for a long drain


FULL = Sizes(3, 4.0, 20_000, 1_000_000, 400, 1_000_000, 2_000_000, 2_000, 64)
QUICK = Sizes(1, 0.3, 500, 50_000, 20, 10_000, 3_000, 40, 4)


class Goal(NamedTuple):
    """A line of the table of goals."""
    what: str
    server: str
    beside: str
    ratio: float
    goal: float
    is_least: bool  # whether the ratio has to be at least the goal; else at most
    by_processor: str = ""

    def met(self) -> bool:
        """Whether the goal is met."""
        return self.ratio >= self.goal if self.is_least else self.ratio <= self.goal

    def line(self) -> str:
        """Returns its line of Markdown."""
        bound = "at least" if self.is_least else "at most"
        return row(self.what, self.server, self.beside, f"{self.ratio:.2f}", self.by_processor,
                   f"{bound} {self.goal:g}", "yes" if self.met() else "**no**")


def row(*cells: str | int) -> str:
    """Returns a line of a table."""
    return "| " + " | ".join(map(str, cells)) + " |"


def head(*cells: str) -> str:
    """Returns the first two lines of a table."""
    return row(*cells) + "\n" + "|---" * len(cells) + "|"


def thousands(rate: float) -> str:
    """Returns a rate in thousands a second."""
    return f"{rate / 1000:,.1f}" if rate < 100_000 else f"{rate / 1000:,.0f}"


def micros(seconds: float) -> str:
    """Returns a time in microseconds."""
    return f"{seconds * 1e6:,.0f}"


class Bench:
    """The programs, the sizes, and what was found."""

    def __init__(self, cqlrun: str, cqld: str, work: Path, sizes: Sizes) -> None:
        self.cqlrun, self.cqld, self.work, self.sizes = cqlrun, cqld, work, sizes
        self.load, self.echo = work / "load", work / "echo"
        self.goals: list[Goal] = []

    def add(self, goal: Goal) -> None:
        """Keeps a goal for the table, and says it at once on standard error."""
        self.goals.append(goal)
        print(goal.line(), file=sys.stderr, flush=True)

    def server(self, workers: int, clients: int) -> Program:
        """Starts a cqld."""
        words = [self.cqld, "--port=0", f"--workers={workers}", f"--clients={clients}"]
        return Program(words, True)

    def started(self, name: str, clients: int) -> Program:
        """Starts a program by its name: cqlrun, echo, or cqld by its number of workers."""
        if name == "cqlrun":
            return Program([self.cqlrun], False)
        if name == "echo":
            return Program([str(self.echo)], True)
        return self.server(int(name), clients)

    def least(self, names: list[str], clients: int, rows: int, how: str,
              first: int = 0) -> list[Timed]:
        """Times cycles by each program in turn, and returns the least of each.

        So many first cycles of each client are not timed.
        """
        count = max(2, min(self.sizes.cycles, self.sizes.rows // rows) // clients)
        found: list[list[Timed]] = [[] for _ in names]
        for _ in range(self.sizes.rounds):
            for place, name in enumerate(names):
                more = ["echo"] if name == "echo" else []
                with self.started(name, clients) as program:
                    found[place].append(program.time(
                        self.load, "cycles", "WHERE", clients, rows, first, count,
                        self.sizes.seconds, how, *more))
        return [min(times) for times in found]

    def compare(self, what: str, rows: int, server: Timed, beside: Timed, goal: float) -> None:
        """Adds a goal of rates."""
        self.add(Goal(
            what, thousands(rows / server.seconds), thousands(rows / beside.seconds),
            beside.seconds / server.seconds, goal, True,
            f"{server.processor / max(beside.processor, 1e-9):.2f}"))

    def cycles(self) -> None:
        """Measures cycles by 1, 8 and 64 clients."""
        print("\nThousands of rows a second in bursts of a cycle, then line by line; then p50 and "
              "p99 of a round\ntrip in microseconds. `cqlrun` has the clients' streams and queries "
              "over one pair of pipes.\n")
        print(head("Clients", "Rows", "How", "cqld", "cqlrun", "echo", "cqld p50, p99",
                   "cqlrun p50, p99", "echo p50, p99"))
        for clients in CLIENTS:
            for rows in ROWS:
                for how in ("burst", "turn"):
                    times = self.least(["1", "cqlrun", "echo"], clients, rows, how)
                    rates = [thousands(rows / it.seconds) for it in times]
                    trips = [f"{micros(it.p50)}, {micros(it.p99)}" for it in times]
                    print(row(clients, rows, how, *rates, *trips), flush=True)
                    if clients == 1 and how == "burst" and rows > 1:
                        what = f"rows a second in bursts, one client, appends of {rows}"
                        goal = 0.7 if rows == 16 else 0.85
                        self.compare(what, rows, times[0], times[1], goal)
                        server, beside = self.least(["1", "cqlrun"], 1, rows, how, FILLING[rows])
                        self.compare(f"{what}, once the history was filled", rows, server, beside,
                                     goal)

    def workers(self) -> None:
        """Measures 8 clients with 1, 2 and 4 workers."""
        for how in ("burst", "turn"):
            names = [str(workers) for workers in WORKERS]
            *servers, beside = self.least([*names, "cqlrun"], 8, 256, how)
            for name, server in zip(names, servers):
                manner = "in bursts" if how == "burst" else "line by line"
                self.compare(f"rows a second {manner}, 8 clients, appends of 256, workers: {name}",
                             256, server, beside, 0.6)

    def takes(self) -> None:
        """Measures takes of 1,024 answers, one at a time."""
        found: list[list[Timed]] = [[], []]
        for _ in range(self.sizes.rounds):
            for place, name in enumerate(["1", "cqlrun"]):
                with self.started(name, 1) as program:
                    found[place].append(program.time(self.load, "takes", "WHERE", self.sizes.takes,
                                                     4 * self.sizes.seconds))
        server, beside = (min(times, key=lambda it: it.p50) for times in found)
        self.add(Goal("microseconds of a take of 1,024 answers", micros(server.p50),
                               micros(beside.p50), server.p50 / beside.p50, 1.5, False))

    def waits(self) -> None:
        """Measures how long one client waits for an append of a row while another one drains."""
        print("\nMilliseconds that a client waits for an append of one row, while another client "
              "drains much.\nPairs: 1,024 rows of one key meet each other at one instant.\n")
        print(head("Drain", "Seconds", "Appends meanwhile", "p50", "p99", "Longest"))
        many = [text for text in QUERIES.values() for _ in range(8)]
        rows = [1_024 if self.sizes.rounds > 1 else 128]
        for what, texts, appends in ((f"{len(many)} queries, {self.sizes.waiting} appends", many,
                                      self.sizes.waiting), ("pairs", [MANY_PAIRS], 1)):
            with self.server(1, 2) as server:
                waited = WaitedAppends(server.port, texts, appends, rows[0], what == "pairs")
                seconds, times = waited.measure()
            print(row(what, f"{seconds:.2f}", len(times), *(f"{1e3 * it:.2f}" for it in (
                times[len(times) // 2], times[len(times) * 99 // 100], times[-1]))), flush=True)

    def memory(self) -> None:
        """Measures the peak of memory after each step of rows, and what empty takes leave."""
        step = self.sizes.step
        print(f"\nPeak of `cqld` in MiB after each {step:,} rows, by rows of an append, without a "
              "forget:\n")
        print(head("Query", "Rows", *map(str, range(1, 11))))
        runs = [("filter", rows) for rows in ROWS] + [(name, 256) for name in LONG_QUERIES]
        for name, rows in runs:
            texts = [] if name == "filter" else [LONG_QUERIES[name]]
            with self.server(1, 1) as server:
                said = server.play(self.load, "curve", "WHERE", server.process.pid, rows, step, 10,
                                   MOST_KIB, *texts)
            peaks = said.numbers("peak")
            print(row(name, rows, *(f"{peak / 1024:.1f}" for peak in peaks),
                      *[""] * (10 - len(peaks))), flush=True)
            stopped = said.text("stopped")
            if stopped:
                at, _, why = stopped.partition(" ")
                print(f"\nStopped after {int(at):,} rows: {why}\n", flush=True)
            first, last = (peaks[0], peaks[-1]) if peaks else (1.0, float("inf"))
            ratio = float("inf") if stopped else last / first
            self.add(Goal(f"peak after ten times {step:,} rows, {name}, appends of {rows}, KiB",
                                   f"{last:,.0f}", f"{first:,.0f} after the first", ratio, 1.2,
                                   False))
        with self.server(1, 1) as server:
            stay = server.play(self.load, "empty", "WHERE", server.process.pid, self.sizes.empty)
        self.add(Goal("bytes that stay for an empty take (none: below 1)",
                               f"{stay.number('bytes'):.1f}", "", stay.number("bytes"), 1, False))

    def instructions(self) -> None:
        """Counts the instructions of cqlrun with one worker and with none."""
        for name, text in QUERIES.items():
            few = self.script(name, text, self.sizes.instants // 10)
            many = self.script(name, text, self.sizes.instants)
            one = self.counted(["--workers=1"], many) - self.counted(["--workers=1"], few)
            none = self.counted([], many) - self.counted([], few)
            self.add(Goal(f"millions of instructions of cqlrun --workers 1, {name}",
                                   f"{one / 1e6:,.1f}", f"{none / 1e6:,.1f} with none",
                                   one / none, 1.2, False))

    def script(self, name: str, text: str, instants: int) -> Path:
        """Writes appends of 8 rows an instant, 64 instants each."""
        lines = ['{"op":"stream","name":"S","columns":["k","v"],"from":0}',
                 f'{{"op":"query","name":"q","text":"{text}"}}']
        for first in range(0, instants, 64):
            last = min(first + 64, instants)
            rows = ",".join(f"[{at},{(8 * at + i) * 7 % 64},{(8 * at + i) * 389 % 2000 - 1000}]"
                            for at in range(first, last) for i in range(8))
            lines += [f'{{"op":"append","stream":"S","rows":[{rows}]}}',
                      f'{{"op":"heartbeat","stream":"S","at":{last - 1}}}', '{"op":"drain"}',
                      '{"op":"take","query":"q","limit":4096}']
        path = self.work / f"{name}.{instants}"
        path.write_text("\n".join(lines) + "\n")
        return path

    def counted(self, words: list[str], script: Path) -> int:
        """Returns the instructions of a run."""
        counts = self.work / "counts"
        tool = ["valgrind", "--tool=callgrind", f"--callgrind-out-file={counts}"]
        with script.open() as source:
            done = subprocess.run([*tool, self.cqlrun, *words], stdin=source, capture_output=True,
                                  text=True)
        if done.returncode != 0 or '"error"' in done.stdout:
            raise MeasureError(f"cqlrun {' '.join(words)} under valgrind: {done.stderr[-300:]}")
        found = re.search(r"^(?:totals|summary): (\d+)", counts.read_text(), re.M)
        if found is None:
            raise MeasureError("valgrind counted nothing")
        return int(found[1])


def version(program: str) -> str:
    """Returns what a program says of its version, or its name."""
    done = subprocess.run([program, "--version"], capture_output=True, text=True)
    return done.stdout.strip() if done.returncode == 0 else Path(program).name


def main() -> int:
    words = argparse.ArgumentParser()
    words.add_argument("--quick", action="store_true")
    words.add_argument("--part", action="append", choices=PARTS, default=[])
    for name in ("cqlrun", "cqld", "work"):
        words.add_argument(name)
    given = words.parse_args()
    bench = Bench(given.cqlrun, given.cqld, Path(given.work), QUICK if given.quick else FULL)
    begun, load = time.time(), os.getloadavg()
    print(f"{time.strftime('%Y-%m-%d %H:%M')}, {os.cpu_count()} processors, load average "
          f"{load[0]:.1f} at the start, {version(given.cqlrun)}, {version(given.cqld)}"
          f"{', short runs that try the script' if given.quick else ''}", flush=True)
    parts = (bench.cycles, bench.workers, bench.takes, bench.waits, bench.memory,
             bench.instructions)
    for name, part in zip(PARTS, parts):
        if name in (given.part or PARTS):
            part()
    print("\nGoals. *Processor* is cqld's processor time over cqlrun's, for the same rows.\n")
    print(head("What", "cqld", "cqlrun", "Ratio", "Processor", "Goal", "Met"))
    for goal in bench.goals:
        print(goal.line())
    used = os.times()
    print(f"\n{time.time() - begun:.0f} seconds, of the processor "
          f"{used.children_user + used.children_system:.0f}; load average "
          f"{os.getloadavg()[0]:.1f} at the end")
    return 0 if all(goal.met() for goal in bench.goals) else 1


if __name__ == "__main__":
    sys.exit(main())
