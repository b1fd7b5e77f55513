"""Runs the program of bench/hub, and prints ratios."""

import os
import subprocess
import sys

THREADS = (1, 2, 4, 8)
TIMES = 7


def least(program, case, threads):
    """The calls or turns of a case, and by number of threads the nanoseconds of the quickest of
    TIMES runs, which go by turns."""
    counts, quickest = set(), {}
    for _ in range(TIMES):
        for number in threads:
            done = subprocess.run([program, case, str(number)], capture_output=True, text=True,
                                  check=True)
            count, nanoseconds = map(int, done.stdout.split())
            counts.add(count)
            quickest[number] = min(quickest.get(number, nanoseconds), nanoseconds)
    assert len(counts - {0}) == 1, f"{case}: {counts}"
    return max(counts), [quickest[number] for number in threads]


def rates(program):
    """Calls and turns a second, beside one thread on an engine."""
    print(f"{'a second':<10} {'engine':>12} " + " ".join(f"{f'{n} threads':>12}" for n in THREADS))
    for case in ("appends", "takes", "turns"):
        count, (alone, *shared) = least(program, case, (0, *THREADS))
        print(f"{case:<10} {count / alone * 1e9:>12.0f} "
              + " ".join(f"{count / each * 1e9:>12.0f}" for each in shared))
        print(f"{'':<10} {'':>12} " + " ".join(f"{alone / each:>12.2f}" for each in shared),
              flush=True)


def lock(program):
    """What a turn costs by a pool of one thread beside the engine alone."""
    print(f"\n{'rows an instant':<16} {'turns':>8} {'engine':>10} {'pool of 1':>10} {'ratio':>6} "
          f"{'lock':>8}   nanoseconds a turn")
    for rows in (1, 8, 256, 1_024):
        turns, (alone, pool) = least(program, f"rows{rows}", (0, 1))
        print(f"{rows:<16} {turns:>8} {alone / turns:>10.0f} {pool / turns:>10.0f} "
              f"{pool / alone:>6.2f} {(pool - alone) / turns:>8.0f}", flush=True)


def heavy(program):
    """Drains of eight heavy queries, by more and more workers."""
    print(f"\n{'heavy':<10} {'turns':>8} {'engine, ms':>12} "
          + " ".join(f"{f'{n} workers':>12}" for n in THREADS))
    for case in ("joins", "groups"):
        turns, (alone, *shared) = least(program, case, (0, *THREADS))
        print(f"{case:<10} {turns:>8} {alone / 1e6:>12.1f} "
              + " ".join(f"{each / 1e6:>12.1f}" for each in shared))
        print(f"{'':<10} {'':>8} {'':>12} " + " ".join(f"{alone / each:>12.2f}" for each in shared),
              flush=True)


def main(program):
    busy = os.getloadavg()[0]
    print(f"{os.cpu_count()} processors, of which others kept {busy:.1f} busy in the minute before")
    print("a ratio above 1 is quicker than one thread on an engine\n")
    rates(program)
    lock(program)
    heavy(program)


main(sys.argv[1])
