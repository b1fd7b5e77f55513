"""Refuses the starts of threads of a drain: bench/hub_memory says what has to hold."""

import os
import subprocess

from answers import lines, plain_text
from large import large

DRAINS = 4


def ran(program: str, workers: int, script: str, preload: str, **more: str) -> tuple[str, int, int]:
    """Returns the replies of a run, and how many threads were started and refused."""
    run = subprocess.run([program, f"--workers={workers}"], input=script, capture_output=True,
                         text=True, timeout=60, env={**os.environ, "LD_PRELOAD": preload, **more})
    assert run.returncode == 0, f"{workers} workers: status {run.returncode}: {run.stderr}"
    said = run.stderr.splitlines()
    assert set(said) <= {"started", "refused"}, run.stderr
    return run.stdout, said.count("started"), said.count("refused")


def compare_threads(program: str, preload: str) -> None:
    """Runs a script with threads, without any, and without one of them in turn."""
    script = lines(large(DRAINS))
    wanted = plain_text(program, script)
    for workers in (2, 4):
        replies, starts, _ = ran(program, workers, script, preload)
        assert replies == wanted, f"{workers} workers: the replies differ"
        assert starts >= DRAINS, f"{workers} workers: {DRAINS} drains started {starts} threads"
        replies, started, refused = ran(program, workers, script, preload, REFUSE_THREAD="0")
        assert replies == wanted, f"{workers} workers: the replies without threads differ"
        assert started == 0 and refused > 0, f"{started} threads started, {refused} refused"
        for number in range(1, starts + 1):
            replies, _, refused = ran(program, workers, script, preload, REFUSE_THREAD=str(number))
            assert refused == 1, f"{workers} workers: start {number} was not refused"
            assert replies == wanted, f"{workers} workers, start {number}: the replies differ"
        print(f"cqlrun --workers {workers}: {DRAINS} drains started {starts} threads; the replies "
              "were the same with all of them refused, and with each in turn", flush=True)
