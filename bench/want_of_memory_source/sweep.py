"""Runs each script with the first growth refused, then with the second, and so on until a run meets
no refusal. Does so once more with several growths in a row, as many as a drain tries."""

import json
import os
import subprocess
import sys
from collections import Counter, defaultdict
from concurrent.futures import ThreadPoolExecutor

SEPARATOR = "\x1e\n"
IN_A_ROW = (1, 8)  # growths that are refused; the second outlasts all tries of a drain
BROKEN = {"error": "E15 Broken"}


def ran(program, script, refuse, number, count):
    """The replies, or None where the run ended before the first; whether a growth was refused; and
    whether a drain ran out of memory before its first turn took anything, and left all as it
    was."""
    environment = {**os.environ, "LD_PRELOAD": refuse, "REFUSE_AT": str(number),
                   "REFUSE_COUNT": str(count)}
    run = subprocess.run([program], input=script, env=environment, capture_output=True, text=True,
                         timeout=60)
    was_refused, has_spared = "refused\n" in run.stderr, "spared\n" in run.stderr
    if run.returncode != 0 and run.stdout == "":
        return None, was_refused, has_spared
    assert run.returncode == 0, f"status {run.returncode}: {run.stdout[-200:]}"
    return [json.loads(line) for line in run.stdout.splitlines()], was_refused, has_spared


def broken_query(requests, wanted, replies):
    """The query that is broken and how many answers it gave, or None where none was asked again."""
    assert len(replies) == len(wanted), "replies are missing"
    broken, differ, all_rows, rows = set(), set(), defaultdict(list), defaultdict(list)
    for request, want, reply in zip(requests, wanted, replies):
        if request["op"] != "take" or "error" in want:
            assert reply == want, f"{request} is answered {reply}"
            continue
        name = request["query"]
        if reply != want:
            differ.add(name)
        if reply == BROKEN:
            broken.add(name)
            continue
        assert name not in broken, f"{name} is broken and hands out {reply}"
        all_rows[name] += want["rows"]
        rows[name] += reply["rows"]
    for name in differ:
        assert rows[name] == all_rows[name][: len(rows[name])], f"{name} hands out {rows[name]}"
    assert len(broken | differ) <= 1, f"{broken | differ} are broken"
    return next(((name, len(rows[name])) for name in broken), None)


def runs(program, refuse, script, count):
    """The replies of each run, from the first growth refused to the run that meets no refusal,
    some at a time. So many growths in a row are refused."""
    number = 1
    with ThreadPoolExecutor(os.cpu_count()) as pool:
        while True:
            some = range(number, number + 16 * os.cpu_count())
            for replies, was_refused, has_spared in pool.map(
                    lambda it: ran(program, script, refuse, it, count), some):
                yield replies, was_refused, has_spared
                if not was_refused:
                    return
            number = some.stop


def sweep(program, refuse, script, wanted, count):
    """The runs in which growths were refused, those at the start, those before the first turn of a
    drain, which break nothing, and which queries were broken after how many answers, by turns and
    by drains. So many growths in a row are refused."""
    requests = [json.loads(line) for line in script.splitlines()]
    refused, at_start, spared, ends = 0, 0, 0, [Counter(), Counter()]
    for replies, was_refused, has_spared in runs(program, refuse, script, count):
        if not was_refused:
            assert replies == wanted * 2
            continue
        refused += 1
        if has_spared:
            assert replies == wanted * 2, (
                f"growth {refused}: a drain that took nothing broke a query")
            spared += 1
            continue
        if replies is None:
            at_start += 1
            continue
        assert len(replies) == 2 * len(wanted), f"growth {refused}: {len(replies)} replies"
        for way, part in enumerate((replies[: len(wanted)], replies[len(wanted) :])):
            if end := broken_query(requests, wanted, part):
                ends[way][end] += 1
    return refused, at_start, spared, ends


def sweep_all(program, refuse, scripts, replies, count):
    """Sweeps all scripts and prints what came of each. Returns how many runs refused a drain before
    its first turn, and which queries broke, by turns and by drains."""
    first, all_spared, seen = 0, 0, [Counter(), Counter()]
    for script in scripts:
        lines = len(script.splitlines())
        wanted, first = replies[first : first + lines], first + lines
        refused, at_start, spared, (by_turns, by_drains) = sweep(
            program, refuse, script, wanted, count)
        all_spared, seen = all_spared + spared, [seen[0] + by_turns, seen[1] + by_drains]
        print(f"{lines} requests: {count} in a row refused {refused} times, "
              f"{at_start} of them at the start, {spared} before a drain's first turn")
        for way, ends in ("turns", by_turns), ("drains", by_drains):
            told = ", ".join(f"{name} after {rows} answers: {times}"
                             for (name, rows), times in sorted(ends.items()))
            print(f"  by {way}, broken {told or 'none'}", flush=True)
    return all_spared, seen


def main(program, refuse, stdin, stdout):
    with open(stdin) as file:
        scripts = file.read().split(SEPARATOR)
    with open(stdout) as file:
        replies = [json.loads(line) for line in file]
    for count in IN_A_ROW:
        spared, (by_turns, by_drains) = sweep_all(program, refuse, scripts, replies, count)
        if count == 1:
            assert not spared, "a drain ended though one growth alone was refused"
            assert ("p", 3) in by_turns, "no finish broke p behind its first three answers"
        else:
            assert spared, "each drain that ran out of memory ran turns"
        assert not by_drains, f"drains broke {by_drains}"


if __name__ == "__main__":
    main(*sys.argv[1:])
