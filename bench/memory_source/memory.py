"""Rows that come and go: the peak of memory of cqlrun after each million. bench/memory says what is
printed."""

import json
import random
import subprocess
import sys

INSTANT_ROWS = 8  # of each instant
INSTANTS = 64  # of an append
MILLION = 1_000_000
MOST = 1.2  # what the peak may grow by after the first million

QUERIES = {
    "groups": "Select Istream(k, Count(*), Sum(v)) From S [Range 1000] Group By k",
    "moving": "Select Rstream(Count(*)) From S [Range 1000 Slide 500]",
    "latest": "Select Istream(k, v) From S [Partition By k Rows 4]",
}


def peak(pid):
    """The peak of the program's memory so far, in KiB."""
    with open(f"/proc/{pid}/status") as status:
        return next(int(line.split()[1]) for line in status if line.startswith("VmHWM:"))


def ask(program, **request):
    """Writes a request and reads its reply."""
    program.stdin.write(json.dumps(request, separators=(",", ":")) + "\n")
    program.stdin.flush()
    reply = json.loads(program.stdout.readline())
    assert reply.get("ok"), f"{request['op']} was answered {reply}"
    return reply


def take_all(program):
    """Takes what waits of each query, and counts it."""
    count = 0
    for name in QUERIES:
        while True:
            rows = len(ask(program, op="take", query=name, limit=4_096)["rows"])
            count += rows
            if rows < 4_096:
                break
    return count


def main():
    millions, path = int(sys.argv[1]), sys.argv[2]
    draw = random.Random(1)
    program = subprocess.Popen([path], stdin=subprocess.PIPE, stdout=subprocess.PIPE, text=True)
    ask(program, op="stream", name="S", columns=["k", "v"], **{"from": 0})
    for name, text in QUERIES.items():
        ask(program, op="query", name=name, text=text)
    rows, answers, at, peaks = 0, 0, 0, []
    while rows < millions * MILLION:
        batch = [[at + i // INSTANT_ROWS, draw.randrange(64), draw.randrange(1_000)]
                 for i in range(INSTANTS * INSTANT_ROWS)]
        at += INSTANTS
        ask(program, op="append", stream="S", rows=batch)
        ask(program, op="heartbeat", stream="S", at=at - 1)
        ask(program, op="drain")
        answers += take_all(program)
        rows += len(batch)
        if rows // MILLION > len(peaks):
            peaks.append(peak(program.pid))
            print(f"{len(peaks)} million rows, {answers} answers: peak {peaks[-1]} KiB", flush=True)
    program.stdin.close()
    assert program.wait() == 0
    growth = peaks[-1] / peaks[0]
    print(f"the last peak is {growth:.2f} times the first, at most {MOST}")
    sys.exit(0 if growth <= MOST else 1)


main()
