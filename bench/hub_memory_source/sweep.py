"""Runs scripts over a hub, each growth refused in turn: bench/hub_memory says what has to hold.

usage: sweep.py STEP CQLRUN CQLD REFUSE THREADS
"""

import json
import os
import socket
import subprocess
import sys
from collections import Counter
from collections.abc import Callable
from concurrent.futures import ThreadPoolExecutor

from answers import Comparison, Json, all_answers, lines, plain
from large import large
from threads import compare_threads

WANT = {"error": "E20 OutOfMemory"}
BLOCK = 64  # growths that are tried side by side
FEWER = 4  # of the growths of the large script only each of so many is refused
EXAMPLES = "first", "two_streams", "looks", "forgetting"


def refusing(refuse: str, number: int) -> dict[str, str]:
    """Returns the environment in which the growth of this number is refused."""
    return {**os.environ, "LD_PRELOAD": refuse, "REFUSE_AT": str(number)}


def twice(requests: list[Json]) -> list[Json]:
    """Returns each request and then the same once more: one that ran out of memory is made
    again."""
    return [request for request in requests for _ in range(2)]


# ---- cqlrun, by a pool


def check(program: str, words: list[str], requests: list[Json], refuse: str, number: int) -> str:
    """Returns what a run with this growth refused came to.

    Nothing was refused, it ended at the start, or a call ran out of memory.
    """
    run = subprocess.run([program, *words], input=lines(requests), capture_output=True, text=True,
                         env=refusing(refuse, number), timeout=60)
    replies = [json.loads(line) for line in run.stdout.splitlines()]
    if "refused\n" not in run.stderr:
        return "all"
    if run.returncode == 3:
        assert replies == [], f"status 3 after {len(replies)} replies"
        return "at the start"
    assert run.returncode == 0 and len(replies) == len(requests), (
        f"status {run.returncode}, {len(replies)} replies")
    told = [place for place, reply in enumerate(replies) if reply == WANT]
    assert len(told) <= 1, f"{len(told)} requests ran out of memory"
    if not told:
        # a growth that could be done without: of a map that has room, of a thread that others
        # stand in for, or of what the hub does by itself
        assert replies == plain(program, requests), "no request ran out, and the replies differ"
        return "done without"
    place = told[0]
    if requests[place]["op"] == "drain":
        return compare_drain(program, requests, replies, place)
    wanted = plain(program, requests[:place] + requests[place + 1:])
    found = replies[:place] + replies[place + 1:]
    assert found == wanted, f"after request {place}, {requests[place]}, the replies differ"
    return str(requests[place]["op"])


def compare_drain(program: str, requests: list[Json], replies: list[Json], place: int) -> str:
    """Compares a run in which a drain ran out of memory.

    It keeps what it finished and breaks no query, as docs/faults.md says.
    """
    wanted = plain(program, requests)
    assert replies[:place] == wanted[:place], (
        f"before request {place}, {requests[place]}, the replies differ")
    run = Comparison(all_answers(program, requests))
    for at, (request, reply, want) in enumerate(zip(requests, replies, wanted, strict=True)):
        if at != place:
            run.follow(request, reply, want)
    assert not run.broken, f"a drain broke {len(run.broken)} queries"
    return "drain"


# ---- cqld, by one connection


def asked(port: int, script: str) -> list[Json]:
    """Returns all that a server answers to a script.

    One that ends meanwhile, or ends the connection, may have answered less.
    """
    answered = b""
    try:
        with socket.create_connection(("127.0.0.1", port), 60) as connection:
            connection.sendall(script.encode())
            connection.shutdown(socket.SHUT_WR)
            while more := connection.recv(65_536):
                answered += more
    except TimeoutError:
        raise
    except OSError:
        pass
    return [json.loads(line) for line in answered.decode().splitlines()]


def served(program: str, words: list[str], requests: list[Json], refuse: str,
           number: int) -> tuple[int, list[Json], bool, str]:
    """Returns the status and the replies of a server of one connection, whether a growth was
    refused, and what it said of errors."""
    command = [program, "--port=0", "--workers=1", "--clients=1", "--serve=1", *words]
    pipe = subprocess.PIPE
    with subprocess.Popen(command, env=refusing(refuse, number), stdout=pipe, stderr=pipe,
                          text=True) as server:
        try:
            assert server.stdout is not None
            line, replies = server.stdout.readline(), []
            if line.startswith("cqld: listening on 127.0.0.1:"):
                replies = asked(int(line.rsplit(":", 1)[1]), lines(requests))
            _, errors = server.communicate(timeout=60)
        except BaseException:
            server.kill()
            raise
    return server.returncode, replies, "refused\n" in errors, errors.replace("refused\n", "")


def check_served(program: str, plain_program: str, words: list[str], requests: list[Json],
                 refuse: str, number: int) -> str:
    """Returns the same of a connection. A worker runs turns beside the client, so a take may hand
    out fewer rows, and a later one more.

    The growth that is refused may be a worker's. Then no reply tells it, and a query may be broken.
    """
    status, replies, was_refused, errors = served(program, words, requests, refuse, number)
    if was_refused and status == 3:
        assert replies == [], f"status 3 after {len(replies)} replies"
        return "at the start"
    assert (status, errors) == (0, ""), f"status {status}, {errors}"
    if was_refused and not replies:
        return "at the connection's start"
    assert len(replies) == len(requests), f"{len(replies)} replies"
    told = [place for place, reply in enumerate(replies) if reply == WANT]
    assert len(told) <= was_refused, f"{len(told)} requests ran out of memory"
    made = [request for place, request in enumerate(requests) if place not in told]
    found = [reply for place, reply in enumerate(replies) if place not in told]
    run = Comparison(all_answers(plain_program, made))
    for request, reply, want in zip(made, found, plain(plain_program, made), strict=True):
        run.follow(request, reply, want)
    assert was_refused or not run.broken, f"{len(run.broken)} queries are broken"
    if told:
        return str(requests[told[0]]["op"])
    return "told by no reply" if was_refused else "all"


# ---- sweeps


def example(name: str) -> list[Json]:
    """Returns the requests of an example."""
    with open(f"examples/{name}.jsonl", encoding="utf-8") as file:
        return [json.loads(line) for line in file if line.strip()]


def sweep(name: str, step: int, script: list[Json],
          check_one: Callable[[list[Json], int], str]) -> None:
    """Refuses one growth after the other, until none is refused in a whole block of runs."""
    requests = twice(script)
    counts: Counter[str] = Counter()
    first, is_done = 1, False

    def outcome(number: int) -> str:
        try:
            return check_one(requests, number)
        except Exception as error:
            raise AssertionError(f"{name}, growth {number}: {error}") from error

    with ThreadPoolExecutor(os.cpu_count()) as pool:
        while not is_done:
            block = list(pool.map(outcome, range(first, first + step * BLOCK, step)))
            counts.update(block)
            is_done = set(block) == {"all"}
            first += step * BLOCK
    del counts["all"]
    told = ", ".join(f"{outcome}: {times}" for outcome, times in sorted(counts.items()))
    assert counts, f"{name}: nothing was refused"
    print(f"{name}: {sum(counts.values())} growths refused in turn; {told}", flush=True)


def main(step: int, cqlrun: str, cqld: str, refuse: str, threads: str) -> None:
    """Tries the starts of threads, and then the growths."""
    compare_threads(cqlrun, threads)
    scripts = {name: example(name) for name in EXAMPLES}
    scripts["large"] = large(1)
    runs = [("first", 1, ""), ("two_streams", 1, ""), ("two_streams", 2, ""),
            ("looks", 1, ""), ("forgetting", 1, ""), ("large", 2, ""),
            *((name, 1, "--forget=1") for name in ("two_streams", "looks", "forgetting"))]
    for name, workers, forget in runs:
        words = [f"--workers={workers}", *filter(None, [forget])]
        each = step * FEWER if name == "large" else step
        sweep(f"{name} by cqlrun {' '.join(words)}", each, scripts[name],
              lambda requests, number: check(cqlrun, words, requests, refuse, number))
    for name, forget in [("two_streams", ""), ("looks", ""), ("two_streams", "--forget=1"),
                         ("looks", "--forget=1"), ("forgetting", "--forget=1")]:
        words = [*filter(None, [forget])]
        sweep(" ".join([name, "by cqld", *words]), step, scripts[name],
              lambda requests, number: check_served(cqld, cqlrun, words, requests, refuse, number))


main(int(sys.argv[1]), *sys.argv[2:])
