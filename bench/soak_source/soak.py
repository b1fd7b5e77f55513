"""Many clients of one cqld, each query beside a plain engine. bench/soak says what is compared."""

import json
import os
import random
import socket
import subprocess
import sys
import threading
import time
from pathlib import Path
from typing import Any, NamedTuple

from server import Server

CLIENTS = 63  # with the one that forgets as many as there may be seats
WORKERS = 4
TAKE = 4_096
DONE = {"ok": True}
TOO_MANY = {"error": "E18 TooManyLeases"}  # as many turns are out as may be
PAUSE = 0.05  # seconds between two times that rows are forgotten
OFTEN = 131_072  # values, 1 MiB of them, after which a server forgets by itself
PATIENCE = 60.0  # seconds for which nothing of a query may change while it is not complete
NAPS = 0.001, 0.05  # seconds between two looks at the status: the first ones, and the last
SAMPLES = 200  # looks at the server's memory
WARM = 60.0  # seconds that the first long queries take to fill
FLAT = 1.2  # times the first tenth's memory that the last tenth may have
DROPPED = 3_000  # bytes that stay of a dropped query, in the engine and in the last opening
PLAIN = threading.Semaphore(os.cpu_count() or 1)  # plain engines at a time

Json = dict[str, Any]
Row = list[int | None]

TEXTS = [
    "Select Istream(*) From {s} [Now]",
    "Select Istream(k, v) From {s} [Range 3] Where v > 2",
    "Select Dstream(k) From {s} [Range 2]",
    "Select Rstream(*) From {s} [Partition By k Rows 1]",
    "Select Rstream(k, Count(*), Sum(v)) From {s} [Range 4] Group By k",
    "Select Istream(k, Min(v), Max(v)) From {s} [Rows 5] Group By k",
    "Rstream(Select Count(*), Sum(v) From {s} [Now])",
    "Select Istream(Distinct k) From {s} [Range 2]",
    "Select Istream(x.k, y.v) From {s} [Range 2] x, {s} [Now] y Where x.k = y.k",
    "Select Rstream(x.v, y.v) From {s} [Rows 3] x, {s} [Range 1] y Where x.k = y.k And x.v > 0",
]

BAD_TEXTS = [
    "Select * From {s}",
    "Select Istream(z) From {s} [Now]",
    "Select Istream(k) From {s} [Range -1]",
    "Select Istream(x.k) From {s} x, {s} y",
]


class Sample(NamedTuple):
    """A look at the server's memory."""
    kib: int  # resident
    queries: int  # that were registered and dropped by then


class Step(NamedTuple):
    """A request whose reply a plain engine gives alike."""
    request: Json
    reply: Json


class WrongError(Exception):
    """The server answered what it may not."""


def how_wrong(rows: list[Row], right: list[Row]) -> str:
    """Says how answers differ from the right ones."""
    if rows == right:
        return f"all {len(right)} answers"
    if rows == right[:len(rows)]:
        return f"a prefix: {len(rows)} of {len(right)} answers"
    at = next(i for i, row in enumerate(rows) if i >= len(right) or row != right[i])
    right_one = right[at] if at < len(right) else "nothing"
    return f"no prefix: answer {at} of {len(rows)} is {rows[at]}, and {right_one} is right"


class Line:
    """A connection, one request at a time."""

    def __init__(self, port: int) -> None:
        self.connection = socket.create_connection(("127.0.0.1", port))
        self.connection.setsockopt(socket.IPPROTO_TCP, socket.TCP_NODELAY, 1)
        self.lines = self.connection.makefile("rb")
        self.fault = ""

    def ask(self, **request: Any) -> Json:
        """Sends a request and returns its reply."""
        self.connection.sendall(json.dumps(request, separators=(",", ":")).encode() + b"\n")
        reply: Json = json.loads(self.lines.readline())
        return reply

    def run(self, until: float) -> None:
        """Works until then, and closes. A fault ends it."""
        try:
            self.work(until)
        except Exception as error:
            self.fault = f"{type(error).__name__}: {error}"
            print(f"a fault: {self.fault}", flush=True)
        finally:
            self.lines.close()
            self.connection.close()

    def work(self, until: float) -> None:
        """Does what this client is for."""
        raise NotImplementedError


class Client(Line):
    """A client with a stream and a query of its own at a time."""

    def __init__(self, number: int, port: int, seed: str, cqlrun: str) -> None:
        super().__init__(port)
        self.number, self.cqlrun = number, cqlrun
        self.stream = f"S{number}"
        self.draw = random.Random(f"{seed} {number}")
        self.closed = -1
        self.appended = 0  # rows
        self.open_rows: list[Row] = []  # accepted, and above what is closed
        self.steps: list[Step] = []  # of this life
        self.rows: list[Row] = []  # that were taken in this life
        self.base = self.upto = -1  # of this life's query
        self.asked = self.lives = self.answers = self.refused = self.looks = 0
        self.longest = 0.0  # seconds until a query was complete
        self.until = 0.0  # when to end

    def tell(self, **request: Any) -> Json:
        """Asks what a plain engine answers alike, whatever was drained and taken."""
        reply = self.ask(**request)
        self.asked += 1
        self.steps.append(Step(request, reply))
        return reply

    def some_rows(self) -> list[Row]:
        """Returns some rows above what is closed, now and then a bad one."""
        rows: list[Row] = []
        for _ in range(self.draw.randrange(9)):
            value = self.draw.choice([None, 0, 1, 2, 3, 4, 5])
            at = self.closed + 1 + self.draw.randrange(4)
            rows.append([at, self.draw.randrange(4), value])
        if rows and self.draw.randrange(20) == 0:
            bad = self.draw.choice(rows)
            bad[0:] = self.draw.choice([[self.closed, 1, 1], bad[:2], [bad[0], 2**50, 0]])
        return rows

    def drain(self) -> None:
        """Drains. It may find 64 turns out."""
        reply = self.ask(op="drain")
        self.asked += 1
        if reply == TOO_MANY:
            self.refused += 1
        elif reply != DONE:
            raise WrongError(f"a drain was answered {reply}")

    def shown(self, op: str, name: str, limit: int) -> list[Row]:
        """Takes or peeks, and returns the answers that came."""
        reply = self.ask(op=op, query=name, limit=limit)
        self.asked += 1
        rows: list[Row] = reply.get("rows", [])
        if ("rows" not in reply or len(rows) > limit
                or any((row[0] or 0) > self.closed for row in rows)):
            raise WrongError(f"a {op} of {limit} up to {self.closed} was answered {reply}")
        return rows

    def take(self, name: str, limit: int) -> int:
        """Takes, and returns how many answers came."""
        rows = self.shown("take", name, limit)
        self.rows += rows
        return len(rows)

    def peek(self, name: str, limit: int) -> None:
        """Peeks, and takes at once: what was seen comes first."""
        seen = self.shown("peek", name, limit)
        taken = self.shown("take", name, limit)
        self.rows += taken
        if seen != taken[:len(seen)]:
            raise WrongError(f"a peek showed {seen}, and the take after it {taken}")

    def look(self, name: str) -> Json:
        """Asks for the status, compares what is known of it, and returns the query's."""
        reply = self.ask(op="status")
        self.asked += 1
        self.looks += 1
        if reply.get("ok") is not True:
            raise WrongError(f"a status was answered {reply}")
        stream = next(it for it in reply["streams"] if it["name"] == self.stream)
        right = {"closed": self.closed, "columns": ["k", "v"], "name": self.stream,
                 "rows": self.appended}
        if stream != right:
            raise WrongError(f"a status shows {stream}, and {right} is right")
        query: Json = next(it for it in reply["queries"] if it["name"] == name)
        if ((query["base"], query["taken"]) != (self.base, len(self.rows))
                or not self.upto <= query["upto"] <= self.closed):
            raise WrongError(f"a status shows {query}, after base {self.base}, upto {self.upto}, "
                             f"closed {self.closed} and {len(self.rows)} answers taken")
        self.upto = query["upto"]
        return query

    def live(self) -> None:
        """Registers a query, works, and drops it once all of its closed answers were taken."""
        name = f"q{self.number}x{self.lives}"
        declared = {"op": "stream", "name": self.stream, "columns": ["k", "v"],
                    "from": self.closed + 1}
        self.rows, self.steps = [], [Step(declared, DONE)]
        self.base = self.upto = self.closed
        if self.open_rows:
            before = {"op": "append", "stream": self.stream, "rows": list(self.open_rows)}
            self.steps.append(Step(before, DONE))
        if self.draw.randrange(3) == 0:
            bad = self.draw.choice(BAD_TEXTS).format(s=self.stream)
            if "error" not in self.tell(op="query", name=name, text=bad):
                raise WrongError(f"{bad} was accepted")
        text = self.draw.choice(TEXTS).format(s=self.stream)
        self.tell(op="query", name=name, text=text)
        # a short life or a long one
        for _ in range(self.draw.randrange(*self.draw.choice([(4, 16), (40, 120)]))):
            if time.monotonic() > self.until:
                break
            self.feed()
            choice = self.draw.randrange(8)
            if choice < 2:
                self.drain()
            if choice < 4:
                self.take(name, self.draw.choice([1, 7, TAKE]))
            elif choice == 4:
                self.peek(name, self.draw.choice([1, 7, TAKE]))
            elif choice == 5:
                self.look(name)
            if self.draw.randrange(10) == 0:
                self.tell(op=self.draw.choice(["take", "peek"]), query="nothing", limit=1)
        query = self.waited_for(name)
        count = len(self.rows) + int(query["waiting"])
        while self.take(name, TAKE) > 0:
            pass
        right = self.right(name)
        if query["upto"] < self.closed or len(self.rows) != count or self.rows != right:
            raise WrongError(f"client {self.number}: {text}: {how_wrong(self.rows, right)}; the "
                             f"status showed {count} answers, complete up to {query['upto']} of "
                             f"{self.closed}")
        if self.ask(op="drop", query=name) != DONE:
            raise WrongError("a drop was refused")
        self.lives += 1
        self.answers += len(self.rows)

    def feed(self) -> None:
        """Appends some rows, and closes some instants."""
        rows = self.some_rows()
        if "ok" in self.tell(op="append", stream=self.stream, rows=rows):
            self.open_rows += rows
            self.appended += len(rows)
        at = self.closed + self.draw.randrange(3)
        if "ok" in self.tell(op="heartbeat", stream=self.stream, at=at):
            self.closed = at
            self.open_rows = [row for row in self.open_rows if (row[0] or 0) > at]

    def waited_for(self, name: str) -> Json:
        """Waits until the query is complete up to what is closed, and returns its status.

        The server's workers do the work: this client does not drain any more. It gives up if
        nothing of the query changes for long. A turn that stays away for good shows so.
        """
        begun = changed = time.monotonic()
        nap, before = NAPS[0], None
        while (query := self.look(name))["upto"] < self.closed:
            now, numbers = time.monotonic(), (query["upto"], query["waiting"])
            if numbers != before:
                before, changed, nap = numbers, now, NAPS[0]
            if now - changed > PATIENCE:
                break
            time.sleep(nap)
            nap = min(2 * nap, NAPS[1])
        self.longest = max(self.longest, time.monotonic() - begun)
        return query

    def right(self, name: str) -> list[Row]:
        """Returns the right answers, and compares all other replies."""
        takes = 1 + len(self.rows) // TAKE
        script = [step.request for step in self.steps] + [{"op": "drain"}]
        count = len(script)
        while True:
            lines = script + [{"op": "take", "query": name, "limit": TAKE}] * takes
            text = "".join(json.dumps(it, separators=(",", ":")) + "\n" for it in lines)
            with PLAIN:
                done = subprocess.run([self.cqlrun, "--plain"], input=text, capture_output=True,
                                      text=True)
            replies: list[Json] = [json.loads(line) for line in done.stdout.splitlines()]
            if done.returncode != 0 or len(replies) != len(lines):
                raise WrongError(f"cqlrun ended with {done.returncode}")
            if len(replies[-1]["rows"]) < TAKE:
                break
            takes *= 2
        for step, reply in zip(self.steps, replies):
            if step.reply != reply:
                raise WrongError(f"client {self.number}: {step.request} was answered {step.reply}, "
                                 f"and {reply} is right")
        return [row for reply in replies[count:] for row in reply["rows"]]

    def work(self, until: float) -> None:
        declared = self.ask(op="stream", name=self.stream, columns=["k", "v"], **{"from": 0})
        if declared != DONE:
            raise WrongError(f"a stream was answered {declared}")
        self.until = until
        while time.monotonic() < until:
            self.live()


class Forgetter(Line):
    """A client that forgets again and again: no reply of another one may change for it."""

    count = 0

    def work(self, until: float) -> None:
        while time.monotonic() < until:
            reply = self.ask(op="forget")
            if reply != DONE:
                raise WrongError(f"a forget was answered {reply}")
            self.count += 1
            time.sleep(PAUSE)


def resident(process: int) -> int:
    """Returns the resident memory of a process in KiB."""
    text = Path(f"/proc/{process}/status").read_text()
    return next(int(line.split()[1]) for line in text.split("\n") if line.startswith("VmRSS:"))


def tenths_of(numbers: list[float]) -> list[float]:
    """Returns the mean of each tenth of some numbers."""
    size = len(numbers) // 10
    return [sum(numbers[i * size:(i + 1) * size]) / size for i in range(10)]


def is_flat(samples: list[Sample]) -> bool:
    """Prints the memory by tenths of the time after the first minute, and the last over the first.
    Returns if it is flat.

    What stays of each dropped query does not count: that is known, and it is printed. A run that is
    too short shows nothing, and it is not flat.
    """
    if len(samples) < 10:
        print("the run was too short to say whether memory is flat")
        return False
    whole = tenths_of([it.kib / 1024 for it in samples])
    dropped = tenths_of([it.queries * DROPPED / 2**20 for it in samples])
    print("resident memory by tenths of the time after the first minute, MiB: "
          + ", ".join(f"{tenth:.1f}" for tenth in whole))
    print(f"of it by dropped queries, {DROPPED:,} bytes each: "
          + ", ".join(f"{tenth:.1f}" for tenth in dropped))
    ratio = (whole[-1] - dropped[-1]) / (whole[0] - dropped[0])
    verdict = "flat" if ratio <= FLAT else "not flat"
    print(f"the rest is in the last tenth {ratio:.2f} times that in the first (at most {FLAT}): "
          f"{verdict}", flush=True)
    return ratio <= FLAT


def main() -> int:
    minutes, cqld, cqlrun, seed = float(sys.argv[1]), sys.argv[2], sys.argv[3], sys.argv[4]
    forgetters, forget = (0, OFTEN) if "--by-itself" in sys.argv[5:] else (1, None)
    count = CLIENTS + forgetters
    with Server(cqld, WORKERS, count, count, forget) as server:
        clients = [Client(number, server.port, seed, cqlrun) for number in range(CLIENTS)]
        forgetting = [Forgetter(server.port) for _ in range(forgetters)]
        lines: list[Line] = [*clients, *forgetting]
        begun = time.monotonic()
        until = begun + 60 * minutes
        threads = [threading.Thread(target=line.run, args=(until,)) for line in lines]
        for thread in threads:
            thread.start()
        samples: list[Sample] = []
        while time.monotonic() < until and any(thread.is_alive() for thread in threads):
            lives = sum(it.lives for it in clients)
            if time.monotonic() - begun >= WARM:
                samples.append(Sample(resident(server.process.pid), lives))
            time.sleep(60 * minutes / SAMPLES)
        for thread in threads:
            thread.join()
        seconds = time.monotonic() - begun
        status, errors = server.ended()
    print(f"{CLIENTS} clients, {WORKERS} workers: {sum(it.asked for it in clients)} requests in "
          f"{seconds:.0f} s, {sum(it.lives for it in clients)} queries, "
          f"{sum(it.looks for it in clients)} looks at the status")
    for forgetter in forgetting:
        print(f"rows were forgotten {forgetter.count} times")
    if not forgetting:
        print(f"no client forgot: the server did so by itself, after {OFTEN:,} values")
    print(f"{sum(it.refused for it in clients)} drains were refused by E18, since 64 turns were "
          "out")
    print("a query was complete after its last heartbeat in at most "
          f"{max(it.longest for it in clients) * 1000:.0f} ms")
    has_stayed = is_flat(samples)
    faults = [line.fault for line in lines if line.fault]
    if faults or (status, errors) != (0, ""):
        print(f"{len(faults)} clients met a fault; the server ended with {status}: {errors}")
        return 1
    print(f"every reply is that of a plain engine, and all {sum(it.answers for it in clients)} "
          "answers; the server ended with 0")
    return 0 if has_stayed else 1


if __name__ == "__main__":
    sys.exit(main())
