"""Random scripts through a program, and the replies that the evaluator foretells."""

import json
import subprocess
import sys
from collections import Counter
from random import Random

from evaluate import answers, changes, relation
from queries import Query

WAYS = (["--plain"], ["--turn", "1"], ["--turn", "7"], ["--turn", "256"], ["--turn", "1024"],
        ["--workers", "1"], ["--workers", "2"], ["--workers", "4"])
# A gap above which the evaluator has to skip instants, and --plain takes too long. Above it an
# Rstream is drawn only if its relation becomes empty: it answers at each instant until then.
MANY = 1_000
# Each number that is a multiple of this has a large script too.
EACH = 20
# The rows that wait for windows, a row for each of them, of which a drain makes a second thread.
WORK = 2_048
DONE = {"ok": True}
BAD_REQUEST, BAD_LIMIT = {"error": "N2 BadRequest"}, {"error": "E14 BadLimit"}
UNKNOWN_QUERY = {"error": "E6 UnknownQuery"}


class Stream:
    def __init__(self, columns, first):
        self.columns, self.closed, self.elements = columns, first - 1, []


class Running:
    """A registered query: what it may see, how far it was drained, what waits and was taken.

    Where it skips, its relation is not found anew until a row may enter or leave a window."""

    def __init__(self, query, streams, skips=False):
        self.query, self.is_dropped, self.waiting, self.before = query, False, [], Counter()
        self.taken, self.skips = 0, skips
        self.streams = [streams[it] for it in query.streams]
        self.base = self.drained = max(it.closed for it in self.streams)
        self.places = [len(it.elements) for it in self.streams]

    def drain(self):
        upto = min(it.closed for it in self.streams)
        inputs = [
            [it for it in stream.elements if it[0] > self.base and it[1] >= place]
            for stream, place in zip(self.streams, self.places)
        ]
        windows = zip(self.query.windows, inputs)
        steps = sorted(set().union(*(changes(*it) for it in windows))) if self.skips else []
        while self.drained < upto and not self.is_dropped:
            self.drained += 1
            self.answer(relation(self.query, inputs, self.drained))
            if self.skips:
                self.stay(min(next((it for it in steps if it > self.drained), upto + 1), upto + 1))

    def answer(self, now):
        """Adds the answers of an instant with this relation."""
        self.waiting += [[self.drained, *row]
                         for row in answers(self.query.operator, self.before, now)]
        self.before = now

    def stay(self, until):
        """Goes on to before an instant, while the relation stays."""
        if answers(self.query.operator, self.before, self.before):
            while self.drained < until - 1:
                self.drained += 1
                self.answer(self.before)
        self.drained = until - 1


class Script:
    """Requests, and what their replies must be; without looks none is a status or a peek. Rows and
    heartbeats come up to `gap` instants later, now and then."""

    late = 0.003  # the share of rows that come late

    def __init__(self, seed, has_looks=True, gap=0, skips=False):
        self.random, self.requests, self.replies = Random(seed), [], []
        self.gap, self.skips = gap, skips
        self.streams, self.queries = {}, []
        self.greatest = self.random.choice([1, 2, 4, 4, 2**40 - 1])
        for name in "ABC"[: self.random.randint(1, 3)]:
            first = self.random.choice([0, 0, 3])
            self.streams[name] = Stream([*"abcd"][: self.random.randint(1, 4)], first)
            self.ask(DONE, op="stream", name=name, columns=self.streams[name].columns,
                     **{"from": first})
        for _ in range(self.random.randint(1, 4)):
            self.register()
        calls = [self.append, self.heartbeat, self.drain, self.take, self.register, self.drop,
                 self.forget]
        weights, most = [45, 27, 13, 10, 3, 2, 10], 40
        if has_looks:
            calls += [self.status, self.peek, self.bad_look]
            weights, most = [*weights, 8, 8, 3], 50
        for call in self.random.choices(calls, weights, k=self.random.randint(5, most)):
            call()
            # what the call before may have changed
            if has_looks and self.random.random() < 0.1:
                self.status()
        self.drain()
        for number in range(len(self.queries)):
            if has_looks:
                self.peek(number, 4096)
            self.take(number, 4096)
        if has_looks:
            self.status()

    def ask(self, reply, **request):
        self.requests.append(request)
        self.replies.append(reply)

    def register(self):
        columns = {name: it.columns for name, it in self.streams.items()}
        query = Query(self.random, columns)
        while self.gap > MANY and query.operator == "Rstream" and not query.becomes_empty():
            query = Query(self.random, columns)
        self.ask(DONE, op="query", name=f"q{len(self.queries)}", text=query.text(self.random))
        self.queries.append(Running(query, self.streams, self.skips))

    def later(self, chance):
        """How many instants more than without gaps something comes later."""
        if not self.gap or self.random.random() > chance:
            return 0
        return self.random.randint(1, self.gap)

    def row(self, stream):
        late = self.random.random() < self.late
        later = self.random.choice([0, 0, 0, 1, 1, 2, 3, 5, 8, 12]) + self.later(0.02)
        value = lambda: (None if self.random.random() < 0.15
                         else self.random.randint(-self.greatest, self.greatest))
        at = max(stream.closed if late else stream.closed + 1 + later, 0)
        return [at, *(value() for _ in stream.columns)]

    def append(self):
        name = self.random.choice([*self.streams])
        self.append_to(name, self.random.choice([0, 1, 2, 5, 12, 25]))

    def append_to(self, name, count):
        stream = self.streams[name]
        rows = [self.row(stream) for _ in range(count)]
        if any(it[0] <= stream.closed for it in rows):
            self.ask({"error": "E10 Late"}, op="append", stream=name, rows=rows)
            return
        self.ask(DONE, op="append", stream=name, rows=rows)
        for at, *values in rows:
            stream.elements.append((at, len(stream.elements), tuple(values)))

    def heartbeat(self):
        name = self.random.choice([*self.streams])
        stream = self.streams[name]
        at = max(stream.closed + self.random.choice([1, 1, 1, 1, 2, 2, 3, 3, 7, 7, 0, -1]), 0)
        at += self.later(0.2)
        is_backward = at <= stream.closed
        reply = {"error": "E11 Backward"} if is_backward else DONE
        self.ask(reply, op="heartbeat", stream=name, at=at)
        stream.closed = max(stream.closed, at)

    def drain(self):
        self.ask(DONE, op="drain")
        for it in self.queries:
            it.drain()

    def forget(self):
        """Rows that no query needs go, and no later reply is another for it."""
        self.ask(DONE, op="forget")

    def of_some(self, number, reply, **request):
        """Asks for a query, which may have been dropped."""
        is_dropped = self.queries[number].is_dropped
        self.ask(UNKNOWN_QUERY if is_dropped else reply, **request, query=f"q{number}")

    def take(self, number=None, limit=None):
        number = self.random.randrange(len(self.queries)) if number is None else number
        limit = limit or self.random.choice([1, 3, 1000])
        query = self.queries[number]
        rows = query.waiting[:limit]
        self.of_some(number, {"ok": True, "rows": rows}, op="take", limit=limit)
        query.waiting = query.waiting[limit:]
        query.taken += len(rows)

    def peek(self, number=None, limit=None):
        """What a take would hand out, which waits on."""
        number = self.random.randrange(len(self.queries)) if number is None else number
        limit = limit or self.random.choice([1, 3, 1000])
        rows = self.queries[number].waiting[:limit]
        self.of_some(number, {"ok": True, "rows": rows}, op="peek", limit=limit)

    def status(self):
        """How far each stream and each query is; a query that was dropped is left out."""
        queries = [
            {"base": it.base, "name": f"q{number}", "taken": it.taken, "upto": it.drained,
             "waiting": len(it.waiting)}
            for number, it in enumerate(self.queries) if not it.is_dropped
        ]
        streams = [
            {"closed": it.closed, "columns": it.columns, "name": name, "rows": len(it.elements)}
            for name, it in self.streams.items()
        ]
        # a status has no keys, and those of others are ignored
        others = self.random.choice([{}, {}, {}, {"query": "q0"}, {"limit": "none"}])
        self.ask({"ok": True, "queries": queries, "streams": streams}, op="status", **others)

    def bad_look(self):
        """A look that is refused: no request, a bad limit, or a query that never was."""
        good = {"op": "peek", "query": f"q{self.random.randrange(len(self.queries))}", "limit": 3}
        without = lambda key: {name: value for name, value in good.items() if name != key}
        bad = self.random.choice([
            without("query"), without("limit"), {**good, "query": 0}, {**good, "query": None},
            {**good, "limit": "3"}, {**good, "limit": 1.5}, {**good, "limit": None},
            {**good, "limit": [3]}, {"op": "Status"}, {"op": ["status"]}, {"op": "peeks"},
        ])
        choice = self.random.randrange(3)
        if choice == 0:
            self.ask(BAD_REQUEST, **bad)
        elif choice == 1:
            # an unknown query comes before a bad limit
            self.ask(UNKNOWN_QUERY, op="peek", query="Q", limit=self.random.choice([-1, 0, 1]))
        else:
            number = self.random.randrange(len(self.queries))
            limit = self.random.choice([-(2**63), -1, 0, 4_097, 2**63 - 1])
            self.of_some(number, BAD_LIMIT, op="peek", limit=limit)

    def drop(self):
        number = self.random.randrange(len(self.queries))
        self.of_some(number, DONE, op="drop")
        self.queries[number].is_dropped = True


class Large(Script):
    """A script with appends of up to 1,024 rows over several queries, so that drains have work for
    threads. Only a window of one instant is joined, since the evaluator tries each pair of rows."""

    late = 0.00003

    def __init__(self, seed):
        self.random, self.requests, self.replies = Random(f"large {seed}"), [], []
        self.gap, self.skips = 0, False
        self.streams, self.queries = {}, []
        self.greatest = self.random.choice([4, 40, 2**40 - 1])
        for name in "AB":
            self.streams[name] = Stream([*"abcd"][: self.random.randint(1, 4)], 0)
            self.ask(DONE, op="stream", name=name, columns=self.streams[name].columns,
                     **{"from": 0})
        for _ in range(self.random.randint(4, 7)):
            self.register()
        self.most = 0
        for _ in range(self.random.randint(2, 3)):
            for name in self.streams:
                self.append_to(name, self.random.choice([700, 1_000, 1_024]))
            calls = [self.append, self.peek, self.status, self.forget]
            for call in self.random.choices(calls, k=3):
                call()
            for name, stream in self.streams.items():
                at = stream.closed + self.random.choice([3, 9, 13])
                self.ask(DONE, op="heartbeat", stream=name, at=at)
                stream.closed = at
            self.most = max(self.most, self.work())
            self.drain()
            for number in range(len(self.queries)):
                self.take(number, self.random.choice([100, 1_000, 4_096]))
            self.status()

    def register(self):
        columns = {name: it.columns for name, it in self.streams.items()}
        is_short = lambda it: it.span == 0 and it.step is None
        query = Query(self.random, columns)
        while len(query.streams) > 2 or (
                len(query.streams) == 2 and not all(map(is_short, query.windows))):
            query = Query(self.random, columns)
        self.ask(DONE, op="query", name=f"q{len(self.queries)}", text=query.text(self.random))
        self.queries.append(Running(query, self.streams))

    def work(self):
        """How many closed rows wait for windows, a row for each of them."""
        return sum(it.drained < row[0] <= stream.closed
                   for it in self.queries for stream in it.streams for row in stream.elements)


def is_foretold(program, seed, script, ways):
    """Runs the script in each way; prints the first reply that was not foretold, byte by byte."""
    text = lambda it, is_sorted: json.dumps(it, separators=(",", ":"), sort_keys=is_sorted)
    lines = [text(it, False) for it in script.requests]
    foretold = [text(it, True) for it in script.replies]
    for way in ways:
        ran = subprocess.run([program, *way], input="\n".join(lines) + "\n",
                             stdout=subprocess.PIPE, text=True)
        replies = ran.stdout.splitlines()
        if replies != foretold:
            at = next((i for i, (a, b) in enumerate(zip(replies, foretold)) if a != b),
                      min(len(replies), len(foretold)))
            print(f"script {seed}, {' '.join(way)}, request {at + 1}: "
                  f"got {' '.join(replies[at : at + 1])}, "
                  f"foretold {' '.join(foretold[at : at + 1])}")
            print("\n".join(lines[: at + 1]), flush=True)
            return False
    return True


def main(program, count, first, gap):
    good = rows = faults = large = good_large = 0
    ways = WAYS[1:] if gap > MANY else WAYS
    for seed in range(first, first + count):
        script = Script(seed, gap=gap, skips=gap > 0)
        if 0 < gap <= MANY and script.replies != Script(seed, gap=gap).replies:
            print(f"script {seed}: the evaluator itself differs where it skips no instant")
            return True
        good += is_foretold(program, seed, script, ways)
        if seed % EACH == 0 and not gap:
            script = Large(seed)
            assert script.most >= WORK, f"large script {seed}: no drain has work for two threads"
            large += 1
            good_large += is_foretold(program, f"{seed}, large", script, ways)
        rows += sum(len(it.get("rows", [])) for it in script.replies)
        faults += sum("error" in it for it in script.replies)
    print(f"{good} of {count} scripts as foretold, with {rows} answers and {faults} faults, "
          f"each in {len(ways)} ways")
    if large:
        print(f"{good_large} of {large} large ones")
    return good < count or good_large < large


if __name__ == "__main__":
    sys.exit(main(sys.argv[1], *map(int, sys.argv[2:])))
