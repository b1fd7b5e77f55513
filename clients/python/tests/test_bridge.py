"""The bridge between Redis Streams and an engine, with kills of everything."""

from __future__ import annotations

import json
import os
import signal
import subprocess
import sys
import time
import unittest
from collections.abc import Iterator, Sequence
from contextlib import contextmanager
from pathlib import Path
from random import Random
from typing import Any, Optional

sys.path.insert(0, str(Path(__file__).resolve().parent))

from growth_support import (  # noqa: E402
    PACKAGE, RedisServer, all_answers, compact_json, memory_folder, python, replies_of,
    wait_for)

from cqld import find_program  # noqa: E402
from cqld.growth.bridge import Bridge, EngineUnwell  # noqa: E402
from cqld.growth.feed import (  # noqa: E402
    Clerk, PartedClerk, PartedProducer, Producer, answers, upto)
from cqld.growth.parting import Unparted  # noqa: E402
from cqld.growth.script import Drop, Query, Stream  # noqa: E402
from cqld.growth.store import Place, RedisFault, RedisGone, Store  # noqa: E402

STREAMS = {
    "Trades": (("symbol", "price"), ("p0", "p1")),
    "Quotes": (("symbol", "bid"), ("p0", "p1", "p2")),
}
QUERIES = {
    "sums": "Select Istream(symbol, Count(*), Sum(price)) From Trades [Range 60] Group By symbol",
    "pairs": "Select Istream(Trades.symbol, price, bid) From Trades [Range 5], "
             "Quotes [Partition By symbol Rows 1] "
             "Where Trades.symbol = Quotes.symbol And price > bid",
    "last": "Select Dstream(*) From Trades [Rows 3]",
    "tens": "Select Rstream(Count(*), Max(bid)) From Quotes [Range 9 Slide 10]",
}


class Feeder:
    """Three producers of random rows, out of order by up to 20 instants, a few of them late.

    It keeps each entry that it sent with its place. After RedisGone call `connect`.
    """

    def __init__(self, url: str, seed: int) -> None:
        self.sent: list[tuple[Place, dict[str, str]]] = []
        self._url, self._random, self._now = url, Random(seed), 0
        self._promised: dict[tuple[str, str], int] = {}
        self._unsure: Optional[tuple[str, int, dict[str, str]]] = None
        self.connect()

    def connect(self) -> None:
        self._store = Store(self._url)
        self._producers = {name: Producer(self._store, "t", name) for name in ("p0", "p1", "p2")}
        if self._unsure is not None:
            name, number, fields = self._unsure
            if self._producers[name].number == number:
                place = self._store.last("t:in")
                assert place is not None
                self.sent.append((place, fields))
            self._unsure = None

    def declare(self) -> None:
        clerk = Clerk(self._store, "t")
        for name, (columns, producers) in STREAMS.items():
            request = Stream(name, columns, 0)
            place = clerk.declare(request, producers)
            text = compact_json({"op": "stream", "name": name, "columns": columns, "from": 0,
                                 "producers": producers})
            self.sent.append((place, {"op": text}))
        for name, text in QUERIES.items():
            place = clerk.declare(Query(name, text))
            self.sent.append(
                (place, {"op": compact_json({"op": "query", "name": name, "text": text})}))

    def add(self, fields: dict[str, str]) -> None:
        words = [word for pair in fields.items() for word in pair]
        self.sent.append((self._store.add("t:in", words), fields))

    def step(self) -> None:
        """Sends rows of each producer, and a promise now and then."""
        draw = self._random
        for name in self._producers:
            for stream, (_, producers) in STREAMS.items():
                if name not in producers:
                    continue
                rows = [[self._now + draw.randrange(20), draw.choice((None, *range(40))),
                         draw.randrange(1000)] for _ in range(draw.choice((5, 20, 60)))]
                if draw.random() < 0.05:
                    rows.append([max(self._now - 30, 0), 1, 1])
                self._send(name, {"stream": stream, "rows": compact_json(rows)}, rows)
                if draw.random() < 0.1 and self.sent:
                    self.add(self.sent[-1][1])  # the same entry once more, as after a time-out
        self._now += draw.randrange(4)
        if draw.random() < 0.6:
            self.promise(self._now - 1)

    def promise(self, at: int) -> None:
        for name in self._producers:
            for stream, (_, producers) in STREAMS.items():
                if name in producers and at >= 0:
                    self._promised[name, stream] = at
                    self._send(name, {"stream": stream, "at": str(at)}, None)

    def end(self) -> int:
        """Promises all that was sent, and returns the instant."""
        self.promise(self._now + 20)
        return self._now + 20

    def _send(self, name: str, fields: dict[str, str], rows: Optional[list[list[Any]]]) -> None:
        producer = self._producers[name]
        whole = {"p": name, "n": str(producer.number + 1), **fields}
        self._unsure = (name, producer.number + 1, whole)
        if rows is None:
            place = producer.promise(fields["stream"], int(fields["at"]))
        else:
            place = producer.append(fields["stream"], rows)
        self._unsure = None
        self.sent.append((place, whole))


def foretold(sent: Sequence[tuple[Place, dict[str, str]]]) -> tuple[list[Any], set[Place]]:
    """Returns the requests that entries amount to, and the places of those to be refused."""
    told: list[tuple[Place, Any]] = []
    refused: set[Place] = set()
    numbers: dict[str, int] = {}
    promises: dict[str, dict[str, int]] = {}
    closed: dict[str, int] = {}
    for place, fields in sent:
        if "p" in fields:
            if int(fields["n"]) <= numbers.get(fields["p"], -1):
                continue
            numbers[fields["p"]] = int(fields["n"])
        if "op" in fields:
            request = json.loads(fields["op"])
            if request["op"] == "stream":
                promises[request["name"]] = {name: -1 for name in request.pop("producers")}
                closed[request["name"]] = -1
            told.append((place, request))
        elif "rows" in fields:
            rows = json.loads(fields["rows"])
            told.append((place, {"op": "append", "stream": fields["stream"], "rows": rows}))
        else:
            stream = fields["stream"]
            promises[stream][fields["p"]] = int(fields["at"])
            if min(promises[stream].values()) > closed[stream]:
                closed[stream] = min(promises[stream].values())
                told.append((place, {"op": "heartbeat", "stream": stream, "at": closed[stream]}))
    replies = replies_of(compact_json(request) for _, request in told)
    refused |= {place for (place, _), reply in zip(told, replies) if b"error" in reply}
    return [request for _, request in told], refused


def written(store: Store, query: str, prefix: str = "t") -> list[list[Optional[int]]]:
    """Returns the answers that are in Redis."""
    return [[part.instant, *row] for part in answers(store, prefix, query) for row in part.rows]


def refused_places(store: Store) -> dict[Place, str]:
    """Returns the refused entries and their faults."""
    entries = store.entries("t:refused", (0, 0), 1_000_000)
    return {entry.place: entry.fields[b"fault"].decode() for entry in entries}


class Jobs:
    """Processes that are started again whenever they end."""

    def __init__(self, *commands: list[str]) -> None:
        self._commands = commands
        self._running = [self._start(command) for command in commands]
        self.faults: list[str] = []

    def _start(self, command: list[str]) -> "subprocess.Popen[str]":
        return subprocess.Popen(command, cwd=PACKAGE, stderr=subprocess.PIPE, text=True)

    def mend(self) -> None:
        """Starts those again that have ended."""
        for number, each in enumerate(self._running):
            if each.poll() is not None:
                fault = each.communicate()[1].strip()
                self._running[number] = self._start(self._commands[number])
                if "Traceback" in fault or "refuses" in fault or "not found" in fault:
                    raise AssertionError(fault)
                self.faults.append(fault)

    def kill(self, draw: Random) -> None:
        """Kills one of them, or its engine."""
        process = draw.choice(self._running)
        pid = process.pid
        if draw.random() < 0.4:
            try:
                children = Path(f"/proc/{pid}/task/{pid}/children").read_text().split()
                os.kill(int(children[0]), signal.SIGKILL)
                return
            except (OSError, IndexError):
                pass  # it has no engine at this moment
        process.kill()

    def end(self) -> None:
        """Kills all of them, and starts none again."""
        for each in self._running:
            each.kill()
            self.faults.append(each.communicate()[1].strip())
        self._running.clear()


def bridge_command(url: str, prefix: str) -> list[str]:
    """Returns the command of a bridge that keeps many snapshots."""
    return python("cqld.growth.bridge", prefix, "--redis", url, "--every", "40", "--trim",
                  "--program", find_program("cqlrun"))


@contextmanager
def redis() -> Iterator[RedisServer]:
    with memory_folder() as folder:
        server = RedisServer(Path(folder))
        try:
            yield server
        finally:
            server.kill()


class ChaosTest(unittest.TestCase):
    """Whatever is killed, each answer is there once, and each refused entry is told."""

    def check(self, server: RedisServer, feeder: Feeder, bridges: Jobs, end: int) -> int:
        """Waits for all answers, compares them with one run, and returns their number."""
        def is_done() -> bool:
            bridges.mend()
            with Store(server.url) as store:
                return all(upto(store, "t", query) >= end for query in QUERIES)

        wait_for(is_done)
        bridges.end()
        requests, refused = foretold(feeder.sent)
        count = 0
        with Store(server.url) as store:
            for query in QUERIES:
                wanted = all_answers(requests, query)
                self.assertEqual(written(store, query), wanted, query)
                count += len(wanted)
            self.assertEqual(set(refused_places(store)), refused)
        for fault in bridges.faults:
            self.assertNotIn("Traceback", fault)
        return count

    def test_kills_of_bridges_and_engines_lose_and_repeat_nothing(self) -> None:
        draw = Random(11)
        with redis() as server:
            feeder = Feeder(server.url, 11)
            feeder.declare()
            bridges = Jobs(*[bridge_command(server.url, "t")] * 2)
            try:
                for _ in range(16):
                    for _ in range(12):
                        feeder.step()
                    time.sleep(draw.choice((0.0, 0.1, 0.3)))
                    bridges.mend()
                    bridges.kill(draw)
                self.assertGreater(self.check(server, feeder, bridges, feeder.end()), 10_000)
            finally:
                bridges.end()

    def test_kills_of_redis_lose_and_repeat_nothing(self) -> None:
        draw = Random(12)
        with redis() as server:
            feeder = Feeder(server.url, 12)
            feeder.declare()
            bridges = Jobs(bridge_command(server.url, "t"))
            try:
                for _ in range(5):
                    for _ in range(12):
                        feeder.step()
                    time.sleep(draw.choice((0.0, 0.2, 0.5)))
                    bridges.mend()
                    server.kill()
                    with self.assertRaises(RedisGone):
                        feeder.step()
                    server.start()
                    feeder.connect()
                self.assertGreater(self.check(server, feeder, bridges, feeder.end()), 3_000)
                self.assertTrue(any("Redis has gone" in fault for fault in bridges.faults))
            finally:
                bridges.end()

    def test_parts_and_their_mergers_over_kills_answer_as_one_engine(self) -> None:
        draw = Random(13)
        parts = ["t0", "t1", "t2"]
        streams = {"A": ("k", "u"), "B": ("k", "v")}
        queries = {
            "sums": "Select Istream(k, Count(*), Sum(v)) From B [Range 60] Group By k",
            "pairs": "Select Rstream(A.k, u, v) From A [Now], B [Partition By k Rows 1] "
                     "Where A.k = B.k And u < v",
            "values": "Select Istream(v) From B [Range 20]",
        }
        told: list[Any] = []
        with redis() as server, Store(server.url) as store:
            clerk = PartedClerk(store, parts, {"A": "k", "B": "k"})
            for name, columns in streams.items():
                told.append({"op": "stream", "name": name, "columns": columns, "from": 0})
                clerk.stream(Stream(name, columns, 0), ["p"])
            merges = []
            for name, text in queries.items():
                told.append({"op": "query", "name": name, "text": text})
                less = clerk.query(name, text)
                merges.append(python("cqld.growth.merge", name, "m", *parts,
                                     "--redis", server.url, *(["--net", less] if less else [])))
            jobs = Jobs(*(bridge_command(server.url, part) for part in parts), *merges)
            try:
                now = 0
                for _ in range(10):
                    # a producer that begins anew, as after a restart
                    producer = PartedProducer(store, parts, "p", {"A": 0, "B": 0})
                    for _ in range(9):
                        for name in streams:
                            rows = [[now + draw.randrange(10), draw.choice((None, *range(40))),
                                     draw.randrange(50)] for _ in range(40)]
                            told.append({"op": "append", "stream": name, "rows": rows})
                            producer.append(name, rows)
                        now += 3
                        for name in streams:
                            told.append({"op": "heartbeat", "stream": name, "at": now - 1})
                            producer.promise(name, now - 1)
                    time.sleep(draw.choice((0.0, 0.1, 0.3)))
                    jobs.mend()
                    jobs.kill(draw)

                def is_done() -> bool:
                    jobs.mend()
                    return all(upto(store, "m", name) >= now - 1 for name in queries)

                wait_for(is_done)
                jobs.end()
                for name in queries:
                    self.assertEqual(written(store, name, "m"), all_answers(told, name), name)
                for fault in jobs.faults:
                    self.assertNotIn("Traceback", fault)
            finally:
                jobs.end()

    def test_a_query_that_no_merger_can_answer_is_declared_nowhere(self) -> None:
        with redis() as server, Store(server.url) as store:
            clerk = PartedClerk(store, ["t0", "t1"], {"S": "k"})
            clerk.stream(Stream("S", ("k", "v"), 0), ["p"])
            clerk.stream(Stream("T", ("k", "v"), 0), ["p"])
            for text in ("Select Istream(Sum(v)) From S [Now]", "Select Istream(*) From S [Rows 1]",
                         "Select Istream(*) From T [Rows 1]"):
                with self.assertRaises(Unparted):
                    clerk.query("q", text)
            self.assertEqual(clerk.query("q", "Select Dstream(v) From S [Now]"), "q_less")
            self.assertEqual(len(store.entries("t1:in", (0, 0), 100)), 4)

    def test_a_parted_producer_sends_nothing_twice(self) -> None:
        with redis() as server, Store(server.url) as store:
            parts = ["t0", "t1"]
            producer = PartedProducer(store, parts, "p", {"S": 0})
            self.assertEqual(producer.number, -1)
            producer.append("S", [(1, key) for key in range(10)])
            # it dies in the middle of the next call: one part has it, the other has not
            Producer(store, "t0", "p").promise("S", 1)
            again = PartedProducer(store, parts, "p", {"S": 0})
            self.assertEqual(again.number, 0)
            again.promise("S", 1)
            for part in parts:
                entries = store.entries(f"{part}:in", (0, 0), 10)
                self.assertEqual([entry.fields[b"n"] for entry in entries], [b"0", b"1"])


class BridgeTest(unittest.TestCase):
    """One bridge in this process."""

    def setUp(self) -> None:
        server = self.enterContext(redis())
        self.url = server.url
        self.server = server
        self.store = self.enterContext(Store(server.url))
        self.clerk = Clerk(self.store, "t")

    def declare(self, query: str = "Select Istream(*) From S [Now]") -> Producer:
        self.clerk.declare(Stream("S", ("k", "v"), 0), ["p"])
        self.clerk.declare(Query("q", query))
        return Producer(self.store, "t", "p")

    def carry(self, **options: Any) -> None:
        """Carries everything through a bridge that begins where the last one left off."""
        with Bridge(self.store, "t", **options) as bridge:
            while bridge.turn():
                pass

    def test_bad_entries_are_refused_with_their_fault_and_the_others_count(self) -> None:
        producer = self.declare()
        deep = "[" * 100_000 + "]" * 100_000
        bad = {
            "N2 BadRequest: no JSON": [
                {"stream": "S", "rows": "[[1,2"}, {"stream": "S", "rows": deep},
                {"stream": "S", "rows": "9" * 5_000}, {"op": "{"}],
            "N2 BadRequest: no whole number or null": [
                {"stream": "S", "rows": "[[1,2,1.5]]"}, {"stream": "S", "rows": '[[1,2,"3"]]'},
                {"stream": "S", "rows": "[[1,2,true]]"}, {"stream": "S", "rows": "[[1,NaN,2]]"}],
            "N2 BadRequest: no row": [{"stream": "S", "rows": "[[]]"},
                                      {"stream": "S", "rows": "[[null,1,2]]"}],
            "N2 BadRequest: no list": [{"stream": "S", "rows": "{}"}],
            "N2 BadRequest: no request": [
                {"op": '{"op":"query"}'}, {"op": '{"op":["query"]}'}, {"op": '{"op":"stream"}'}],
            "N2 BadRequest: no JSON object": [{"op": "3"}],
            "E4": [{"stream": "S", "rows": compact_json([[1, 1, 1]] * 1_025)}],
            "E5": [{"stream": "T", "rows": "[[1,2,3]]"}, {"stream": "T", "at": "1", "p": "p"}],
            "E6": [{"op": '{"op":"drop","query":"r"}'}],
            "E7": [{"stream": "S", "rows": "[[1,2]]"}],
            "E8": [{"stream": "S", "rows": f"[[1,2,{2**40}]]"}],
            "E9": [{"stream": "S", "rows": "[[-1,2,3]]"},
                   {"stream": "S", "at": str(2**40 + 1), "p": "p"}],
            "E11": [{"stream": "S", "at": "-2", "p": "p"}],
            "Q4 Unexpected at 7": [
                {"op": '{"op":"query","name":"r","text":"Select Rows"}'}],
            "Q7 UnknownStream": [
                {"op": '{"op":"query","name":"r","text":"Select Istream(*) From T"}'}],
            "E2 NameTaken": [
                {"op": '{"op":"query","name":"q","text":"Select Istream(*) From S"}'},
                {"op": '{"op":"stream","name":"S","columns":["k"],"from":0,"producers":["p"]}'}],
            "no producers: U would never be closed": [
                {"op": '{"op":"stream","name":"U","columns":["k"],"from":0}'}],
            "an op that a log does not take": [{"op": '{"op":"drain"}'}],
            "producers are no list of names": [
                {"op": '{"op":"stream","name":"U","columns":["k"],"from":0,"producers":3}'}],
            "nobody is no producer of S": [{"stream": "S", "at": "3", "p": "nobody"}],
            "neither op nor rows nor at": [{"nonsense": "1"}],
            "no field stream": [{"rows": "[[1,2,3]]"}],
            "no field p": [{"stream": "S", "at": "3"}],
            "at: invalid literal": [{"stream": "S", "at": "soon", "p": "p"}],
            "n: invalid literal": [{"stream": "S", "rows": "[[1,2,3]]", "p": "p", "n": "x"}],
        }
        wanted = {}
        for number, (fault, entries) in enumerate(bad.items()):
            for fields in entries:
                words = [word for pair in fields.items() for word in pair]
                wanted[self.store.add("t:in", words)] = fault
                producer.append("S", [(5, number, 0)])
        self.store.add("t:in", ["stream", "S", "rows", " [[5, 99, null]] "])
        producer.promise("S", 5)
        self.carry()
        told = refused_places(self.store)
        self.assertEqual(told.keys(), wanted.keys())
        for place, fault in wanted.items():
            self.assertTrue(told[place].startswith(fault), (told[place], fault))
        count = sum(map(len, bad.values()))
        self.assertEqual(len(written(self.store, "q")), count + 1)

    def test_one_late_entry_is_refused_and_those_sent_with_it_are_not(self) -> None:
        producer = self.declare()
        producer.promise("S", 4)
        good = [producer.append("S", [(5, 1, 1)]), producer.append("S", [(6, 3, 1)])]
        late = producer.append("S", [(7, 1, 1), (4, 1, 1)])
        producer.append("S", [(6, 2, 1)])
        producer.promise("S", 9)
        self.carry()
        self.assertEqual(refused_places(self.store), {late: "E10 Late"})
        self.assertEqual(written(self.store, "q"), [[5, 1, 1], [6, 2, 1], [6, 3, 1]])
        self.assertEqual(len(good), 2)

    def test_each_entry_of_a_producer_counts_once_and_it_resumes_by_its_number(self) -> None:
        producer = self.declare()
        producer.append("S", [(1, 1, 1)])
        again = ["p", "p", "n", "0", "stream", "S", "rows", "[[1,1,1]]"]
        self.store.add("t:in", again)
        self.carry(every=1)
        self.store.add("t:in", again)
        resumed = Producer(self.store, "t", "p")
        self.assertEqual(resumed.number, 0)
        resumed.promise("S", 1)
        self.carry()
        self.assertEqual(written(self.store, "q"), [[1, 1, 1]])
        self.assertEqual(refused_places(self.store), {})

    def test_many_answers_of_an_instant_are_in_parts_that_a_reader_can_resume_at(self) -> None:
        text = "Select Rstream(A.k, B.v) From S [Now] A, S [Now] B Where A.k = B.k"
        producer = self.declare(text)
        producer.append("S", [(1, 1, number) for number in range(50)])
        producer.promise("S", 1)
        self.carry()
        parts = list(answers(self.store, "t", "q"))
        self.assertEqual([part.place for part in parts], [(1, 1), (1, 2), (1, 3)])
        self.assertEqual([len(part.rows) for part in parts], [1_000, 1_000, 500])
        self.assertEqual(list(answers(self.store, "t", "q", parts[1].place)), parts[2:])
        self.assertEqual(upto(self.store, "t", "q"), 1)

    def test_a_slower_bridge_begins_anew_when_entries_it_needs_were_let_go(self) -> None:
        producer = self.declare("Select Rstream(Count(*), Sum(v)) From S")
        with Bridge(self.store, "t", every=10, trims=True) as slow, \
                Bridge(self.store, "t", every=10, trims=True) as fast:
            slow.turn()
            for instant in range(100):
                producer.append("S", [(instant, 1, instant)])
                producer.promise("S", instant)
                fast.turn()
            self.assertEqual(slow.turn(), 0)
            self.assertGreater(slow.place, (0, 0))
            while slow.turn():
                pass
            self.assertEqual(slow.place, fast.place)
        with Bridge(self.store, "t") as late:
            self.assertGreater(late.place, (0, 0))
        wanted = [[at, at + 1, at * (at + 1) // 2] for at in range(100)]
        self.assertEqual(written(self.store, "q"), wanted)

    def test_a_count_of_rows_that_is_full_begins_anew(self) -> None:
        text = "Select Istream(A.k) From S [Now] A, S [Now] B, S [Now] C, S [Now] D "
        text += "Where A.k = B.k And B.k = C.k And C.k = D.k And A.v = 0"
        producer = self.declare(text)
        for instant in range(40):
            producer.append("S", [(instant, key, key) for key in range(1_000)])
            producer.promise("S", instant)
        self.carry()
        self.assertEqual(refused_places(self.store), {})
        self.assertEqual(written(self.store, "q"), [[0, 0]])
        self.assertEqual(upto(self.store, "t", "q"), 39)
        for key in range(33):  # so many rows of one instant that the query needs all
            producer.append("S", [(40, key, 1)] * 1_000)
        with Bridge(self.store, "t") as bridge, self.assertRaises(EngineUnwell):
            while bridge.turn():
                pass

    def test_redis_that_goes_is_a_named_error_and_nothing_is_lost(self) -> None:
        producer = self.declare()
        producer.append("S", [(1, 1, 1)])
        producer.promise("S", 1)
        words = python("cqld.growth.bridge", "t", "--redis", self.url,
                       "--program", find_program("cqlrun"))
        with subprocess.Popen(words, cwd=PACKAGE, stderr=subprocess.PIPE, text=True) as process:
            wait_for(lambda: upto(self.store, "t", "q") == 1)
            self.server.kill()
            self.assertRegex(process.communicate()[1], "^bridge: Redis has gone: .*")
            self.assertEqual(process.returncode, 1)
        with self.assertRaises(RedisGone):
            producer.promise("S", 2)
        self.server.start()
        with self.assertRaises(RedisGone):  # never renewed
            producer.promise("S", 2)
        with Store(self.url) as store:
            self.assertEqual(written(store, "q"), [[1, 1, 1]])
            self.assertEqual(Producer(store, "t", "p").number, 1)

    def test_what_redis_refuses_is_a_named_error(self) -> None:
        self.store.add("t:other", ["a", "b"])
        with self.assertRaises(RedisFault):
            self.store.number("t:other")
        with self.assertRaises(RedisFault):
            self.store.put("t:other", [("soon", "x")])

    def test_a_dropped_query_keeps_its_answers_and_its_name(self) -> None:
        producer = self.declare()
        producer.append("S", [(1, 1, 1)])
        producer.promise("S", 1)
        self.clerk.declare(Drop("q"))
        taken = self.clerk.declare(Query("q", "Select Dstream(*) From S [Now]"))
        producer.promise("S", 3)
        self.carry(every=1)
        self.assertEqual(written(self.store, "q"), [[1, 1, 1]])
        self.assertEqual(list(refused_places(self.store)), [taken])


if __name__ == "__main__":
    unittest.main()
