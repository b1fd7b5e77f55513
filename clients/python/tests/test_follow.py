"""Following a query: over the real programs, and over stand-ins for what they never do."""

from __future__ import annotations

import os
import signal
import subprocess
import sys
import threading
import time
import unittest.mock
from collections.abc import Callable, Iterator, Mapping, Sequence
from itertools import islice
from typing import Any

from standin import Standin
from support import PATIENCE, Case, environment, wait_until

from cqld import (
    Beat,
    Client,
    ConnectionLost,
    OtherConsumer,
    QueryStatus,
    Refused,
    Server,
    Status,
    StreamStatus,
    TimedOut,
)
from cqld.progress import Progress
from cqld.sources import sources_of

ALL = "Select Istream(*) From S [Now]"
MANY = "Select Istream(a) From S [Now]"

CONSUMER = """
import sys
from cqld import Client
with Client(int(sys.argv[1]), timeout=120) as client:
    for row in client.follow("q", limit=int(sys.argv[2]), pause=0.001):
        print(*row, flush=True)
"""


class Decoding:
    """Decodes rows by a function."""

    def __init__(self, decode: Callable[[Any], Any]) -> None:
        self.decode = decode

    def prepare(self, rows: Sequence[Any]) -> None:
        """Needs nothing."""


class Cases(Case):
    """Has queries with answers, over programs with and without `peek`."""

    def without_peek(self) -> Standin:
        """Returns a server that has neither `peek` nor `status`."""
        standin = self.standin()
        standin.faults = {"peek": "N2 BadRequest", "status": "N2 BadRequest"}
        return standin

    def fed(self, port: int, count: int = 10) -> Client:
        """Returns a client that has appended so many rows to S, over which q is."""
        it = Client(port, timeout=PATIENCE)
        self.addCleanup(it.close)
        it.stream("S", ["a"])
        it.query("q", ALL)
        it.append("S", [(n, 10 * n) for n in range(count)])
        if count:
            it.heartbeat("S", count - 1)
        return it

    def ready(self, count: int = 10, server: Server | None = None) -> Client:
        """Returns a client as `fed` does, of a real server: all answers wait."""
        it = self.fed((server or self.server()).port, count)
        wait_until(lambda: it.status().queries["q"].waiting == count)
        return it

    def taken(self, it: Client) -> int:
        """Returns how many answers of q were taken."""
        return it.status().queries["q"].taken


class Programs(Cases):
    """Whatever the program has, answers come in order and once."""

    def ports(self) -> Iterator[int]:
        """Yields the port of a real server, and that of one without `peek` and `status`."""
        kinds: list[Callable[[], Server | Standin]] = [self.server, self.without_peek]
        for kind in kinds:
            with self.subTest(kind.__name__):
                yield kind().port

    def test_answers_come_while_another_client_appends(self) -> None:
        for port in self.ports():
            reader = self.fed(port, 0)
            with Client(port, timeout=PATIENCE) as writer:

                def write() -> None:
                    for instant in range(200):
                        writer.append("S", [(instant, instant)])
                        writer.heartbeat("S", instant)

                thread = threading.Thread(target=write)
                thread.start()
                found = []
                for row in reader.follow("q", 0.001, deadline=PATIENCE, limit=7):
                    found.append(row)
                    if len(found) == 200:
                        break
                thread.join(PATIENCE)
            self.assertEqual(found, [[n, n] for n in range(200)])

    def test_deadline_ends_it(self) -> None:
        for port in self.ports():
            it = self.fed(port)
            with it.follow("q", deadline=PATIENCE) as answers:
                self.assertEqual(len(list(islice(answers, 10))), 10)
            begun = time.monotonic()
            self.assertEqual(list(it.follow("q", deadline=0.3)), [])
            self.assertGreaterEqual(time.monotonic() - begun, 0.3)
            self.assertEqual(list(it.follow("q", deadline=0)), [])

    def test_beats_come_while_nothing_comes(self) -> None:
        for port, upto in zip(self.ports(), (9, None), strict=True):
            it = self.fed(port)
            rows: list[Any] = []
            beats: list[Beat] = []
            for item in it.follow("q", 0.001, beat=0.02, deadline=PATIENCE):
                if isinstance(item, Beat):
                    beats.append(item)
                    if len(beats) >= 3 and len(rows) == 10:
                        break
                else:
                    rows.append(item)
            self.assertEqual(rows, [[n, 10 * n] for n in range(10)])
            self.assertEqual(beats[-1].upto, upto)

    def test_queries_that_are_not_there_are_refused(self) -> None:
        for port in self.ports():
            it = self.fed(port)
            with self.assertRaises(Refused) as caught:
                next(it.follow("none"))
            self.assertEqual(caught.exception.code, "E6")
            it.drain()

    def test_process_can_be_followed(self) -> None:
        it = self.process()
        it.stream("S", ["a"])
        it.query("q", ALL)
        it.append("S", [(0, 1)])
        it.heartbeat("S", 0)
        self.assertEqual(list(it.follow("q", deadline=0.05)), [[0, 1]])


class Peeks(Cases):
    """Where a program has `peek`, an answer is taken only once it was handled."""

    def test_answers_are_taken_once_more_is_asked_for(self) -> None:
        it = self.ready()
        follow = it.follow("q", limit=4, deadline=PATIENCE)
        self.assertEqual([next(follow) for _ in range(4)], [[n, 10 * n] for n in range(4)])
        self.assertEqual(self.taken(it), 0)
        next(follow)
        self.assertEqual(self.taken(it), 4)
        follow.confirm()
        self.assertEqual(self.taken(it), 5)
        self.assertEqual(follow.unseen, [[n, 10 * n] for n in range(5, 8)])
        self.assertEqual(next(it.follow("q")), [5, 50])

    def test_with_takes_what_was_handed_out(self) -> None:
        it = self.ready()
        with it.follow("q") as answers:
            for row in answers:
                if row[0] == 3:
                    break
        self.assertEqual(self.taken(it), 4)
        with self.assertRaises(KeyError):
            with it.follow("q") as answers:
                for row in answers:
                    if row[0] == 6:
                        raise KeyError  # it could not be handled
        self.assertEqual(self.taken(it), 6)
        self.assertEqual(next(it.follow("q")), [6, 60])

    def test_consumer_that_dies_loses_nothing(self) -> None:
        """Consumers are killed again and again. Together they have seen every answer."""
        server = self.server()
        it = self.ready(300, server)
        seen: list[int] = []
        for turn in range(1_000):
            if seen and seen[-1] == 299:
                break
            words = [sys.executable, "-c", CONSUMER, str(server.port), "5"]
            consumer = subprocess.Popen(words, stdout=subprocess.PIPE, env=environment())
            assert consumer.stdout is not None
            fresh: list[int] = []
            while len(fresh) < 30 + turn and (not fresh or fresh[-1] < 299):
                fresh.append(int(consumer.stdout.readline().split()[0]))
            os.kill(consumer.pid, signal.SIGKILL)
            fresh += [int(line.split()[0]) for line in consumer.stdout if line.endswith(b"\n")]
            consumer.stdout.close()
            consumer.wait()
            self.assertEqual(fresh, list(range(fresh[0], fresh[0] + len(fresh))))
            if seen:
                self.assertLessEqual(fresh[0], seen[-1] + 1)  # nothing is passed over
                self.assertGreaterEqual(fresh[0], seen[-1] - 5)  # at most one look comes again
            seen += fresh
        self.assertEqual(sorted(set(seen)), list(range(300)))
        it.drain()

    def test_decoder_that_fails_leaves_the_answer(self) -> None:
        it = self.ready()
        follow = it.follow("q", 0, limit=4, decoder=Decoding(lambda row: 1 // row[1]))
        with self.assertRaises(ZeroDivisionError):
            next(follow)
        self.assertEqual((self.taken(it), follow.unseen[0]), (0, [0, 0]))

    def test_answers_that_are_left_out_are_taken_too(self) -> None:
        it = self.ready()
        decoder = Decoding(lambda row: row if row[0] % 2 else None)
        odd = it.follow("q", 0, deadline=0.2, limit=3, decoder=decoder)
        self.assertEqual([row[0] for row in odd], [1, 3, 5, 7, 9])
        self.assertEqual(self.taken(it), 10)

    def test_another_consumer_shows(self) -> None:
        it = self.ready()
        follow = it.follow("q", limit=4)
        self.assertEqual([next(follow)[0] for _ in range(4)], [0, 1, 2, 3])
        it.take("q", 3)  # somebody else
        with self.assertRaises(OtherConsumer) as caught:
            next(follow)
        self.assertEqual(list(caught.exception.rows), [[4, 40], [5, 50], [6, 60]])
        self.assertEqual(next(follow), [7, 70])
        it.take("q", 10)
        with self.assertRaises(OtherConsumer) as caught:
            follow.confirm()
        self.assertEqual(caught.exception.rows, ())

    def test_beats_say_up_to_where_answers_are_complete(self) -> None:
        it = self.ready(3)
        items = []
        for item in it.follow("q", 0.001, beat=0.02, deadline=PATIENCE):
            items.append(item)
            if item == Beat(5):
                break
            if len(items) == 4:
                it.heartbeat("S", 5)
        self.assertEqual(items[:4], [[0, 0], [1, 10], [2, 20], Beat(2)])
        self.assertEqual(items[-1], Beat(5))

    def test_full_turns_of_a_drain_are_no_error(self) -> None:
        standin = self.standin(works=False)
        it = self.fed(standin.port, 3)
        it.drain()
        it.heartbeat("S", 5)
        standin.faults["drain"] = "E18 TooManyLeases"
        self.assertEqual(len(list(it.follow("q", deadline=1.5))), 3)
        self.assertGreaterEqual(standin.count("drain"), 2)
        standin.faults["drain"] = "E20 OutOfMemory"
        with self.assertRaises(Refused) as caught:
            next(it.follow("q"))
        self.assertEqual(caught.exception.code, "E20")

    def test_answers_have_numbers_that_go_on(self) -> None:
        """Whoever keeps the number of what was done does nothing twice."""
        it = self.ready()
        done: list[int] = []
        for _ in range(3):
            with self.assertRaises(KeyError):
                with it.follow("q", limit=4) as answers:
                    for row in answers:
                        assert answers.number is not None
                        self.assertEqual(row[0], answers.number)
                        if answers.number < len(done):
                            continue  # it was done before
                        done.append(answers.number)
                        if answers.number % 3 == 1:
                            raise KeyError  # done, and not taken
                        if answers.number == 6:
                            answers.confirm()
        self.assertEqual(done, list(range(8)))
        self.assertEqual(self.taken(it), 7)


class Waits(Cases):
    """Where a program has `status`, a client leaves the work to the workers."""

    def ports(self) -> Iterator[int]:
        """Yields the port of a real server, whose workers may be late, and that of a stand-in.

        The work of that one is never late. So no drain may have come to it.
        """
        with self.subTest("real"):
            yield self.server().port
        with self.subTest("stand-in"):
            standin = self.standin()
            yield standin.port
            self.assertEqual(standin.count("drain"), 0)

    def test_no_drain_is_asked_for_while_workers_work(self) -> None:
        for port in self.ports():
            it = self.fed(port)
            self.assertEqual(list(it.answers("q")), [[n, 10 * n] for n in range(10)])
            it.append("S", [(10, 100)])
            it.heartbeat("S", 20)
            self.assertEqual(list(it.answers("q")), [[10, 100]])
            self.assertEqual(list(it.answers("q")), [])
            self.assertEqual(list(it.follow("q", 0.001, deadline=0.3)), [])

    def test_drain_is_asked_for_once_where_nobody_works(self) -> None:
        standin = self.standin(works=False)
        it = self.fed(standin.port)
        self.assertEqual(len(list(it.answers("q"))), 10)
        self.assertEqual(standin.count("drain"), 1)
        it.append("S", [(10, 100)])
        it.heartbeat("S", 20)
        self.assertEqual(list(it.follow("q", 0.001, deadline=1.5)), [[10, 100]])
        self.assertEqual(standin.count("drain"), 2)

    def test_answers_are_waited_for_up_to_an_instant(self) -> None:
        for port in self.ports():
            it = self.fed(port, 3)

            def write() -> None:
                with Client(port, timeout=PATIENCE) as writer:
                    for instant in range(3, 9):
                        time.sleep(0.01)
                        writer.append("S", [(instant, instant)])
                        writer.heartbeat("S", instant)

            thread = threading.Thread(target=write)
            answers = it.answers("q", 7)
            self.assertEqual(next(answers), [0, 0])
            thread.start()
            found = [row[0] for row in answers]
            thread.join(PATIENCE)
            self.assertEqual(found[:7], list(range(1, 8)))

    def test_sources_that_are_behind_are_not_waited_for(self) -> None:
        """A query over two streams is complete up to what both have closed."""
        for port in self.ports():
            it = self.fed(port, 3)
            it.stream("T", ["a"])
            it.query("both", "Select Istream(S.a) From S [Now], T [Now] Where S.a = T.a")
            it.query("one", "Select Istream(a) From T [Range 5]")
            it.append("T", [(3, 1)])
            it.append("S", [(3, 1)])
            it.heartbeat("T", 3)
            self.assertEqual(list(it.answers("one")), [[3, 1]])
            self.assertEqual(list(it.answers("both")), [])
            it.heartbeat("S", 4)
            self.assertEqual(list(it.answers("both")), [[3, 1]])

    def test_queries_of_others_end_where_a_drain_finds_none(self) -> None:
        standin = self.standin(works=False)
        self.fed(standin.port, 3)
        with Client(standin.port, timeout=PATIENCE) as other:
            self.assertEqual(len(list(other.answers("q"))), 3)
            self.assertEqual(standin.count("drain"), 2)
            self.assertEqual(len(list(other.answers("q", 2))), 0)
        self.assertEqual(standin.count("drain"), 2)

    def test_broken_query_says_so(self) -> None:
        rows = [[[0, 1]], []]

        def answer(request: Mapping[str, Any]) -> Mapping[str, Any]:
            if request["op"] == "status":
                query = {"base": -1, "broken": True, "name": "q", "taken": 0, "upto": -1,
                         "waiting": len(rows[0])}
                stream = {"closed": 9, "columns": ["a"], "name": "S", "rows": 3}
                return {"ok": True, "queries": [query], "streams": [stream]}
            if request["op"] == "take":
                found = rows.pop(0)
                return {"ok": True, "rows": found} if found else {"error": "E15 Broken"}
            return {"ok": True}

        with Client(self.fake(answer).port, timeout=PATIENCE) as it:
            it.query("q", ALL)
            self.assertTrue(it.status().queries["q"].broken)
            answers = it.answers("q")
            self.assertEqual(next(answers), [0, 1])
            with self.assertRaises(Refused) as caught:
                next(answers)
            self.assertEqual(caught.exception.code, "E15")

    def test_query_that_was_dropped_is_refused(self) -> None:
        server = self.server()
        it = self.fed(server.port, 3)
        answers = it.answers("q", 99)
        next(answers)
        with Client(server.port, timeout=PATIENCE) as other:
            other.drop("q")
        with self.assertRaises(Refused) as caught:
            list(answers)
        self.assertEqual(caught.exception.code, "E6")

    def test_process_is_brought_up_to_what_is_closed(self) -> None:
        it = self.process()
        it.stream("S", ["a"])
        it.query("q", ALL)
        it.append("S", [(0, 1), (5, 2)])
        self.assertEqual(list(it.answers("q")), [])
        it.heartbeat("S", 0)
        self.assertEqual(list(it.answers("q")), [[0, 1]])
        self.assertEqual(list(it.answers("q", 9)), [])  # nobody else can close it
        it.heartbeat("S", 9)
        self.assertEqual(list(it.answers("q", 9)), [[5, 2]])


class Judged(unittest.TestCase):
    """Looks at the status say when a drain helps."""

    def setUp(self) -> None:
        self.now = 100.0
        patched = unittest.mock.patch("cqld.progress.time.monotonic", lambda: self.now)
        patched.start()
        self.addCleanup(patched.stop)

    def look(
        self, progress: Progress, upto: int, waiting: int, other: int, closed: int = 9,
        after: float = 0.0,
    ) -> bool:
        """Notes a look so many seconds later, and returns whether a drain is wanted."""
        self.now += after
        queries = [QueryStatus("q", -1, upto, 0, waiting), QueryStatus("r", -1, 0, other, 0)]
        streams = [StreamStatus("S", ("a",), closed, 0), StreamStatus("T", ("a",), 50, 0)]
        status = Status({it.name: it for it in streams}, {it.name: it for it in queries})
        progress.see(status)
        return progress.wants_drain

    def test_drain_is_wanted_where_nothing_changes(self) -> None:
        it = Progress("q", ("S",))
        self.assertFalse(it.wants_drain)
        self.assertFalse(self.look(it, 3, 0, 0))
        self.assertFalse(self.look(it, 3, 0, 0, after=0.4))
        self.assertFalse(self.look(it, 3, 0, 1, after=0.4))  # another query changes
        self.assertTrue(self.look(it, 3, 0, 1, after=0.6))
        it.drained(True)
        self.assertFalse(self.look(it, 3, 0, 1, after=60))  # it changed nothing
        self.assertFalse(self.look(it, 3, 0, 1, closed=10))
        self.assertTrue(self.look(it, 3, 0, 1, closed=10, after=2))
        it.drained(False)
        self.assertFalse(self.look(it, 3, 0, 1, closed=10, after=1.5))  # refused: it waits longer
        self.assertTrue(self.look(it, 3, 0, 1, closed=10, after=1))
        self.assertFalse(it.is_complete)
        self.assertFalse(self.look(it, 9, 0, 1, after=9))
        self.assertTrue(it.is_complete)

    def test_backlog_of_others_is_left_to_workers(self) -> None:
        it = Progress("q", ("S",))
        self.assertNotIn(True, [self.look(it, 3, 0, count, after=0.4) for count in range(100)])

    def test_complete_is_what_was_closed_at_first(self) -> None:
        it = Progress("q", ("S",))
        self.look(it, 8, 0, 0)
        self.assertFalse(it.is_complete)
        self.look(it, 9, 0, 0, closed=20)
        self.assertTrue(it.is_complete)
        it = Progress("q", ("S", "T"), goal=12)
        self.look(it, 11, 0, 0, closed=11)
        self.assertFalse(it.is_complete)
        self.assertFalse(self.look(it, 11, 0, 0, closed=11, after=9))  # nothing is to be done
        self.look(it, 12, 0, 0, closed=12)
        self.assertTrue(it.is_complete)

    def test_sources_are_found_in_a_text(self) -> None:
        for text, sources in (
            ("Select Istream(*) From S [Now]", ("S",)),
            ("rstream(select * from S);", ("S",)),
            ("Select Istream(x.k) FROM A [Range 3 Slide 2]As x,B[Partition By k, v Rows 1] y "
             "Where x.k = y.k", ("A", "B")),
            ("Select Istream(*) From S x [Rows 2], S, T Group By k, v", ("S", "T")),
            ("Select", ()),
            ("", ()),
        ):
            self.assertEqual(sources_of(text), sources, text)


class Takes(Cases):
    """Where a program has none, answers are taken at once: what was not handed out is there."""

    def test_unseen_answers_are_kept(self) -> None:
        standin = self.without_peek()
        it = self.fed(standin.port)
        follow = it.follow("q", limit=4)
        self.assertEqual(next(follow), [0, 0])
        self.assertEqual(standin.taken("q"), 4)
        self.assertEqual(follow.unseen, [[1, 10], [2, 20], [3, 30]])
        self.assertEqual(next(follow), [1, 10])

    def test_beats_know_no_instant(self) -> None:
        standin = self.without_peek()
        it = self.fed(standin.port, 0)
        self.assertEqual(next(it.follow("q", beat=0.01, deadline=PATIENCE)), Beat(None))

    def test_refused_drain_loses_no_answer(self) -> None:
        standin = self.without_peek()
        it = self.fed(standin.port, 3)
        it.drain()
        follow = it.follow("q", 0)
        standin.faults["drain"] = "E20 OutOfMemory"
        with self.assertRaises(Refused):
            next(follow)
        self.assertEqual([next(follow)[0] for _ in range(3)], [0, 1, 2])


class Troubles(Cases):
    """A server that is slow or goes away."""

    def test_look_that_timed_out_goes_on(self) -> None:
        standin = self.standin()
        go = threading.Event()

        def slow(request: Mapping[str, Any]) -> Mapping[str, Any] | None:
            if request["op"] in ("peek", "take"):
                go.wait(PATIENCE)
            return standin.pass_on(request)

        fake = self.fake(slow)
        it = self.fed(fake.port, 3)
        follow = it.follow("q", 0, timeout=0.05)
        for _ in range(3):
            with self.assertRaises(TimedOut):
                next(follow)
        self.assertEqual(fake.count("peek"), 1)
        go.set()
        found: list[Any] = []
        while len(found) < 3:
            try:
                found.append(next(follow))
            except TimedOut:
                pass
        self.assertEqual([row[0] for row in found], [0, 1, 2])
        it.settle()
        go.clear()
        with self.assertRaises(TimedOut):
            follow.confirm()
        go.set()
        while True:
            try:
                follow.confirm()
                break
            except TimedOut:
                pass
        self.assertEqual(standin.taken("q"), 3)

    def test_server_that_goes_away_says_so(self) -> None:
        server = self.server()
        it = self.ready(server=server)
        follow = it.follow("q", limit=2)
        next(follow)
        server.close()
        next(follow)
        with self.assertRaises(ConnectionLost) as caught:
            next(follow)
        self.assertEqual(caught.exception.unknown[0]["op"], "take")
