"""A watermark of several producers."""

from __future__ import annotations

import random
import threading
from collections.abc import Mapping
from datetime import datetime, timedelta, timezone
from typing import Any

from support import PATIENCE, Case

from cqld import (
    Client,
    ClockBack,
    ConnectionLost,
    Int,
    LateRow,
    Process,
    Refused,
    Stream,
    UnknownProducer,
    Watermark,
)
from cqld import BadValue, Clock

ALL = "Select Istream(*) From S [Now]"


class Watermarks(Case):
    """The least promise is sent, and no more."""

    def started(self) -> Process:
        it = self.process()
        it.stream("S", ["a"])
        it.query("q", ALL)
        return it

    def test_least_promise_closes(self) -> None:
        it = self.started()
        mark = Watermark(it, "S", ["a", "b"])
        self.assertEqual(mark.promise("a", 12), -1)
        self.assertEqual(it.append("S", [(0, 1)]), 1)
        self.assertEqual(mark.slowest, ("b",))
        self.assertEqual(mark.promise("b", 9), 9)
        with self.assertRaises(LateRow):
            it.append("S", [(9, 1)])
        self.assertEqual(it.append("S", [(10, 1)]), 1)
        self.assertEqual(mark.promise("b", 9), 9)
        self.assertEqual(mark.promise("b", 20), 12)
        self.assertEqual(mark.promised, {"a": 12, "b": 20})

    def test_clock_that_goes_back_is_refused(self) -> None:
        it = self.started()
        mark = Watermark(it, "S", ["a"])
        mark.promise("a", 5)
        with self.assertRaises(ClockBack) as caught:
            mark.promise("a", 4)
        back = caught.exception
        self.assertEqual((back.producer, back.at, back.promised), ("a", 4, 5))
        self.assertEqual((mark.closed, mark.promised["a"]), (5, 5))
        for wrong in ("6", 6.0, -1, 2**41):
            with self.assertRaises(BadValue):
                mark.promise("a", wrong)  # type: ignore[arg-type]
        with self.assertRaises(BadValue):
            mark.promise("a", datetime.now(timezone.utc))
        with self.assertRaises(UnknownProducer) as unknown:
            mark.promise("x", 6)
        self.assertEqual(unknown.exception.producer, "x")
        with self.assertRaises(UnknownProducer):
            mark.leave("x")
        self.assertEqual(mark.promise("a", 6), 6)

    def test_long_leap_goes_in_steps(self) -> None:
        it = self.started()
        mark = Watermark(it, "S", ["a"])
        for at in (65_535, 131_072, 131_073, 1_000_000):
            self.assertEqual(mark.promise("a", at), at)
            with self.assertRaises(LateRow):
                it.append("S", [(at, 1)])

    def test_newest_row_allows_for_late_ones(self) -> None:
        it = self.started()
        mark = Watermark(it, "S", ["a"], late=10)
        self.assertEqual(mark.saw("a", 5), -1)
        self.assertEqual(mark.saw("a", 50), 39)
        self.assertEqual(mark.saw("a", 45), 39)
        self.assertEqual(it.append("S", [(40, 1)]), 1)
        self.assertEqual(Watermark(it, "S", ["a"], 39).saw("a", 60), 59)

    def test_producers_come_and_go(self) -> None:
        it = self.started()
        mark = Watermark(it, "S", ["a", "b"])
        mark.promise("a", 30)
        self.assertEqual(mark.leave("b"), 30)
        mark.join("c")
        self.assertEqual(mark.promised, {"a": 30, "c": 30})
        mark.join("a")
        self.assertEqual(mark.promise("a", 40), 30)
        self.assertEqual(mark.leave("c"), 40)
        self.assertEqual(mark.leave("a"), 40)
        self.assertEqual(mark.promised, {})

    def test_what_somebody_closed_already_counts_as_sent(self) -> None:
        it = self.started()
        mark = Watermark(it, "S", ["a"])
        it.heartbeat("S", 7)
        self.assertEqual(mark.promise("a", 5), 5)
        self.assertEqual(mark.promise("a", 8), 8)
        with self.assertRaises(Refused) as caught:
            Watermark(it, "T", ["a"]).promise("a", 1)
        self.assertEqual(caught.exception.code, "E5")

    def test_heartbeat_whose_reply_was_lost_is_sent_again(self) -> None:
        engine = self.started()
        broken = threading.Event()

        def answer(request: Mapping[str, Any]) -> Mapping[str, Any] | None:
            try:
                reply = engine.ask(**request)
            except Refused as refused:
                reply = {"error": refused.fault}
            if broken.is_set():
                return reply
            broken.set()
            return None  # carried out, and then the connection ends

        with Client(self.fake(answer).port, timeout=PATIENCE) as it:
            mark = Watermark(it, "S", ["a"])
            with self.assertRaises(ConnectionLost):
                mark.promise("a", 3)
            self.assertEqual((mark.closed, mark.promised["a"]), (-1, 3))
            it.reconnect()
            self.assertEqual(mark.promise("a", 4), 4)

    def test_stream_with_a_clock_takes_times(self) -> None:
        start = datetime(2026, 11, 27, tzinfo=timezone.utc)
        stream = Stream(self.process(), "S", {"a": Int()}, Clock.milliseconds(start))
        stream.declare(start)
        mark = stream.watermark(["a", "b"], late=5)
        mark.promise("a", start + timedelta(seconds=1))
        self.assertEqual(mark.saw("b", start + timedelta(seconds=2)), 1_000)
        other = Watermark(self.process(), "S", ["a"], start, clock=Clock.milliseconds(start))
        self.assertEqual(other.closed, 0)
        with self.assertRaises(BadValue):
            mark.promise("a", datetime(2026, 11, 27))

    def test_watermark_of_an_unknown_state_asks_for_it(self) -> None:
        status = {"ok": True, "queries": [], "streams": [
            {"name": "S", "columns": ["a"], "closed": 41, "rows": 0}]}
        done = {"ok": True}
        fake = self.fake(lambda request: status if request["op"] == "status" else done)
        with Client(fake.port, timeout=PATIENCE) as it:
            mark = Stream(it, "S", {"a": Int()}).watermark(["a"])
            self.assertEqual(mark.closed, 41)
            self.assertEqual(mark.promise("a", 42), 42)

    def test_threads_share_a_watermark(self) -> None:
        """Producers with clocks of their own append in turn. No row is late, and none is lost."""
        server = self.server(clients=8)
        with Client(server.port, timeout=PATIENCE) as it, Client(server.port) as marker:
            it.stream("S", ["p"])
            it.query("q", "Select Istream(p, Count(*)) From S Group By p")
            names = ["a", "b", "c", "d"]
            mark = Watermark(marker, "S", names)
            faults: list[BaseException] = []

            def produce(name: str) -> None:
                draw = random.Random(name)
                try:
                    with Client(server.port, timeout=PATIENCE) as producer:
                        now = 0
                        for _ in range(150):
                            now += draw.randrange(3)
                            producer.append("S", [(now + 1, names.index(name))])
                            mark.promise(name, now)
                    mark.leave(name)
                except BaseException as error:
                    faults.append(error)

            threads = [threading.Thread(target=produce, args=(name,)) for name in names]
            for thread in threads:
                thread.start()
            for thread in threads:
                thread.join(PATIENCE)
            self.assertEqual(faults, [])
            it.heartbeat("S", mark.closed + 1_000)
            last: dict[int | None, int | None] = {}
            for _, producer, count in it.follow("q", 0.001, deadline=PATIENCE):
                last[producer] = count
                if sum(it or 0 for it in last.values()) == 600:
                    break
            self.assertEqual(last, {0: 150, 1: 150, 2: 150, 3: 150})

    def test_random_promises_send_the_least(self) -> None:
        draw = random.Random(5)
        for _ in range(20):
            it = self.started()
            closed = -1
            promised = {name: -1 for name in "abc"}
            mark = Watermark(it, "S", promised)
            for _ in range(40):
                name = draw.choice("abc")
                at = draw.randrange(0, 200_000)
                if at < promised[name]:
                    with self.assertRaises(ClockBack):
                        mark.promise(name, at)
                else:
                    promised[name] = at
                    self.assertEqual(mark.promise(name, at), min(promised.values()))
                closed = min(promised.values())
                self.assertEqual(mark.closed, closed)
                self.assertEqual(it.append("S", [(closed + 1, 0)]), 1)
            it.close()
