"""Client and Process over the real programs, and over servers that fail."""

from __future__ import annotations

import os
import pickle
import random
import re
import signal
import socket
import subprocess
import sys
import threading
import time
import unittest
from collections.abc import Iterator, Mapping
from typing import Any

from support import PACKAGE, PATIENCE, Case, environment, wait_until

import cqld
from cqld import (
    BadReply,
    BadRequest,
    BadRow,
    BatchRefused,
    CannotConnect,
    Client,
    Closed,
    Connection,
    ConnectionLost,
    LateRow,
    PortTaken,
    Process,
    ProgramFailed,
    ProgramMissing,
    Refused,
    Server,
    Skipped,
    TimedOut,
    find_program,
)

ALL = "Select Istream(*) From S [Now]"
DONE = {"ok": True}


def all_answers(connection: Connection, query: str, count: int) -> list[list[int | None]]:
    """Takes answers until there are so many."""
    rows: list[list[int | None]] = []
    until = time.monotonic() + PATIENCE
    while len(rows) < count and time.monotonic() < until:
        rows += connection.answers(query)
    return rows


class Calls(Case):
    """Both clients have the same calls."""

    def connections(self) -> Iterator[Connection]:
        for kind in (self.client, self.process):
            with self.subTest(kind.__name__):
                yield kind()

    def test_every_call_is_answered(self) -> None:
        for it in self.connections():
            it.stream("S", ["a", "b"], 1)
            it.query("q", ALL, [(1, 1), (1, 1), (1, 0)])
            self.assertEqual([one.kind for one in it.plan("q")], ["Window", "Project", "ToStream"])
            self.assertEqual(it.append("S", [(1, 5, None), [3, 6, 7], (2, 0, -1)]), 3)
            it.heartbeat("S", 2)
            self.assertEqual(all_answers(it, "q", 2), [[1, 5, None], [2, 0, -1]])
            it.heartbeat("S", 3)
            it.drain()
            rows: list[Any] = []
            while not rows:
                rows = it.take("q", 1)
            self.assertEqual(rows, [[3, 6, 7]])
            it.forget()
            it.drop("q")
            with self.assertRaises(Refused) as caught:
                it.take("q")
            self.assertEqual((caught.exception.code, caught.exception.name), ("E6", "UnknownQuery"))
            self.assertEqual(it.ask("drain"), DONE)

    def test_refusal_says_code_place_and_request(self) -> None:
        for it in self.connections():
            it.stream("S", ["a"])
            with self.assertRaises(Refused) as caught:
                it.query("q", "Select Istream(a) From S [Now] Where a >")
            refused = caught.exception
            self.assertEqual(refused.fault, "Q4 Unexpected at 40")
            self.assertEqual((refused.code, refused.name, refused.place), ("Q4", "Unexpected", 40))
            self.assertEqual(refused.request["name"], "q")
            with self.assertRaises(Refused) as caught:
                it.heartbeat("S", -1)
            self.assertEqual((caught.exception.code, caught.exception.place), ("E9", None))

    def test_request_that_cannot_be_written_is_not_sent(self) -> None:
        for it in self.connections():
            with self.assertRaises(BadRequest):
                it.query("q", "x" * 70_000)
            with self.assertRaises(BadRequest):
                it.ask("take", query=object())
            it.drain()

    def test_closed_client_sends_nothing(self) -> None:
        for it in self.connections():
            it.close()
            it.close()
            with self.assertRaises(Closed):
                it.drain()

    def test_status_and_peek_are_answered(self) -> None:
        for it in self.connections():
            it.stream("S", ["a"])
            it.query("q", ALL)
            it.append("S", [(0, 1)])
            it.heartbeat("S", 0)
            self.assertIn(it.peek("q"), ([], [[0, 1]]))
            self.assertEqual(it.status().streams["S"].closed, 0)
            it.drain()
            wait_until(lambda: it.peek("q") == [[0, 1]])
            query = it.status().queries["q"]
            self.assertEqual(query, cqld.QueryStatus("q", -1, 0, 0, 1))
            with self.assertRaises(Refused) as caught:
                it.peek("none")
            self.assertEqual(caught.exception.code, "E6")


    def test_answers_of_no_query_are_refused(self) -> None:
        for it in self.connections():
            it.stream("S", ["a"])
            for upto in (None, 7):
                with self.assertRaises(Refused) as caught:
                    list(it.answers("none", upto))
                self.assertEqual(caught.exception.code, "E6")


class Appends(Case):
    """An append says how many rows were taken, and which one was not."""

    def started(self) -> Process:
        it = self.process()
        it.stream("S", ["a", "b"])
        it.query("q", ALL)
        it.append("S", [(4, -1, -1)])
        it.heartbeat("S", 4)
        it.drain()
        it.take("q")
        return it

    def test_late_row_is_raised_with_its_index_and_the_rest(self) -> None:
        it = self.started()
        rows = iter([(5, 1, 1), (9, 2, 2), (4, 3, 3), (6, 4, 4), (3, 5, 5)])
        with self.assertRaises(LateRow) as caught:
            it.append("S", rows)
        late = caught.exception
        self.assertEqual((late.index, late.row, late.instant), (2, (4, 3, 3), 4))
        self.assertEqual((late.fault, late.column, late.taken), ("E10 Late", "instant", 2))
        self.assertEqual(list(late.rest), [(6, 4, 4), (3, 5, 5)])
        skipped = Skipped()
        self.assertEqual(it.append("S", late.rest, skip=skipped), 1)
        self.assertEqual([one.row for one in skipped.late], [(3, 5, 5)])
        it.heartbeat("S", 9)
        self.assertEqual(list(it.answers("q")), [[5, 1, 1], [6, 4, 4], [9, 2, 2]])

    def test_bad_rows_are_named(self) -> None:
        table: list[tuple[Any, str, int | None, str | None]] = [
            ((5, "x", 1), "N2", 1, "a"),
            ((5, 1, 1.5), "N2", 2, "b"),
            ((5, True, 1), "N2", 1, "a"),
            ((5, 1, [1]), "N2", 2, "b"),
            (("5", 1, 1), "N2", 0, "instant"),
            ((None, 1, 1), "N2", 0, "instant"),
            ((), "N2", None, None),
            (5, "N2", None, None),
            ("511", "N2", None, None),
            ({"a": 1}, "N2", None, None),
            ((5, 1), "E7", None, None),
            ((5, 1, 2, 3), "E7", None, None),
            ((5, 2**40, 1), "E8", 1, "a"),
            ((5, 1, -(2**40)), "E8", 2, "b"),
            ((5, 10**400, 1), "E8", 1, "a"),
            ((-1, 1, 1), "E9", 0, "instant"),
            ((2**40 + 1, 1, 1), "E9", 0, "instant"),
        ]
        it = self.started()
        for row, code, position, column in table:
            with self.subTest(row=row):
                with self.assertRaises(BadRow) as caught:
                    it.append("S", [(5, 0, 0), row])
                bad = caught.exception
                self.assertEqual((bad.code, bad.index, bad.taken), (code, 1, 1))
                self.assertEqual((bad.position, bad.column), (position, column))
                self.assertIs(bad.row, row)
                self.assertIn("row 1", str(bad))

    def test_width_is_found_where_the_columns_are_unknown(self) -> None:
        it = self.started()
        it.columns.clear()
        skipped = Skipped()
        rows = [(5, 1, 1), (5, 1), (6, 2, 2), (6, 1, 2, 3), (7,)]
        self.assertEqual(it.append("S", rows, skip=skipped), 2)
        self.assertEqual([one.index for one in skipped.bad], [1, 3, 4])
        self.assertEqual({one.code for one in skipped.bad}, {"E7"})

    def test_random_rows_are_taken_or_skipped(self) -> None:
        draw = random.Random(7)
        for share in (0, 0.01, 0.3, 1):
            it = self.started()
            rows: list[Any] = []
            for number in range(3_000):
                kind = draw.choice(["late", "text", "width"]) if draw.random() < share else ""
                instant = draw.randrange(5) if kind == "late" else 5 + number // 3
                cells = [number, "x" if kind == "text" else 0] + [0] * (kind == "width")
                rows.append((instant, *cells))
            skipped = Skipped()
            taken = it.append("S", iter(rows), skip=skipped)
            wrong = [n for n, row in enumerate(rows) if row[0] < 5 or row[2] or len(row) != 3]
            found = sorted(one.index for one in [*skipped.late, *skipped.bad])
            self.assertEqual(found, wrong)
            self.assertEqual((taken, len(skipped)), (3_000 - len(wrong), len(wrong)))
            it.heartbeat("S", 2_000)
            good = [list(row) for n, row in enumerate(rows) if n not in set(wrong)]
            self.assertEqual(list(it.answers("q")), good)

    def test_rows_of_a_generator_go_in_many_lines(self) -> None:
        it = self.client()
        it.stream("S", [f"c{n}" for n in range(8)])
        it.query("q", ALL)
        draw = random.Random(1)
        rows = [[n, *(draw.randrange(10**12) for _ in range(8))] for n in range(5_000)]
        self.assertEqual(it.append("S", (row for row in rows)), 5_000)
        it.heartbeat("S", 4_999)
        self.assertEqual(all_answers(it, "q", 5_000), rows)

    def test_refused_append_keeps_its_rows(self) -> None:
        it = self.process()
        with self.assertRaises(Refused) as caught:
            it.append("T", [(0, 1), (1, 2)])
        self.assertEqual((caught.exception.code, caught.exception.taken), ("E5", 0))
        self.assertEqual(list(caught.exception.rest), [(0, 1), (1, 2)])

    def test_rows_before_the_error_of_an_iterable_are_taken(self) -> None:
        it = self.started()

        def broken() -> Iterator[tuple[int, int, int]]:
            yield from ((5 + n, n, n) for n in range(1_500))
            raise OSError("the feed broke")

        with self.assertRaisesRegex(OSError, "the feed broke") as caught:
            it.append("S", broken())
        self.assertIn("1500 rows", caught.exception.__notes__[0])
        it.heartbeat("S", 2_000)
        self.assertEqual(len(list(it.answers("q"))), 1_500)


class Batches(Case):
    """Requests of a batch go one after the other, and their replies come at its end."""

    def test_batch_is_carried_out_in_order(self) -> None:
        for it in (self.client(), self.process()):
            with it.batch():
                it.stream("S", ["a"])
                it.query("q", ALL)
                self.assertEqual(it.append("S", ((n, n) for n in range(5_000))), 5_000)
                with it.batch():
                    it.heartbeat("S", 4_999)
                it.drain()
                self.assertIn(len(it.take("q", 1)), (0, 1))
            it.drain()

    def test_refusals_come_together_at_the_end(self) -> None:
        it = self.process()
        it.stream("S", ["a"])
        with self.assertRaises(BatchRefused) as caught:
            with it.batch() as batch:
                it.heartbeat("S", 3)
                it.heartbeat("S", 2)
                it.append("S", [(3, 0)])
                it.heartbeat("S", 5)
        refused = caught.exception
        self.assertEqual([one.code for one in refused.refusals], ["E11", "E10"])
        self.assertEqual((refused.code, refused.request["at"]), ("E11", 2))
        self.assertEqual(refused.refusals[1].request["rows"], [[3, 0]])
        self.assertEqual(list(refused.refusals), batch.refusals)
        with self.assertRaises(Refused):
            it.heartbeat("S", 5)

    def test_error_of_the_body_goes_on(self) -> None:
        it = self.process()
        with self.assertRaises(KeyError):
            with it.batch() as batch:
                it.heartbeat("S", 3)
                raise KeyError
        self.assertEqual([one.code for one in batch.refusals], ["E5"])
        it.drain()

    def test_batch_that_is_interrupted_is_settled(self) -> None:
        it = self.process()
        with self.assertRaises(KeyboardInterrupt):
            with it.batch():
                it.stream("S", ["a"])
                it.heartbeat("S", 5)
                it.heartbeat("S", 3)
                raise KeyboardInterrupt
        replies = [reply for _, reply in it.settle()]
        self.assertEqual(replies, [DONE, DONE, {"error": "E11 Backward"}])

    def test_skipping_append_waits_in_a_batch(self) -> None:
        it = self.process()
        skipped = Skipped()
        with it.batch():
            it.stream("S", ["a"], 5)
            self.assertEqual(it.append("S", [(4, 1), (5, 1)], skip=skipped), 1)
        self.assertEqual([one.index for one in skipped.late], [0])

    def test_great_batch_never_blocks(self) -> None:
        for it in (self.client(), self.process()):
            it.stream("S", ["a"])
            with it.batch() as batch:
                for instant in range(20_000):
                    it.append("S", [(instant, 1)] * 10)
                    it.heartbeat("S", instant)

                def are_few() -> bool:
                    it.drain()
                    return len(batch.sent) < 1_000

                wait_until(are_few)  # replies are read on the way
            takes = [it.send("take", query="q", limit=4_096) for _ in range(20_000)]
            self.assertEqual(len(it.settle()), 0)
            for take in takes:
                with self.assertRaises(Refused):
                    take.reply()


class TimeOuts(Case):
    """A reply that comes late is not lost, and the connection stays in step."""

    def test_late_reply_is_settled(self) -> None:
        go = threading.Event()

        def slow(request: Mapping[str, Any]) -> Mapping[str, Any]:
            if request["op"] == "take":
                go.wait(PATIENCE)
                return {"ok": True, "rows": [[1, 2]]}
            return DONE

        fake = self.fake(slow)
        with Client(fake.port, timeout=PATIENCE) as it:
            with self.assertRaises(TimedOut) as caught:
                it.take("q", 7, timeout=0.05)
            self.assertEqual(caught.exception.seconds, 0.05)
            self.assertEqual([one["op"] for one in caught.exception.unknown], ["take"])
            with self.assertRaises(TimeoutError):
                it.drain(timeout=0.05)
            go.set()
            it.heartbeat("S", 1)
            late = it.settle()
            self.assertEqual([reply for _, reply in late], [{"ok": True, "rows": [[1, 2]]}, DONE])
            self.assertEqual(late[0][0], {"op": "take", "query": "q", "limit": 7})
            self.assertEqual(it.settle(), [])

    def test_append_that_timed_out_loses_no_row(self) -> None:
        go = threading.Event()
        appended: list[Any] = []

        def slow(request: Mapping[str, Any]) -> Mapping[str, Any]:
            if appended:
                go.wait(PATIENCE)
            appended.extend(request["rows"])
            return DONE

        rows = [[n, 10**11 + n] for n in range(5_000)]
        source = iter(rows)
        with Client(self.fake(slow).port, timeout=PATIENCE) as it:
            with self.assertRaises(TimedOut) as caught:
                it.append("S", source, timeout=0.5)
            late = caught.exception
            go.set()
            ((request, reply),) = it.settle()
            self.assertEqual((request, reply), (late.unknown[0], DONE))
            self.assertEqual(late.taken + len(request["rows"]), len(appended))
            it.append("S", [*late.rest, *source])
        self.assertEqual(appended, rows)

    def test_pending_can_be_asked_again(self) -> None:
        go = threading.Event()
        fake = self.fake(lambda request: go.wait(PATIENCE) and DONE or None)
        with Client(fake.port) as it:
            pending = it.send("drain")
            with self.assertRaises(TimedOut):
                pending.reply(0.05)
            with self.assertRaises(TimedOut):
                it.settle(0.05)
            go.set()
            self.assertEqual(pending.reply(), DONE)
            self.assertEqual(it.settle(), [])

    def test_batch_that_times_out_is_settled(self) -> None:
        go = threading.Event()
        fake = self.fake(lambda request: go.wait(PATIENCE) and DONE or None)
        with Client(fake.port) as it:
            with self.assertRaises(TimedOut) as caught:
                with it.batch(timeout=0.05):
                    it.drain()
                    it.forget()
            self.assertEqual([one["op"] for one in caught.exception.unknown], ["drain", "forget"])
            go.set()
            self.assertEqual(len(it.settle(PATIENCE)), 2)

    def test_connection_that_no_thread_of_the_server_answers_times_out(self) -> None:
        server = self.server(clients=1)
        first, second = self.client(server), self.client(server)
        first.drain()
        with self.assertRaises(TimedOut):
            second.drain(timeout=0.2)
        first.close()
        self.assertEqual(second.settle()[0][1], DONE)


class Losses(Case):
    """A lost connection says what is unknown."""

    def test_requests_without_a_reply_are_unknown(self) -> None:
        fake = self.fake(lambda request: None if request["op"] == "forget" else DONE)
        it = Client(fake.port, timeout=PATIENCE)
        self.addCleanup(it.close)
        with self.assertRaises(ConnectionLost) as caught:
            with it.batch():
                it.drain()
                it.forget()
                it.heartbeat("S", 1)
        self.assertEqual([one["op"] for one in caught.exception.unknown], ["forget", "heartbeat"])
        with self.assertRaises(Closed):
            it.drain()
        self.assertEqual([one["op"] for one in it.reconnect()], ["forget", "heartbeat"])
        it.drain()
        self.assertEqual(it.reconnect(), ())
        it.drain()

    def test_append_over_a_lost_connection_loses_no_row(self) -> None:
        """Rows taken, rows unknown, rest, and what the iterator still has are all rows."""
        appended: list[Any] = []

        def answer(request: Mapping[str, Any]) -> Mapping[str, Any] | None:
            if len(appended) >= 2_000:
                return None
            appended.extend(request["rows"])
            return DONE

        fake = self.fake(answer)
        rows = iter([(n, 10**11 + n) for n in range(10_000)])
        with Client(fake.port, timeout=PATIENCE) as it:
            with self.assertRaises(ConnectionLost) as caught:
                it.append("S", rows)
        lost = caught.exception
        unknown = [row for request in lost.unknown for row in request["rows"]]
        self.assertEqual(lost.taken, len(appended))
        self.assertGreater(len(unknown), 0)
        everything = [*appended, *unknown, *(list(it) for it in [*lost.rest, *rows])]
        self.assertEqual(everything, [[n, 10**11 + n] for n in range(10_000)])

    def test_server_that_dies_and_comes_back(self) -> None:
        server = self.server()
        it = self.client(server)
        it.stream("S", ["a"])
        server.close()
        with self.assertRaises(ConnectionLost):
            it.heartbeat("S", 1)
        with self.assertRaises(CannotConnect) as caught:
            it.reconnect(0.05)
        self.assertEqual(caught.exception.port, server.port)
        again = Server(server.port, timeout=PATIENCE)
        self.addCleanup(again.close)
        self.assertEqual(it.reconnect(PATIENCE)[0]["at"], 1)
        it.stream("S", ["a"])

    def test_program_that_dies_says_its_status(self) -> None:
        it = self.process()
        it.stream("S", ["a"])
        os.kill(it.pid, signal.SIGKILL)
        with self.assertRaises(ConnectionLost) as caught:
            it.heartbeat("S", 1)
        self.assertIn("status -9", caught.exception.reason)
        self.assertEqual(len(caught.exception.unknown) + len(caught.exception.unsent), 1)
        it.reconnect()
        it.stream("S", ["a"])  # a fresh engine

    def test_program_with_wrong_words_says_so(self) -> None:
        it = Process(workers=0)
        with self.assertRaises(ConnectionLost) as caught:
            it.drain()
        self.assertIn("status 2", caught.exception.reason)

    def test_great_batch_to_a_server_that_dies_ends(self) -> None:
        server = self.server()
        it = self.client(server)
        it.stream("S", ["a"])
        with self.assertRaises(ConnectionLost) as caught:
            with it.batch():
                for instant in range(10_000_000):
                    it.append("S", [(instant, 1)] * 100)
                    if instant == 1_000:
                        server.close()
        self.assertGreater(len(caught.exception.unknown), 0)

    def test_replies_of_something_else_are_bad(self) -> None:
        for line in (b"HTTP/1.1 400 Bad Request\r\n", b"[]\n", b'{"ok":1}\n', b"\xff\n"):
            with self.subTest(line=line):
                fake = self.fake(lambda request: line)
                with Client(fake.port, timeout=PATIENCE) as it:
                    with self.assertRaises(BadReply):
                        it.drain()
                    with self.assertRaises(Closed):
                        it.drain()

    def test_take_without_rows_is_a_bad_reply(self) -> None:
        fake = self.fake(lambda request: DONE)
        with Client(fake.port, timeout=PATIENCE) as it:
            for op in ("take", "peek", "plan"):
                with self.assertRaises(BadReply):
                    getattr(it, op)("q")
            with self.assertRaises(BadReply):
                it.status()

    def test_status_says_how_far_all_is(self) -> None:
        line = (
            b'{"ok":true,"queries":[{"base":-1,"name":"q","taken":5,"upto":3,"waiting":2}],'
            b'"streams":[{"closed":3,"columns":["a"],"name":"S","rows":12}]}\n'
        )
        fake = self.fake(lambda request: line)
        with Client(fake.port, timeout=PATIENCE) as it:
            found = it.status()
        self.assertEqual(dict(found.streams), {"S": cqld.StreamStatus("S", ("a",), 3, 12)})
        self.assertEqual(dict(found.queries), {"q": cqld.QueryStatus("q", -1, 3, 5, 2)})
        self.assertEqual(fake.requests, [{"op": "status"}])


class Starts(Case):
    """What cannot be reached or started says so."""

    def test_nothing_listens(self) -> None:
        with socket.socket() as taken:
            taken.bind(("127.0.0.1", 0))
            port = taken.getsockname()[1]
            with self.assertRaises(CannotConnect) as caught:
                Client(port)
            self.assertEqual((caught.exception.host, caught.exception.port), ("127.0.0.1", port))
        with self.assertRaises(CannotConnect):
            Client(70_000)

    def test_port_that_is_taken(self) -> None:
        server = self.server()
        with self.assertRaises(PortTaken) as caught:
            Server(server.port)
        self.assertEqual((caught.exception.port, caught.exception.status), (server.port, 1))

    def test_wrong_words(self) -> None:
        with self.assertRaises(ProgramFailed) as caught:
            Server(clients=0)
        self.assertEqual(caught.exception.status, 2)

    def test_program_that_is_missing(self) -> None:
        for start in (Process, Server):
            with self.assertRaises(ProgramMissing) as caught:
                start(program="/nowhere/program")
            self.assertEqual(caught.exception.program, "/nowhere/program")
        with self.assertRaises(ProgramMissing):
            find_program("no_such_program")

    def test_program_is_the_one_that_the_environment_names(self) -> None:
        before = os.environ.get("CQLRUN")
        try:
            os.environ["CQLRUN"] = "/some/cqlrun"
            self.assertEqual(find_program("cqlrun"), "/some/cqlrun")
        finally:
            os.environ.pop("CQLRUN")
            if before is not None:
                os.environ["CQLRUN"] = before

    def test_server_that_serves_so_many_ends_well(self) -> None:
        server = Server(serve=1, timeout=PATIENCE)
        self.addCleanup(server.close)
        with Client(server.port, timeout=PATIENCE) as it:
            it.drain()
        server.wait(PATIENCE)

    def test_options_of_a_program(self) -> None:
        table: list[dict[str, Any]] = [{"workers": 2}, {"plain": True}, {"turn": 1}]
        for keys in table:
            with self.subTest(keys=keys):
                it = self.process(**keys)
                it.stream("S", ["a"])
                it.query("q", ALL)
                it.append("S", [(0, 1)])
                it.heartbeat("S", 0)
                self.assertEqual(list(it.answers("q")), [[0, 1]])


class Errors(unittest.TestCase):
    """Every error has one base, shows itself, and survives a copy by pickle."""

    def test_errors_are_shown_and_copied(self) -> None:
        request = {"op": "append", "stream": "S", "rows": [[1, 2]]}
        late = LateRow("E10 Late", request, 3, (1, 2), "closed", 0, "instant")
        late.taken = 7
        table: list[cqld.CqldError] = [
            late,
            Refused("Q4 Unexpected at 40", request),
            BatchRefused([late]),
            BadRow("E7 BadWidth", request, 0, (), "no values"),
            cqld.BadValue("x", "it is no number"),
            BadRequest(request, "too long"),
            CannotConnect("127.0.0.1", 1, "refused"),
            ConnectionLost("gone", [request], [request]),
            BadReply("nonsense"),
            TimedOut(0.5, [request]),
            Closed(),
            ProgramMissing("cqlrun", "not found"),
            ProgramFailed("cqlrun", 1, "read failed"),
            PortTaken("cqld", 1, "bind failed", 7711),
            cqld.ClockBack("a", 1, 2),
            cqld.UnknownProducer("a"),
            cqld.OtherConsumer("q", [[1, 2]]),
            cqld.DictionaryFault("damaged"),
            cqld.UnknownNumber(5),
            cqld.MissingPackage("pandas"),
        ]
        for error in table:
            with self.subTest(type(error).__name__):
                copy = pickle.loads(pickle.dumps(error))
                self.assertIs(type(copy), type(error))
                self.assertEqual(str(copy), str(error))
                self.assertNotEqual(str(error), "")
                self.assertIsInstance(error, cqld.CqldError)
        self.assertEqual(pickle.loads(pickle.dumps(late)).taken, 7)
        classes = {type(error) for error in table} | {cqld.CqldError}
        names = {it for it in cqld.__all__ if isinstance(getattr(cqld, it), type)}
        errors = {getattr(cqld, it) for it in names if issubclass(getattr(cqld, it), Exception)}
        self.assertEqual(classes, errors)


class Documents(Case):
    """What the pages show is what comes."""

    def test_blocks_of_the_readme_print_what_stands_there(self) -> None:
        text = (PACKAGE / "README.md").read_text()
        pattern = r"(?ms)^```python\n(.*?)^```\n(?:\n```text\n(.*?)^```$)?"
        blocks = re.findall(pattern, text)
        self.assertGreater(len(blocks), 3)
        for number, (lines, wanted) in enumerate(blocks):
            with self.subTest(block=number):
                done = subprocess.run(
                    [sys.executable, "-c", lines], capture_output=True, text=True,
                    timeout=PATIENCE, env=environment(), cwd=self.folder(),
                )
                self.assertEqual((done.returncode, done.stderr), (0, ""))
                self.assertEqual(done.stdout, wanted)


if __name__ == "__main__":
    unittest.main()
