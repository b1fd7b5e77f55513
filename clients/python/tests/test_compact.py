"""Compaction: a log cut to what later answers need gives the replies of the whole log."""

from __future__ import annotations

import contextlib
import io
import json
import sys
import tempfile
import unittest
from collections.abc import Sequence
from pathlib import Path
from random import Random

sys.path.insert(0, str(Path(__file__).resolve().parent))

from growth_support import compact_json, replies_of  # noqa: E402
from compare import Script  # noqa: E402

from cqld import find_program  # noqa: E402
from cqld.growth.compact import Cutter, compact_log, main  # noqa: E402
from cqld.growth.compactor import Compactor, compact  # noqa: E402
from cqld.growth.errors import LogFault, UnknownName  # noqa: E402
from cqld.growth.log import lines_of  # noqa: E402
from cqld.growth.script import (  # noqa: E402
    Append, Drop, Heartbeat, Query, Reply, Request, Stream, Take, read_reply, read_request,
    write_request)

SCRIPTS = 150


def rows_after(requests: Sequence[Request], query: str, mark: int) -> list[list[int]]:
    """Returns the answers of a query above an instant, in a run of requests."""
    lines = [write_request(request) for request in requests]
    lines += ['{"op":"drain"}', write_request(Take(query, 4096))]
    rows: list[list[int]] = json.loads(replies_of(lines)[-1])["rows"]
    return [row for row in rows if row[0] > mark]


class CutterTest(unittest.TestCase):

    def test_random_scripts_cut_anywhere_have_the_same_replies(self) -> None:
        program = find_program("cqlrun")
        for seed in range(SCRIPTS):
            draw = Random(seed)
            lines = [compact_json(request) for request in Script(seed, has_looks=False).requests]
            replies = replies_of(lines)
            for cut in draw.sample(range(len(lines)), 3):
                cutter = Cutter()
                for line, reply in zip(lines[:cut], replies):
                    cutter.note(read_request(line), read_reply(reply))
                left = [write_request(request) for request in cutter.cut(program)]
                found = replies_of(left + lines[cut:])[len(left):]
                self.assertEqual(found, replies[cut:], (seed, cut))

    def test_answers_that_were_taken_in_part_are_not_taken_again(self) -> None:
        lines = [
            '{"op":"stream","name":"S","columns":["a"],"from":0}',
            '{"op":"query","name":"q","text":"Select Rstream(*) From S [Range 2]"}',
            compact_json({"op": "append", "stream": "S", "rows": [[1, n] for n in range(9)]}),
            '{"op":"heartbeat","stream":"S","at":9}', '{"op":"drain"}',
            *['{"op":"take","query":"q","limit":4}'] * 7,
        ]
        replies = replies_of(lines)
        for cut in range(len(lines) + 1):
            cutter = Cutter()
            for line, reply in zip(lines[:cut], replies):
                cutter.note(read_request(line), read_reply(reply))
            left = [write_request(request) for request in cutter.cut(find_program("cqlrun"))]
            self.assertEqual(replies_of(left + lines[cut:])[len(left):], replies[cut:], cut)

    def test_replies_that_memory_decided_are_refused(self) -> None:
        with self.assertRaises(LogFault):
            Cutter().note(read_request('{"op":"drain"}'), Reply("E20 OutOfMemory"))


class CompactorTest(unittest.TestCase):
    """The rule, and the two ways to get it wrong."""

    def test_a_query_is_not_registered_at_its_mark(self) -> None:
        log: list[Request] = [
            Stream("S", ("a",), 0), Query("q", "Select Istream(Count(*)) From S [Now]"),
            Heartbeat("S", 4)]
        left = compact(log, {"q": 4})
        for requests in (log, left):  # nothing changes at 5, so nothing is said
            self.assertEqual(rows_after([*requests, Heartbeat("S", 5)], "q", 4), [])
        naive: list[Request] = [
            Stream("S", ("a",), 5), Query("q", "Select Istream(Count(*)) From S [Now]")]
        self.assertEqual(rows_after([*naive, Heartbeat("S", 5)], "q", 4), [[5, 0]])

    def test_of_equal_rows_the_arrival_decides(self) -> None:
        text = "Select Rstream(*) From S [Rows 2]"
        log: list[Request] = [
            Stream("S", ("a",), 0), Query("q", text),
            Append("S", [(3, 1), (3, 2), (3, 1), (3, 3)]), Heartbeat("S", 3)]
        left = compact(log, {"q": 3})
        later: list[Request] = [Append("S", [(4, 9)]), Heartbeat("S", 4)]
        self.assertEqual(rows_after([*left, *later], "q", 3), rows_after([*log, *later], "q", 3))
        rows = [row for request in left if isinstance(request, Append) for row in request.rows]
        self.assertEqual(rows, [(3, 1), (3, 3)])

    def test_rows_go_as_soon_as_no_query_needs_them(self) -> None:
        compactor = Compactor()
        compactor.note(Stream("S", ("k", "v"), 0))
        compactor.note(Query("sums", "Select Rstream(k, Sum(v)) From S [Range 9] Group By k"))
        compactor.note(Query("last", "Select Rstream(*) From S [Partition By k Rows 1]"))
        most = 0
        for instant in range(20_000):
            compactor.note(Append("S", [(instant, instant % 7, 1)]))
            compactor.note(Heartbeat("S", instant))
            for query in compactor.queries:
                compactor.answered(query, instant)
            most = max(most, compactor.size)
        left = compactor.script()
        self.assertLess(most, 1_100)
        self.assertEqual(sum(len(it.rows) for it in left if isinstance(it, Append)), 10)
        self.assertEqual(len(left), 5)

    def test_names_that_are_not_there_are_a_named_error(self) -> None:
        compactor = Compactor()
        compactor.note(Stream("S", ("k",), 0))
        bad: list[Request] = [
            Append("T", [(1, 1)]), Heartbeat("T", 1), Drop("q"),
            Query("q", "Select Istream(*) From T"),
            Query("q", "Select Istream(*) From S [Partition By j Rows 1]")]
        for request in bad:
            with self.assertRaises(UnknownName):
                compactor.note(request)
        for call in (compactor.closed, compactor.mark):
            with self.assertRaises(UnknownName):
                call("q")


class FilesTest(unittest.TestCase):

    def setUp(self) -> None:
        folder = Path(self.enterContext(tempfile.TemporaryDirectory()))
        self.log, self.out = folder / "LOG", folder / "OUT"
        self.new, self.new_out = folder / "NEW", folder / "NEW_OUT"
        self.program = find_program("cqlrun")

    def lines(self, limit: int = 4) -> list[str]:
        lines = ['{"op":"stream","name":"S","columns":["k","v"],"from":0}',
                 '{"op":"query","name":"q","text":"Select Istream(k, Sum(v)) From S [Range 9] '
                 'Group By k"}']
        for at in range(300):
            rows = [[at, number % 5, at] for number in range(20)]
            lines += [compact_json({"op": "append", "stream": "S", "rows": rows}),
                      compact_json({"op": "append", "stream": "S", "rows": [[at - 1, 1, 1]]}),
                      compact_json({"op": "heartbeat", "stream": "S", "at": at}),
                      '{"op":"drain"}', "",
                      compact_json({"op": "take", "query": "q", "limit": limit})]
        return lines

    def test_a_log_and_its_replies_become_short_and_go_on_the_same(self) -> None:
        lines = self.lines()
        replies = replies_of(lines)
        self.log.write_text("".join(f"{line}\n" for line in lines) + '{"op":"ta')
        self.out.write_bytes(b"".join(reply + b"\n" for reply in replies[:1_400]))
        done = compact_log(self.log, self.new, self.program, (self.out, self.new_out))
        self.assertEqual(done.answered, 1_400)
        self.assertGreater(done.refused, 270)
        self.assertLess(done.left, 30)
        new = self.new.read_bytes()
        self.assertTrue(new.endswith(b'\n{"op":"ta'))
        found = replies_of(line.decode() for line in lines_of(self.new))
        kept = list(lines_of(self.new_out))
        self.assertEqual(found[:len(kept)], kept)
        self.assertEqual(found[len(kept):], replies[1_400:])

    def test_without_replies_an_engine_is_asked(self) -> None:
        lines = self.lines(4_096)
        self.log.write_text("".join(f"{line}\n" for line in lines))
        with contextlib.redirect_stdout(io.StringIO()) as shown:
            self.assertEqual(
                main([str(self.log), str(self.new), "--program", self.program]), 0)
        self.assertRegex(shown.getvalue(), r"^1502 lines answered, \d+ of them refused: \d+ left")
        self.assertLess(self.new.stat().st_size, self.log.stat().st_size / 40)
        later = ['{"op":"heartbeat","stream":"S","at":310}', '{"op":"drain"}',
                 *['{"op":"take","query":"q","limit":4096}'] * 2]
        new = [line.decode() for line in lines_of(self.new)]
        self.assertEqual(replies_of(new + later)[-4:], replies_of(lines + later)[-4:])

    def test_a_file_that_is_unfit_is_a_named_error_and_nothing_is_written(self) -> None:
        cases = [
            (b'{"op":"drain"}\n', b'{"ok":true}\n{"ok":true}\n', "no line of"),
            (b'{"op":"drain"}\n', b"nonsense\n", "no reply"),
            (b"nonsense\n", b'{"ok":true}\n', "no JSON"),
            (b'{"op":"append"}\n', b'{"ok":true}\n', "no request"),
            (b'{"op":"heartbeat","stream":"S","at":1}\n{"op":"drain"}\n',
             b'{"ok":true}\n{"ok":true}\n', "no stream S"),
        ]
        for log, out, fault in cases:
            self.log.write_bytes(log)
            self.out.write_bytes(out)
            with contextlib.redirect_stderr(io.StringIO()) as errors:
                words = [str(self.log), str(self.new), "--program", self.program]
                words += ["--replies", str(self.out), str(self.new_out)]
                self.assertEqual(main(words), 2)
            self.assertIn(fault, errors.getvalue())
            self.assertFalse(self.new.exists() or self.new_out.exists())
        self.new.write_bytes(b"mine")
        with self.assertRaises(LogFault):
            compact_log(self.log, self.new, self.program)
        self.assertEqual(self.new.read_bytes(), b"mine")


if __name__ == "__main__":
    unittest.main()
