"""A log in a file: the scripts of shell over kills, producers side by side, and refused lines."""

from __future__ import annotations

import contextlib
import io
import json
import os
import signal
import subprocess
import sys
import tempfile
import threading
import unittest
from pathlib import Path
from random import Random

sys.path.insert(0, str(Path(__file__).resolve().parent))

from growth_support import PACKAGE, replies_of, wait_for  # noqa: E402

from cqld import find_program  # noqa: E402
from cqld.growth.errors import LogFault  # noqa: E402
from cqld.growth.log import Log, answered, lines_of, main, refused, torn  # noqa: E402
from cqld.growth.script import Append, Drain, Heartbeat, Other, Stream  # noqa: E402

SHELL = PACKAGE.parent / "shell"
EXAMPLES = PACKAGE.parent.parent / "examples"


class ShellTest(unittest.TestCase):
    """The scripts of `clients/shell`."""

    def setUp(self) -> None:
        self.folder = Path(self.enterContext(tempfile.TemporaryDirectory()))
        self.log, self.out = self.folder / "LOG", self.folder / "OUT"
        self.env = {**os.environ, "CQLRUN": find_program("cqlrun")}

    def start(self, *words: object) -> "subprocess.Popen[bytes]":
        return subprocess.Popen([str(word) for word in words], env=self.env,
                                start_new_session=True, stderr=subprocess.DEVNULL)

    def count(self) -> int:
        return self.out.read_bytes().count(b"\n") if self.out.exists() else 0

    def test_tail_log_over_kills_answers_each_line_once(self) -> None:
        draw = Random(7)
        lines = (EXAMPLES / "trades.jsonl").read_text().splitlines()[:2]
        for instant in range(1_500):
            rows = [[instant, draw.randrange(5), draw.randrange(90, 130), 1]]
            lines.append(json.dumps({"op": "append", "stream": "Trades", "rows": rows}))
            lines.append(json.dumps({"op": "heartbeat", "stream": "Trades", "at": instant}))
            if instant % 3 == 0:
                lines.append('{"op":"drain"}')
                lines.append('{"op":"take","query":"volume","limit":100}')
        told = 0
        for life in range(8):
            process = self.start(SHELL / "tail_log.sh", self.log, self.out)
            try:
                upto = len(lines) * (life + 1) // 8
                with Log(self.log) as log:
                    log.write_lines(line.encode() for line in lines[told:upto])
                # the last life answers all, the others are killed somewhere
                goal = upto if life == 7 else draw.randrange(told + 1, upto)
                told = upto
                wait_for(lambda: self.count() >= goal)
            finally:
                os.killpg(process.pid, signal.SIGKILL)
                process.wait()
            if life % 2:  # a kill may tear a reply, and a producer that dies a request
                with self.out.open("ab") as file:
                    file.write(b'{"ok":tr')
        self.assertEqual(self.out.read_bytes().splitlines()[:len(lines)], replies_of(lines))

    def test_a_second_tail_log_waits_for_the_first(self) -> None:
        first = self.start(SHELL / "tail_log.sh", self.log, self.out)
        second = None
        try:
            with Log(self.log) as log:
                log.write([Drain()] * 10)
            wait_for(lambda: self.count() == 10)
            second = self.start(SHELL / "tail_log.sh", self.log, self.out)
            os.killpg(first.pid, signal.SIGKILL)
            first.wait()
            with Log(self.log) as log:
                log.write([Drain()] * 10)
            wait_for(lambda: self.count() >= 20)
            self.assertEqual(self.out.read_bytes(), b'{"ok":true}\n' * 20)
        finally:
            for process in (first, second):
                if process is not None:
                    with contextlib.suppress(ProcessLookupError):
                        os.killpg(process.pid, signal.SIGKILL)
                    process.wait()

    def test_durable_goes_on_where_it_ended(self) -> None:
        for name in ("trades", "windows", "two_streams", "faults"):
            path = EXAMPLES / f"{name}.jsonl"
            if not path.exists():
                continue
            lines = path.read_text().splitlines()
            self.log.unlink(missing_ok=True)
            found = b""
            half = len(lines) // 2
            for part in (lines[:half], lines[half:]):
                done = subprocess.run(
                    [SHELL / "durable.sh", self.log], input="".join(f"{it}\n" for it in part),
                    env=self.env, text=True, stdout=subprocess.PIPE, check=True)
                found += done.stdout.encode()
            self.assertEqual(found.splitlines(), replies_of(lines), name)

    def test_durable_ends_a_torn_line_first(self) -> None:
        self.log.write_bytes(b'{"op":"drain"}\n{"op":"dra')
        done = subprocess.run([SHELL / "durable.sh", self.log], input=b'{"op":"drain"}\n',
                              env=self.env, stdout=subprocess.PIPE, check=True)
        self.assertEqual(done.stdout, b'{"ok":true}\n')
        self.assertEqual(list(lines_of(self.log)),
                         [b'{"op":"drain"}', b'{"op":"dra', b'{"op":"drain"}'])


class LogTest(unittest.TestCase):
    """The log in Python."""

    def setUp(self) -> None:
        self.folder = Path(self.enterContext(tempfile.TemporaryDirectory()))
        self.path, self.out = self.folder / "LOG", self.folder / "OUT"

    def test_producers_side_by_side_tear_no_line(self) -> None:
        def produce(number: int) -> None:
            with Log(self.path) as log:
                for at in range(200):
                    log.write([Heartbeat(f"S{number}", at), Append("S", [(at, number)] * 50)])

        threads = [threading.Thread(target=produce, args=(number,)) for number in range(4)]
        for thread in threads:
            thread.start()
        for thread in threads:
            thread.join()
        lines = [json.loads(line) for line in lines_of(self.path)]
        self.assertEqual(len(lines), 1_600)
        for number in range(4):
            beats = [it["at"] for it in lines if it.get("stream") == f"S{number}"]
            self.assertEqual(beats, list(range(200)))
        self.assertEqual(lines[1::2], [it for it in lines if it["op"] == "append"])

    def test_a_torn_last_line_is_ended_and_refused_and_those_after_it_are_whole(self) -> None:
        self.path.write_bytes(b'{"op":"drain"}\n{"op":"append","stream":"S","rows":[[1,')
        self.assertEqual(torn(self.path), b'{"op":"append","stream":"S","rows":[[1,')
        with Log(self.path, sync=True) as log:
            self.assertEqual(log.write([Drain(), Other("forget")]), 2)
        self.assertEqual(torn(self.path), b"")
        lines = [line.decode() for line in lines_of(self.path)]
        replies = replies_of(lines)
        self.assertEqual([b"N1 NotJson" in reply for reply in replies],
                         [False, True, False, False])
        self.out.write_bytes(b"".join(reply + b"\n" for reply in replies))
        self.assertEqual([it.number for it in refused(self.path, self.out)], [2])

    def test_a_line_that_is_too_long_is_not_written(self) -> None:
        with Log(self.path) as log:
            log.write([Drain()])
            with self.assertRaises(LogFault):
                log.write([Drain(), Append("S", [(1, 2**39)] * 5_000)])
        self.assertEqual(self.path.read_bytes(), b'{"op":"drain"}\n')

    def test_a_disk_that_is_full_is_a_named_error(self) -> None:
        with Log(Path("/dev/full")) as log, self.assertRaises(LogFault) as caught:
            log.write([Drain()])
        self.assertIn("No space left", str(caught.exception))
        with self.assertRaises(LogFault):
            Log(self.folder)

    def test_refused_lines_are_shown_with_their_numbers(self) -> None:
        lines = ['{"op":"stream","name":"S","columns":["a"],"from":0}', "", "  ",
                 '{"op":"append","stream":"S","rows":[[0]]}', "{", '{"op":"drain"}']
        self.path.write_text("".join(f"{line}\n" for line in lines) + '{"op":"dr')
        self.out.write_bytes(b"".join(reply + b"\n" for reply in replies_of(lines)[:3]))
        self.assertEqual([it.number for it in answered(self.path, self.out)], [1, 4, 5])
        shown = io.StringIO()
        with contextlib.redirect_stdout(shown):
            self.assertEqual(main([str(self.path), str(self.out)]), 1)
        first, second, third = shown.getvalue().splitlines()
        self.assertTrue(first.startswith(f"{self.path}:4: E7 BadWidth: "))
        self.assertTrue(second.startswith(f"{self.path}:5: N1 NotJson: "))
        self.assertTrue(third.startswith(f"{self.path}: its last line is torn: "))

    def test_replies_of_another_log_are_a_named_error(self) -> None:
        with Log(self.path) as log:
            log.write([Stream("S", ("a",), 0)])
        for replies in (b'{"ok":true}\n{"ok":true}\n', b"nonsense\n", b'{"rows":3}\n'):
            self.out.write_bytes(replies)
            with self.assertRaises(LogFault):
                list(answered(self.path, self.out))
            with contextlib.redirect_stderr(io.StringIO()):
                self.assertEqual(main([str(self.path), str(self.out)]), 2)
        with contextlib.redirect_stderr(io.StringIO()) as errors:
            self.assertEqual(main([str(self.path), str(self.folder / "none")]), 2)
        self.assertIn("No such file", errors.getvalue())


if __name__ == "__main__":
    unittest.main()
