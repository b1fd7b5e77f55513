"""The mapping to SQL: SQLite gives the answers of the engine, in their order."""

from __future__ import annotations

import contextlib
import io
import json
import sqlite3
import sys
import unittest
from pathlib import Path
from typing import Any

sys.path.insert(0, str(Path(__file__).resolve().parent))

from growth_support import compact_json, replies_of  # noqa: E402
from compare import Running, Script  # noqa: E402

from cqld.growth.to_sql import Dialect, Unmapped, main, to_sql  # noqa: E402

SCRIPTS = 220
TAKES = 4  # of each query, of 4,096 answers each


def engine_answers(script: Script) -> list[list[list[Any]]]:
    """Returns all answers of each query in one run, where none is dropped."""
    lines = [compact_json(request) for request, reply in zip(script.requests, script.replies)
             if "ok" in reply and request["op"] not in ("take", "drop", "forget")]
    lines.append('{"op":"drain"}')
    count = len(lines)
    for number in range(len(script.queries)):
        lines += [compact_json({"op": "take", "query": f"q{number}", "limit": 4_096})] * TAKES
    parts = [json.loads(reply)["rows"] for reply in replies_of(lines)[count:]]
    return [sum(parts[at:at + TAKES], []) for at in range(0, len(parts), TAKES)]


def sql_answers(text: str, script: Script, running: Running) -> list[list[Any]]:
    """Returns what SQLite answers for a query of a script."""
    database = sqlite3.connect(":memory:")
    upto = min(stream.closed for stream in running.streams)
    database.execute("CREATE TABLE instants (inst INTEGER)")
    database.executemany("INSERT INTO instants VALUES (?)",
                         [(at,) for at in range(running.base + 1, upto + 1)])
    for number, (stream, place) in enumerate(zip(running.streams, running.places)):
        columns = ", ".join(f"c{at} INTEGER" for at in range(len(stream.columns)))
        database.execute(f"CREATE TABLE source_{number} (ts INTEGER, arrival INTEGER, {columns})")
        marks = ", ".join("?" * (2 + len(stream.columns)))
        database.executemany(
            f"INSERT INTO source_{number} VALUES ({marks})",
            [(at, arrival, *row) for at, arrival, row in stream.elements
             if at > running.base and arrival >= place])
    streams = {name: stream.columns for name, stream in script.streams.items()}
    found = database.execute(to_sql(text, streams, Dialect.SQLITE)).fetchall()
    database.close()
    return [list(row) for row in found]


class SqlTest(unittest.TestCase):

    def test_sqlite_gives_the_answers_of_the_engine_in_their_order(self) -> None:
        queries = answers = 0
        for seed in range(SCRIPTS):
            script = Script(seed, has_looks=False)
            texts = [request["text"] for request in script.requests if request["op"] == "query"]
            wanted = engine_answers(script)
            for text, running, rows in zip(texts, script.queries, wanted):
                if len(rows) < TAKES * 4_096:
                    self.assertEqual(sql_answers(text, script, running), rows, (seed, text))
                    queries, answers = queries + 1, answers + len(rows)
        self.assertGreater(queries, 2 * SCRIPTS)
        self.assertGreater(answers, 10 * SCRIPTS)

    def test_a_text_that_cannot_be_mapped_is_a_named_error(self) -> None:
        faults = {
            "Select Istream(a From S": "Q4",
            "Select Istream(b) From S": "Q8",
            "Select Istream(a) From T": "Q7",
            "Select Istream(A.a) From S A, S B": "Q11",
            "Select Istream(*) From S Group By a": "Q12",
        }
        for text, code in faults.items():
            with self.assertRaises(Unmapped) as caught:
                to_sql(text, {"S": ["a"]})
            self.assertEqual(caught.exception.fault.code, code)

    def test_the_command_writes_the_select_or_the_fault(self) -> None:
        out, errors = io.StringIO(), io.StringIO()
        with contextlib.redirect_stdout(out), contextlib.redirect_stderr(errors):
            self.assertEqual(main(["--stream", "S:a", "Select Istream(*) From S [Now]"]), 0)
            self.assertEqual(main(["--stream", "S:a", "Select Istream(b) From S"]), 2)
        self.assertIn("EXCEPT ALL", out.getvalue())
        self.assertIn("Q8 UnknownColumn", errors.getvalue())


if __name__ == "__main__":
    unittest.main()
