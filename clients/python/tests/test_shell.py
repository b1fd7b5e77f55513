"""The shell `cql`: statements, copies, tables, scripts, servers, and the prompt on a terminal."""

from __future__ import annotations

import io
import json
import os
import pty
import re
import select
import signal
import subprocess
import sys
import threading
import time
import unittest
from collections.abc import Callable, Mapping, Sequence
from contextlib import redirect_stderr, redirect_stdout
from fractions import Fraction
from pathlib import Path
from random import Random
from typing import Any
from unittest.mock import patch

from support import PACKAGE, PATIENCE, Case
from cqld import Client, MemoryDictionary, find_program
from cqld.faults import BadRow
from cqld.language import Fault
from cqld.shell import main
from cqld.shell.commands import Shell
from cqld.shell.completion import completions
from cqld.shell.copying import Copying
from cqld.shell.errors import Interrupted
from cqld.shell.files import RowFile
from cqld.shell.helping import TOPICS, help_lines
from cqld.shell.output import Output
from cqld.shell.pieces import Piece, Pieces
from cqld.shell.progress import Progress, line_of
from cqld.shell.prompt import is_complete
from cqld.shell.reading import read_statement
from cqld.shell.statements import Connect, Copy, Mode
from cqld.shell.tables import table, width_of
from cqld.shell.values import mean_text
from cqld.wire import Row

TRADES = "create stream Trades (symbol text, price decimal(2), amount int) unit second;\n"
VOLUME = (
    "create query volume as Select Rstream(symbol, Sum(amount) As volume, Avg(price) As mean)\n"
    "  From Trades [Range 1 minute Slide 1 minute] Group By symbol Having volume > 100\n"
    "  Every 1 minute;\n"
)
ALL = "create query everything as Select Istream(*) From Trades [Now];\n"
CSV = (
    "second,symbol,price,amount\n5,ACME,10.00,60\n20,ACME,11.00,50\n30,BOND,7.50,90\n"
    "130,BOND,8,1\n"
)
PASTE = "\x1b[?2004h"  # what a terminal is sent at each prompt: text may be pasted
CONTROL = re.compile(r"\x1b\[[0-?]*[ -/]*[@-~]")


class ShellCase(Case):
    """Has shells over engines of their own, whose output is kept."""

    def shell(self, mode: Mode = Mode.TABLE, **keys: Any) -> Shell:
        """Returns a shell in a fresh folder's name, with its output in `out` and `notes`."""
        self.out, self.notes = io.StringIO(), io.StringIO()
        output = Output(self.out, self.notes, mode, 100)
        shell = Shell(output, MemoryDictionary(), **keys)
        self.addCleanup(shell.close)
        return shell

    def said(self) -> str:
        """Returns what was written since the last call, and errors after it."""
        text = self.out.getvalue() + self.notes.getvalue()
        for stream in (self.out, self.notes):
            stream.seek(0)
            stream.truncate()
        return text

    def file(self, text: str | bytes, name: str = "trades.csv") -> Path:
        """Returns a file of a fresh folder with the text."""
        path = self.folder() / name
        path.write_bytes(text.encode() if isinstance(text, str) else text)
        return path

    def answers(self, shell: Shell, query: str = "everything") -> list[str]:
        """Returns the answers of a query as lines of CSV without their header."""
        self.said()
        shell.output.mode = Mode.CSV
        shell.run_text(f"show {query};", "answers")
        shell.output.mode = Mode.TABLE
        return self.said().splitlines()[1:]


class Statements(unittest.TestCase):
    """How statements are cut out of a text, and read."""

    def pieces(self, *texts: str) -> list[Piece]:
        """Returns the statements of texts that come one after the other."""
        pieces = Pieces()
        found = [piece for text in texts for piece in pieces.feed(text)]
        return found + pieces.finish()

    def test_statements_end_at_semicolons_outside_of_quotes_and_comments(self) -> None:
        found = self.pieces("-- first;\nshow a; show\n  'it''s; -- no';\n", ".help copy\nexit\n",
                            "\\d T\n;;\n  -- end\n  show b -- c;\n")
        self.assertEqual(
            [(piece.line, piece.text) for piece in found],
            [(2, "show a"), (2, "show\n  'it''s; -- no'"), (4, ".help copy"), (5, "exit"),
             (6, "\\d T"), (9, "show b")],
        )

    def test_a_comment_keeps_the_places_after_it(self) -> None:
        piece, = self.pieces("show -- what\n  a;")
        self.assertEqual(piece.text, "show        \n  a")
        self.assertEqual(piece.line_at(len(piece.text) - 1), 2)

    def test_a_text_is_complete_at_the_end_of_its_statement(self) -> None:
        for text, complete in {
            "": True, "  -- x": True, "show a": False, "show a;": True, "show 'a;": False,
            ".quit": True, "exit": True, "a; b": False,
        }.items():
            self.assertEqual(is_complete(text), complete, text)

    def test_each_help_has_an_example_that_is_read(self) -> None:
        for topic in TOPICS:
            for piece in self.pieces(topic.example):
                read_statement(piece.text)
            self.assertIn(f"  {topic.example.splitlines()[0]}", help_lines(topic.name))
        self.assertIn("copy", "\n".join(help_lines("")))
        self.assertIn("did you mean `help copy;`", help_lines("cop y")[0])

    def test_faults_of_statements_have_a_caret_and_the_nearest_word(self) -> None:
        for text, found, reason in [
            ("crate stream T (a int)", "crate", "did you mean `create`?"),
            ("create stream T (a itn)", "itn", "did you mean `int`?"),
            ("create stream T (a float)", "float", "decimal(2)"),
            ("create stream T (a int, a int)", "a", "two columns are named `a`"),
            ("create stream T (a int) unit secnd", "secnd", "did you mean `second`?"),
            ("create stream select (a int)", "select", "reserved word"),
            ("create stream T (a int) unit second since 'soon'", "'soon'", "no time"),
            ("create query q as", "", "`Select`"),
            ("copy T from trades.csv time t", "trades", "a path in `' '`"),
            ("copy T from 'trades.csv'", "", "`time`"),
            ("insert into T values (1, two)", "two", "a text in quotes"),
            ("insert into T values (1, 'two)", "'", "the text in quotes has no end"),
            ("show q frist 3", "frist", "did you mean `first`?"),
            ("show q first 0", "0", "1 to"),
            ("drop q", "q", "`query`"),
            ("connect nowhere", "nowhere", "HOST:PORT"),
            ("connect 127.0.0.1:99999", "127.0.0.1:99999", "HOST:PORT"),
            ("output xml", "xml", "`table`"),
            ("Select Istream(*) From T", "Select", "create query NAME as"),
            (".frobnicate", ".frobnicate", "no such command"),
        ]:
            with self.subTest(text=text):
                with self.assertRaises(Fault) as caught:
                    read_statement(text)
                self.assertEqual(caught.exception.found, found)
                self.assertIn(reason, caught.exception.message())
                self.assertIn("^", caught.exception.caret())

    def test_short_commands_are_statements(self) -> None:
        for short, text in {".quit": "quit", "\\q": "exit", ".tables": "show streams",
                            "\\d T": "describe T", ".mode csv": "output csv",
                            ".read a b.sql": "source 'a b.sql'", "\\? copy": "help copy",
                            "connect 7711": "connect 127.0.0.1:7711"}.items():
            self.assertEqual(read_statement(short), read_statement(text))


class Sessions(ShellCase):
    """What statements do, over an engine of the shell's own."""

    def test_from_a_file_of_rows_to_answers(self) -> None:
        shell = self.shell()
        path = self.file(CSV)
        shell.run_text(f"{TRADES}{VOLUME}copy Trades from '{path}' time second;show volume;", "s")
        self.assertEqual(
            self.said().splitlines(),
            [
                "4 rows copied; closed up to 130",
                "instant  symbol  volume   mean",
                "───────  ──────  ──────  ─────",
                "     60  ACME       110  10.50",
                "(1 answer)",
            ],
        )
        shell.run_text("explain volume;", "s")
        said = self.said()
        engine = ("Select Rstream(symbol, Sum(amount) As volume, Sum(price), Count(price)) From "
                  "Trades [Range 59 Slide 60] Group By symbol")
        for part in (engine, "cql keeps the answers at multiples of 60 instants", "volume > 100",
                     "mean: mean of decimal(2)", "0 Window → 1 Group → 2 ToStream"):
            self.assertIn(part, " ".join(said.split()))
        self.assertEqual(shell.failed, 0)

    def test_times_are_shown_where_instants_are_dates(self) -> None:
        shell = self.shell()
        shell.run_text(
            "create stream L (ip text) unit second; create query q as Select Istream(*) From L;"
            "insert into L values ('2026-11-27 14:00:01', 'a'), ('2026-11-27T15:00:02+01:00', 'b');"
            "close L to '2026-11-27 14:01'; show q;", "s")
        said = self.said()
        self.assertIn("L is closed up to 2026-11-27 14:01:00", said)
        self.assertIn("2026-11-27 14:00:01  a\n2026-11-27 14:00:02  b\n", said)
        shell.run_text("output json; show q; output csv; show q last 1;", "s")
        first, _, header, last = self.said().splitlines()
        self.assertEqual(json.loads(first), {"time": "2026-11-27T14:00:01Z", "ip": "a"})
        self.assertEqual([header, last], ["time,ip", "2026-11-27 14:00:02,b"])

    def test_values_go_in_and_come_out_as_they_are(self) -> None:
        shell = self.shell()
        shell.run_text(
            "create stream T (a int, d decimal(3), s text, b bool, t time) unit millisecond since"
            " '2026-01-01'; create query q as Select Istream(*) From T [Now];"
            "insert into T values (7, -5, -0.125, 'it''s, \"é\"', true, '2026-01-01 00:00:01.5'),"
            " (8, null, null, null, null, null); close T to 9; output json; show q;", "s")
        first, second = map(json.loads, self.said().splitlines()[-2:])
        self.assertEqual(first, {"time": "2026-01-01T00:00:00.007Z", "a": -5, "d": -0.125,
                                 "s": 'it\'s, "é"', "b": True, "t": "2026-01-01 00:00:01.500"})
        self.assertEqual(list(second.values())[1:], [None] * 5)

    def test_means_have_six_places_more_at_most(self) -> None:
        for mean, places, text in [(Fraction(1050), 2, "10.50"), (Fraction(1, 3), 0, "0.333333"),
                                   (Fraction(-200, 3), 2, "-0.66666667"), (Fraction(7), 0, "7"),
                                   (Fraction(0), 2, "0.00")]:
            self.assertEqual(mean_text(mean, places), text)

    def test_a_query_has_all_rows_from_the_first_on(self) -> None:
        """Streams begin with their first rows, and so do those that a query joins with them."""
        shell = self.shell()
        quotes = self.file("t,symbol,bid\n1000000001,A,5\n1000000003,A,6\n", "quotes.csv")
        trades = self.file("t,symbol,price\n1000000002,A,5\n1000000003,A,7\n")
        shell.run_text(
            "create stream Trades (symbol text, price int) unit second;"
            "create stream Quotes (symbol text, bid int) unit second;"
            "create query q as Select Rstream(price, bid) From Trades [Now], Quotes [Rows 1] Where "
            f"Trades.symbol = Quotes.symbol; copy Quotes from '{quotes}' time t;"
            f"copy Trades from '{trades}' time t; output csv; show q;", "s")
        self.assertEqual(self.said().splitlines()[-2:],
                         ["2001-09-09 01:46:42,5,5", "2001-09-09 01:46:43,7,6"])

    def test_a_stream_with_a_start_waits_for_those_that_it_meets(self) -> None:
        shell = self.shell()
        shell.run_text(
            "create stream A (k int) start 0; create stream B (k int);"
            "create query everything as Select Istream(A.k) From A, B Where A.k = B.k;"
            "insert into A values (1, 5); insert into B values (2, 5);"
            "close A to 3; close B to 3;", "s")
        self.assertEqual(self.answers(shell), ["2,5"])

    def test_refused_statements_change_nothing_and_say_why(self) -> None:
        shell = self.shell()
        shell.run_text(f"{TRADES}{ALL}insert into Trades values (5, 'a', 1, 1);"
                       "close Trades to 5;", "s")
        self.said()
        for text, reason in [
            (TRADES, "a stream `Trades` is declared already"),
            (ALL, "a query `everything` is there already"),
            ("insert into Trads values (6, 'a', 1, 1);", "did you mean `Trades`?"),
            ("insert into Trades values (6, 'a', 1);", "needs 4: the instant, then symbol, price"),
            ("insert into Trades values (6, 'a', 1, 1), (7, 'a', 'b', 1);",
             "row 2, price: 'b': it is a text, and no decimal(2)"),
            ("insert into Trades values (6, 'a', 1.005, 1);", "more than 2 decimal places"),
            ("insert into Trades values (6, 5, 1, 1);", "write it in quotes"),
            ("insert into Trades values (6, 'a', 1, 1.5);", "no whole number"),
            ("insert into Trades values (6, 'a', 1, 9999999999999);", "1,099,511,627,775"),
            ("insert into Trades values (4, 'a', 1, 1);", "row 1 is late: its instant is 4"),
            ("close Trades to 5;", "closed up to 5 already"),
            ("close Trades to 'tomorrow';", "it is no time"),
            ("heartbeat Trades at 99999999999;", "begin later by `start`"),
            ("show nothing;", "no query is named `nothing`"),
            ("drop query everythin;", "did you mean `everything`?"),
            ("describe Trads;", "did you mean `Trades`?"),
            ("source '/nowhere/x.sql';", "No such file"),
            ("connect 127.0.0.1:1;", "no server at 127.0.0.1:1"),
            ("create stream U (a int) start 'soon';", "it is no instant"),
        ]:
            with self.subTest(text=text):
                before = shell.failed
                shell.run_text(text, "s")
                self.assertIn(reason, self.said())
                self.assertEqual(shell.failed, before + 1)
        self.assertEqual(self.answers(shell), ["5,a,1.00,1"])

    def test_faults_of_queries_point_into_the_script(self) -> None:
        shell = self.shell()
        shell.run_text(TRADES + "\ncreate query q as\n  Select Istream(*) From Trades\n"
                       "  Where prise > 3;", "rules.sql")
        self.assertEqual(
            self.said().splitlines(),
            ["rules.sql:5: Q8 UnknownColumn: no column `prise` in Trades; did you mean `price`?",
             "  Where prise > 3", "        ^^^^^"],
        )

    def test_streams_queries_and_status_are_listed(self) -> None:
        shell = self.shell()
        shell.run_text(f"{TRADES}{ALL}show streams; show queries; describe Trades;"
                       "\\d everything\nstatus; drop query everything; show queries; drain;"
                       "forget;", "s")
        said = self.said()
        for part in ("symbol text, price decimal(2), amount int", "waits for rows",
                     "Trades: instants are seconds; it begins with its first rows",
                     "query  base  complete up to  taken  waiting"):
            self.assertIn(part, said)
        self.assertEqual((shell.failed, len(shell.session.queries)), (0, 0))

    def test_many_answers_are_cut_in_a_table_and_whole_as_data(self) -> None:
        shell = self.shell()
        rows = "".join(f"{second},A,1,{second}\n" for second in range(500))
        path = self.file("second,symbol,price,amount\n" + rows)
        shell.run_text(f"{TRADES}{ALL}copy Trades from '{path}' time second;show everything;", "s")
        lines = self.said().splitlines()
        self.assertEqual(len(lines), 1 + 2 + 41 + 1)
        self.assertIn("500 answers, 40 shown", lines[-1])
        self.assertEqual(len(self.answers(shell)), 500)
        shell.run_text("show everything first 3;", "s")
        self.assertIn("(500 answers, 3 shown)", self.said())

    def test_watch_shows_what_came_since_the_last_look(self) -> None:
        shell = self.shell(Mode.CSV)
        shell.run_text(TRADES + ALL + "insert into Trades values (1, 'a', 1, 1), (2, 'b', 1, 2);"
                       "close Trades to 2; watch everything for 1 row; watch everything;"
                       "watch everything;", "s")
        header = "instant,symbol,price,amount"
        self.assertEqual(self.out.getvalue().splitlines(),
                         [header, "1,a,1.00,1", header, "2,b,1.00,2", header])
        self.assertEqual(self.notes.getvalue().count("nothing more comes while you watch"), 2)

    def test_an_engine_that_ends_is_told_and_begun_again(self) -> None:
        shell = self.shell()
        shell.run_text(TRADES + ALL + "insert into Trades values (1, 'a', 1, 1);", "s")
        os.kill(shell.session.connection.pid, signal.SIGKILL)  # type: ignore[attr-defined]
        self.said()
        shell.run_text("insert into Trades values (2, 'a', 1, 1);", "s")
        self.assertIn("the engine has ended", self.said())
        shell.run_text("connect own; insert into Trades values (3, 'a', 1, 1); close Trades to 3;",
                       "s")
        self.assertIn("it does not have Trades, everything; they begin again", self.said())
        self.assertEqual(self.answers(shell), ["3,a,1.00,1"])


class Copies(ShellCase):
    """Rows of files: what is taken, what is refused, and how a copy goes on."""

    def copied(self, text: str | bytes, options: str = "", name: str = "trades.csv") -> str:
        """Returns what a copy of such a file says, in `self.copying`."""
        self.copying = self.shell()
        path = self.file(text, name)
        self.copying.run_text(f"{TRADES}{ALL}copy Trades from '{path}' {options};", "s")
        return self.said().replace(str(path.parent) + "/", "")

    def test_forms_of_files(self) -> None:
        rows = ["1,a,1.00,1", "2,b,2.50,"]
        for name, text, options in [
            ("t.csv", "second,symbol,price,amount\n1,a,1,1\n2,b,2.5,\n", "time second"),
            ("t.csv", "\ufeffSYMBOL , second,amount,price,more\r\n a,1,1,1,x\r\n\r\nb,2,,2.5,y",
             "time second"),
            ("t.csv", "second;symbol;price;amount\n1;a;1;1\n2;b;2.5;\n", "by ';' time second"),
            ("t.tsv", "second\tsymbol\tprice\tamount\n1\ta\t1\t1\n2\tb\t2.5\t\n", "time second"),
            ("t.jsonl", '{"second":1,"symbol":"a","price":1,"amount":1}\n\n'
             '{"symbol":"b","second":"2","price":2.50,"amount":null}\n', "time second"),
        ]:
            with self.subTest(text=text):
                said = self.copied(text, options, name)
                self.assertIn("2 rows copied; closed up to 2", said)
                got = self.answers(self.copying)
                self.assertEqual([row.replace(" a", "a") for row in got], rows)

    def test_columns_may_have_other_names_in_files_and_other_nulls(self) -> None:
        shell = self.shell()
        path = self.file("when it was,count,from\n1,NA,x\n2,5,NA\n")
        shell.run_text(
            "create stream T (n int from 'count', sender text from 'from');"
            "create query everything as Select Istream(*) From T [Now];"
            f"copy T from '{path}' time 'when it was' null 'NA';", "s")
        self.assertEqual(self.answers(shell), ["1,,x", "2,5,"])

    def test_a_text_may_have_any_characters(self) -> None:
        self.copied('second,symbol,price,amount\n1,"a,""b""\nc",1,1\n2,é,1,1\n', "time second")
        self.copying.output.mode = Mode.JSON
        self.copying.run_text("show everything;", "s")
        self.assertEqual([json.loads(line)["symbol"] for line in self.said().splitlines()],
                         ['a,"b"\nc', "é"])

    def test_bad_rows_stop_a_copy_and_are_named(self) -> None:
        good = "second,symbol,price,amount\n1,a,1,1\n"
        for row, reason in [
            ("2,a,1", "3 fields, and the header has 4"),
            ("2,a,1,1,1", "5 fields, and the header has 4"),
            ("2,a,1,many", "column `amount`: `many`: it is no whole number"),
            ("2,a,dear,1", "column `price`: `dear`: it is no decimal number"),
            ("2,a,1.005,1", "column `price`: `1.005`: it has more than 2 decimal places"),
            ("2,a,1,2000000000000", "column `amount`: `2000000000000`: it is over"),
            (",a,1,1", "column `second`: ``: an instant is missing"),
            ("soon,a,1,1", "column `second`: `soon`: it is no time"),
            ("-2,a,1,1", "column `second`: `-2`: instant -2 is none from 0"),
            ("1795788000000,a,1,1", "column `second`: `1795788000000`: instant 1795788000000 is"),
            ('2,"a"b,1,1', "',' expected after '\"'"),
        ]:
            with self.subTest(row=row):
                said = self.copied(f"{good}{row}\n3,a,1,3\n", "time second")
                self.assertIn(f"s:3: trades.csv:3: {reason}", said)
                self.assertIn("1 row was copied; `from line 3`", said)
                self.assertEqual(self.copying.failed, 1)
                said = self.copied(f"{good}{row}\n3,a,1,3\n", "time second on bad skip")
                self.assertIn("2 rows copied; closed up to 3\n1 bad row was skipped", said)
                self.assertIn(f"the first at line 3: {reason}", said)
                self.assertEqual(self.answers(self.copying), ["1,a,1.00,1", "3,a,1.00,3"])

    def test_odd_bytes_are_named(self) -> None:
        said = self.copied(b"second,symbol,price,amount\n1,a\xff,1,1\n", "time second")
        self.assertIn("trades.csv:2: column `symbol`", said)

    def test_a_copy_goes_on_where_it_stopped(self) -> None:
        rows = [f"{second},a,1,{second}" for second in range(1, 3_000)]
        rows[2_500] = "2501,a,1,x"
        shell = self.shell()
        path = self.file("\n".join(["second,symbol,price,amount", *rows]))
        shell.run_text(f"{TRADES}{ALL}copy Trades from '{path}' time second;", "s")
        self.assertIn("2,500 rows were copied; `from line 2502`", self.said())
        path.write_text(path.read_text().replace("2501,a,1,x", "2501,a,1,2501"))
        shell.run_text(f"copy Trades from '{path}' time second from line 2502;", "s")
        self.assertIn("499 rows copied; closed up to 2999", self.said())
        self.assertEqual(len(self.answers(shell)), 2_999)

    def test_a_clock_that_goes_back_is_no_matter_within_a_file(self) -> None:
        random = Random(5)
        seconds = [max(0, second // 3 - random.choice([0, 0, 40])) for second in range(9_000)]
        text = "".join(f"{second},a,1,{place}\n" for place, second in enumerate(seconds))
        said = self.copied("second,symbol,price,amount\n" + text, "time second")
        self.assertIn("9,000 rows copied; closed up to 2999", said)
        self.assertEqual(len(self.answers(self.copying)), 9_000)

    def test_late_rows_stop_a_copy_or_are_counted(self) -> None:
        rows = [f"{second},a,1,{second}" for second in range(10_000)]
        rows[9_000:9_000] = ["3,late,1,1", "4,late,1,1"]
        text = "\n".join(["second,symbol,price,amount", *rows])
        said = self.copied(text, "time second late 10 seconds")
        self.assertIn("trades.csv:9002: the row is late: its instant is 3", said)
        self.assertIn("9,000 rows were copied; `from line 9002`", said)
        said = self.copied(text, "time second late 10 seconds on late skip")
        self.assertIn("10,000 rows copied; closed up to 9999\n2 late rows were skipped", said)
        self.assertIn("the first at line 9002: its instant is 3", said)
        self.assertEqual(len(self.answers(self.copying)), 10_000)

    def test_rows_before_what_is_closed_are_late(self) -> None:
        self.copied("second,symbol,price,amount\n50,a,1,1\n", "time second")
        path = self.file("second,symbol,price,amount\n49,a,1,1\n51,a,1,2\n")
        self.copying.run_text(f"copy Trades from '{path}' time second;", "s")
        self.assertIn(":2: the row is late: its instant is 49, and the stream is closed up to 50",
                      self.said())
        self.copying.run_text(f"copy Trades from '{path}' time second on late skip;", "s")
        self.assertIn("1 row copied; closed up to 51\n1 late row was skipped", self.said())
        self.assertEqual(self.answers(self.copying), ["50,a,1.00,1", "51,a,1.00,2"])

    def test_files_of_one_time_are_kept_open(self) -> None:
        self.copied("second,symbol,price,amount\n5,a,1,1\n9,a,1,1\n", "time second keep open")
        path = self.file("second,symbol,price,amount\n4,b,1,1\n8,b,1,1\n")
        self.copying.run_text(f"copy Trades from '{path}' time second; close Trades to 9;", "s")
        self.assertEqual([row.split(",")[0] for row in self.answers(self.copying)],
                         ["4", "5", "8", "9"])

    def test_files_that_cannot_be_copied(self) -> None:
        for text, options, reason in [
            ("second,symbol,prise,amount\n", "time second", "did you mean `prise`?"),
            ("second,symbol,price,amount\n", "time t", "no column `t` (it has second, symbol"),
            ("", "time second", "no column `second`"),
            ("second,symbol,price,amount\n", "time second late 5 minute", "0 rows copied"),
        ]:
            with self.subTest(text=text, options=options):
                self.assertIn(reason, self.copied(text, options))
        shell = self.shell()
        shell.run_text(f"{TRADES}copy Trades from '/nowhere.csv' time t;"
                       "copy Trades from '/' time t;", "s")
        said = self.said()
        self.assertIn("/nowhere.csv: No such file or directory", said)
        path = self.file(CSV)
        shell.run_text(f"copy Trades from '{path.parent}/trade.csv' time t;", "s")
        self.assertIn("did you mean `trades.csv`?", self.said())
        self.assertIn("/: Is a directory", said)
        self.assertIn("0 rows copied", self.copied("second,symbol,price,amount\n", "time second"))

    def test_an_interrupt_leaves_whole_appends_and_a_line_to_go_on_from(self) -> None:
        sink = _Sink(interrupt_at=3)
        path = self.file("t,v\n" + "".join(f"{row},{row}\n" for row in range(5_000)))
        with self.assertRaises(Interrupted) as caught:
            self.copy_into(sink, Copy("S", str(path), "t"), path)
        self.assertEqual((caught.exception.taken, caught.exception.resume), (3 * 1_024, 3_074))
        self.copy_into(sink, Copy("S", str(path), "t", line=caught.exception.resume), path)
        self.assertEqual([row[1] for row in sink.rows], list(range(5_000)))

    def test_a_pipe_is_closed_at_its_end_or_as_late_says(self) -> None:
        for late, least in ((None, 1), (2, 2)):
            sink = _Sink()
            path = self.folder() / "pipe"
            os.mkfifo(path)
            rows = "".join(f"{row},{row}\n" for row in range(10_000))
            writer = subprocess.Popen(["sh", "-c", 'cat > "$0"', path], stdin=subprocess.PIPE)
            self.addCleanup(writer.wait)
            assert writer.stdin is not None
            feed = writer.stdin

            def fill() -> None:
                feed.write(f"t,v\n{rows}".encode())
                feed.close()

            thread = threading.Thread(target=fill)
            thread.start()
            self.copy_into(sink, Copy("S", str(path), "t"), path, late)
            thread.join()
            self.assertEqual(len(sink.rows), 10_000)
            self.assertEqual(sink.closed, 9_999)
            self.assertGreaterEqual(len(sink.closes), least)
            self.assertEqual(len(sink.closes) == 1, late is None)

    def copy_into(
        self, sink: "_Sink", copy: Copy, path: Path, late: int | None = None
    ) -> None:
        """Copies a file of whole numbers into a sink."""
        with RowFile(str(path)) as file:
            progress = Progress(io.StringIO(), file.size)
            Copying(copy, file, ["v"], [int], int, sink, progress, late).run()


class _Sink:
    """Keeps rows. At one of its appends an interrupt comes."""

    def __init__(self, interrupt_at: int = 0) -> None:
        self.rows: list[Row] = []
        self.closes: list[int] = []
        self._left = interrupt_at

    @property
    def closed(self) -> int | None:
        return self.closes[-1] if self.closes else -1

    def open(self, start: int) -> None:
        pass

    def append(self, rows: Sequence[Row], skip: Callable[[BadRow], object] | None) -> int:
        self._left -= 1
        if self._left == 0:
            os.kill(os.getpid(), signal.SIGINT)
        self.rows += rows
        return len(rows)

    def close(self, at: int) -> None:
        self.closes.append(at)

    def shown(self, instant: int) -> str:
        return str(instant)


class Servers(ShellCase):
    """A running server: what it has, and what the shell says when it goes."""

    def test_a_server_serves_the_shell_and_others(self) -> None:
        server = self.server()
        other = Client(server.port, timeout=PATIENCE)
        self.addCleanup(other.close)
        sent = iter(range(10, 20))

        def feed(seconds: float) -> None:
            at = next(sent)
            other.append("Trades", [[at, None, 100, at]])
            other.heartbeat("Trades", at)

        shell = self.shell(connect=Connect("127.0.0.1", server.port), pause=feed)
        shell.run_text(TRADES.replace(";", " start 0;") + ALL + "watch everything for 3 rows;", "s")
        self.assertEqual([line.split() for line in self.said().splitlines()[2:]],
                         [[str(at), "1.00", str(at)] for at in (10, 11, 12)])

    def test_a_stream_that_is_there_is_used_where_it_is_asked_for(self) -> None:
        server = self.server()
        other = Client(server.port, timeout=PATIENCE)
        self.addCleanup(other.close)
        other.stream("T", ["a"])
        shell = self.shell(connect=Connect("127.0.0.1", server.port))
        shell.run_text("create stream T (a int) start 0;", "s")
        self.assertIn("E2 NameTaken: the engine has one of this name; `if not exists`", self.said())
        shell.run_text(
            "create stream if not exists T (a int) start 0;"
            "create query q as Select Istream(a) From T; insert into T values (5, 7);"
            "close T to 6; watch q for 1 row;", "s")
        self.assertEqual(self.said().splitlines()[-1].split(), ["5", "7"])

    def scripted(self, faults: Mapping[int, str | None]) -> tuple[Shell, list[Mapping[str, Any]]]:
        """Returns a shell over a server that answers its appends so, by number, and else `ok`.

        None ends the connection.
        """
        appends = 0

        def answer(request: Mapping[str, Any]) -> Mapping[str, Any] | None:
            nonlocal appends
            if request["op"] == "append":
                appends += 1
                fault = faults.get(appends, "")
                if fault is None:
                    return None
                if fault:
                    return {"error": fault}
            return {"ok": True, "rows": []} if request["op"] == "take" else {"ok": True}

        fake = self.fake(answer)
        return self.shell(connect=Connect("127.0.0.1", fake.port)), fake.requests

    def test_a_server_that_goes_away_is_told_with_what_was_taken(self) -> None:
        shell, requests = self.scripted({3: None})
        rows = "".join(f"{second},a,1,{second}\n" for second in range(3_000))
        path = self.file("second,symbol,price,amount\n" + rows)
        shell.run_text(f"{TRADES}copy Trades from '{path}' time second;", "s")
        said = self.said()
        self.assertIn("trades.csv:2050: ", said)
        self.assertIn("2,048 rows were copied; `from line 2050`", said)
        self.assertIn("may have been taken", said)
        shell.run_text("show streams;", "s")
        self.assertIn("2,048", self.said())
        shell.run_text("insert into Trades values (5000, 'a', 1, 1);", "s")
        self.assertIn("the server went away", self.said())
        port = shell.session.connection.port  # type: ignore[attr-defined]
        shell.run_text(f"connect {port};"
                       f"copy Trades from '{path}' time second from line 2050;", "s")
        self.assertIn("952 rows copied", self.said())
        self.assertEqual(sum(len(each["rows"]) for each in requests if each["op"] == "append"),
                         3_000 + 952)

    def test_a_fresh_server_gets_streams_and_queries_again(self) -> None:
        shell, requests = self.scripted({2: None, 3: "E5 UnknownStream"})
        shell.run_text(TRADES + ALL + "insert into Trades values (1, 'a', 1, 1);"
                       "insert into Trades values (2, 'a', 1, 1);", "s")
        self.assertIn("the server went away", self.said())
        port = shell.session.connection.port  # type: ignore[attr-defined]
        shell.run_text(f"connect {port}; insert into Trades values (3, 'a', 1, 1);", "s")
        self.assertIn("it does not have Trades; they begin again with the next rows", self.said())
        self.assertEqual([each["op"] for each in requests].count("stream"), 2)

    def test_a_server_with_a_status_shows_it(self) -> None:
        def answer(request: Mapping[str, Any]) -> Mapping[str, Any]:
            return {
                "ok": True,
                "streams": [{"name": "T", "columns": ["a"], "closed": 7, "rows": 1234}],
                "queries": [{"name": "q", "base": 0, "upto": 7, "taken": 3, "waiting": 2}],
            }

        shell = self.shell(connect=Connect("127.0.0.1", self.fake(answer).port))
        shell.run_text("status;", "s")
        said = self.said()
        self.assertRegex(said, r"T +1,234 +7\n")
        self.assertRegex(said, r"q +0 +7 +3 +2\n")


class Tables(unittest.TestCase):
    """Tables fit their width."""

    def test_tables_fit(self) -> None:
        random = Random(9)
        for _ in range(200):
            count = random.randint(1, 6)
            names = ["n" * random.randint(1, 12) for _ in range(count)]
            rows = [["xé漢\t"[random.randrange(4)] * random.randint(0, 40) for _ in range(count)]
                    for _ in range(random.randint(0, 5))]
            width = random.randint(count * 6, 90)
            lines = table(names, rows, width=width)
            self.assertEqual(len(lines), 2 + len(rows))
            for line in lines:
                self.assertLessEqual(width_of(line), width)

    def test_what_is_cut_ends_so(self) -> None:
        self.assertEqual(table(["a", "text"], [["1", "abcdefghij"]], right=[True], width=9),
                         ["a  text", "─  ──────", "1  abcde…"])

    def test_progress_says_rows_rate_and_share(self) -> None:
        self.assertEqual(line_of("copied", 250_000, 2.0, 5_000_000, 20_000_000),
                         "copied 250,000 rows  125,000 rows/s  25% of 20.0 MB")
        self.assertEqual(line_of("copied", 10, 0.0, 999, None), "copied 10 rows    999 B")
        out, now = io.StringIO(), [0.0]
        progress = Progress(out, 100, is_shown=True, now=lambda: now[0])
        progress.tell("copied", 1, 1)
        self.assertEqual(out.getvalue(), "")
        now[0] = 9.0
        progress.restart()
        now[0] = 10.0
        progress.tell("copied", 1_000, 50)
        progress.end()
        self.assertRegex(out.getvalue(),
                         "^\rcopied 1,000 rows  1,000 rows/s  50% of 100 B\r *\r$")

    def test_completions_are_what_may_come_next(self) -> None:
        output = Output(io.StringIO(), io.StringIO())
        shell = Shell(output, MemoryDictionary())
        self.addCleanup(shell.close)
        shell.run_text(TRADES + ALL, "s")
        table: list[tuple[str, list[str], list[str]]] = [
            ("", ["create stream", "copy", "show"], ["Trades"]),
            ("co", ["connect", "copy"], ["create stream"]),
            ("show ", ["everything", "streams", "queries"], ["Trades"]),
            ("copy Tr", ["Trades"], ["everything"]),
            ("create query q as Sel", ["Select"], []),
            ("create query q as Select Istream(sy", ["symbol"], ["price"]),
            ("create query q as Select Istream(T.p", ["T.price"], ["price"]),
            ("create query q as Select Istream(*) From ", ["Trades"], ["everything"]),
            ("create stream T (a de", ["decimal(2)"], []),
            ("create stream T (a int) unit sec", ["second"], []),
            ("insert into ", ["Trades"], []),
            ("copy Trades from 'x", [], ["from"]),
        ]
        for text, some, none in table:
            found = completions(text, shell.known)
            self.assertLessEqual(set(some), set(found), text)
            self.assertFalse(set(none) & set(found), text)


class Documents(ShellCase):
    """The page of the shell, and its examples, say what comes."""

    def enter(self, folder: Path) -> None:
        """Makes a folder the current one until the end of the test."""
        self.addCleanup(os.chdir, os.getcwd())
        os.chdir(folder)

    def test_the_page_says_what_comes(self) -> None:
        text = (PACKAGE.parents[1] / "docs" / "shell.md").read_text("utf-8")
        blocks = re.findall(r"```sql\n(.*?)```\n\n```text\n(.*?)```", text, re.DOTALL)
        self.assertGreater(len(blocks), 5)
        self.enter(PACKAGE / "examples")
        shell = self.shell()
        shell.output.notes = self.out
        for statements, expected in blocks:
            for piece in Pieces().feed(statements):
                shell.run(piece)
            self.assertEqual(self.said(), expected, statements)

    def test_the_examples_run(self) -> None:
        self.enter(PACKAGE / "examples")
        for path, part in (("trades.sql", "2026-11-27 14:02:00  BOND       130  98.975"),
                           ("alerts.sql", "2026-11-27 14:35:18  10.0.0.66      10")):
            shell = self.shell()
            shell.run_file(path)
            self.assertEqual(shell.failed, 0)
            self.assertIn(part, self.said())


class Programs(ShellCase):
    """The program itself: scripts, pipes, statuses, and the prompt on a terminal."""

    def cql(self, *words: str, folder: Path | None = None) -> tuple[int, str, str]:
        """Returns the status of `cql` with such words, its output and its errors."""
        before = os.getcwd()
        os.chdir(folder or self.folder())
        try:
            with redirect_stdout(io.StringIO()) as out, redirect_stderr(io.StringIO()) as errors:
                try:
                    status = main(words)
                except SystemExit as end:
                    status = end.code if isinstance(end.code, int) else 1
        finally:
            os.chdir(before)
        return status, out.getvalue(), errors.getvalue()

    def piped(self, *words: str, text: str) -> tuple[int, str, str]:
        """Returns the same, with the text in place of standard input."""
        with patch.object(sys, "stdin", io.StringIO(text)):
            return self.cql(*words)

    def environment(self, **more: str) -> dict[str, str]:
        """Returns the environment of a program in a test."""
        return {**os.environ, "PYTHONPATH": str(PACKAGE), "CQLRUN": find_program("cqlrun"),
                "PYTHONIOENCODING": "utf-8", "CQL_HISTORY": str(self.folder() / "history"), **more}

    def test_scripts_have_a_status_and_data_on_standard_output(self) -> None:
        folder = self.folder()
        (folder / "trades.csv").write_text(CSV)
        (folder / "rules.sql").write_text(
            f"{TRADES}{VOLUME}copy Trades from 'trades.csv' time second;\nshow volume;\n")
        status, out, errors = self.cql("--csv", "rules.sql", folder=folder)
        self.assertEqual((status, out), (0, "instant,symbol,volume,mean\n60,ACME,110,10.50\n"))
        self.assertEqual(errors, "4 rows copied; closed up to 130\n")
        status, out, errors = self.cql("--json", "-c", "source 'rules.sql';", folder=folder)
        self.assertEqual(json.loads(out),
                         {"instant": 60, "symbol": "ACME", "volume": 110, "mean": 10.5})
        (folder / "wrong.sql").write_text("show nothing;\nhelp quit;\n")
        status, out, errors = self.cql("wrong.sql", folder=folder)
        self.assertEqual((status, errors), (1, "wrong.sql:1: no query is named `nothing`\n"))
        self.assertIn("Ends cql", out)
        status, out, errors = self.cql("--stop", "wrong.sql", folder=folder)
        self.assertEqual((status, out), (1, ""))
        self.assertEqual(self.cql("absent.sql")[0], 1)
        self.assertEqual(self.cql("--csv", "--json")[0], 2)
        self.assertEqual(self.cql("--connect", "nowhere")[0], 2)
        self.assertRegex(self.cql("--version")[1], r"^cql \d")
        status, out, _ = self.cql("page", "--help")
        self.assertEqual((status, out[:15]), (0, "usage: cql page"))

    def test_statements_and_rows_come_from_pipes(self) -> None:
        status, out, _ = self.piped("--csv", text=f"{TRADES}{ALL}insert into Trades values "
                                    "(1, 'a', 2, 3); close Trades to 1; show everything")
        self.assertEqual((status, out.splitlines()[1:]), (0, ["1,a,2.00,3"]))
        statements = f"{TRADES}{ALL}copy Trades from stdin time second; show everything first 1;"
        done = subprocess.run(
            [sys.executable, "-B", "-m", "cqld", "--csv", "-c", statements], input=CSV, text=True,
            capture_output=True, cwd=self.folder(), env=self.environment(), timeout=PATIENCE)
        self.assertEqual(done.stdout.splitlines()[1:], ["5,ACME,10.00,60"])
        self.assertEqual((done.returncode, done.stderr), (0, "4 rows copied; closed up to 130\n"))
        status, _, errors = self.piped(text=statements)
        self.assertEqual(status, 1)
        self.assertIn("<stdin>:3: standard input has the statements", errors)

    def test_texts_keep_their_numbers_in_a_file(self) -> None:
        folder = self.folder()
        for symbol, number in (("b", 0), ("a", 1), ("b", 0)):
            statements = f"{TRADES}explain Select Istream(*) From Trades Where symbol = '{symbol}';"
            explained = self.cql("--dictionary", "words", "-c", statements, folder=folder)[1]
            self.assertIn(f"Where symbol = {number}\n", explained)

    def test_a_script_that_opens_itself_ends(self) -> None:
        folder = self.folder()
        (folder / "loop.sql").write_text("source 'loop.sql';\n")
        status, _, errors = self.cql("loop.sql", folder=folder)
        self.assertEqual(status, 1)
        self.assertIn("at most 16 files", errors)

    def test_an_output_that_nobody_reads_ends_the_program_quietly(self) -> None:
        shell = subprocess.Popen(
            [sys.executable, "-B", "-m", "cqld", "-c", "help;" * 300], stdout=subprocess.PIPE,
            stderr=subprocess.PIPE, env=self.environment(), cwd=self.folder())
        assert shell.stdout is not None and shell.stderr is not None
        shell.stdout.readline()
        shell.stdout.close()
        errors = shell.stderr.read()
        shell.stderr.close()
        self.assertEqual((shell.wait(PATIENCE), errors), (1, b""))

    def test_a_missing_program_is_named(self) -> None:
        with patch.dict(os.environ, {"CQLRUN": "/nowhere/cqlrun"}):
            status, _, errors = self.cql("-c", TRADES + ALL)
        self.assertEqual(status, 1)
        self.assertEqual(errors.count("/nowhere/cqlrun"), 1)

    def test_a_conversation_on_a_terminal(self) -> None:
        for term in ("dumb", "xterm"):
            with self.subTest(term=term):
                self.converse(term)

    def converse(self, term: str) -> None:
        """Types statements, errors, an interrupt, a completion and an end."""
        environment = self.environment(TERM=term, PROMPT_TOOLKIT_NO_CPR="1")
        terminal = _Terminal([sys.executable, "-B", "-m", "cqld"], environment, self.folder())
        self.addCleanup(terminal.close)
        terminal.expect_prompt()
        terminal.type("create stream T (a int)\r")
        terminal.expect("->")
        terminal.type("unit second;\r")
        terminal.expect_prompt()
        terminal.type("create query q as Select Istream(b) From T;\r")
        terminal.expect("Q8 UnknownColumn")
        terminal.expect_prompt()
        terminal.type("create query q as Select Istream(a) From T;\r")
        terminal.expect_prompt()
        terminal.type("insert into T values (1, 41), (2, 42);\r")
        terminal.expect("2 rows")
        terminal.expect_prompt()
        terminal.type("close T to \x03")
        terminal.expect_prompt()
        terminal.type("close T to 2;\r")
        terminal.expect("T is closed up to 2")
        terminal.expect_prompt()
        terminal.type("desc\t")
        terminal.expect("describe")
        terminal.type(" T;\r")
        terminal.expect("T: instants are seconds")
        terminal.expect_prompt()
        terminal.type("show q;\r")
        terminal.expect("(2 answers)")
        self.assertIn("42", terminal.shown)
        terminal.expect_prompt()
        terminal.type("\x04")
        self.assertEqual(terminal.status(), 0)
        history = Path(environment["CQL_HISTORY"]).read_text()
        self.assertIn("close T to 2;", history)


def _kept(sequence: re.Match[str]) -> str:
    """Returns what is kept of a control sequence."""
    return PASTE if sequence[0] == PASTE else ""


class _Terminal:
    """A program on a pseudo-terminal."""

    def __init__(self, words: Sequence[str], environment: Mapping[str, str], folder: Path) -> None:
        self._pid, self._end = pty.fork()
        if self._pid == 0:
            signal.signal(signal.SIGINT, signal.SIG_DFL)  # a shell in the background ignores it
            os.chdir(folder)
            os.execve(words[0], list(words), dict(environment))
        self.text = ""  # without control sequences, except PASTE
        self.shown = ""
        self._has_paste = environment["TERM"] != "dumb"  # it is switched on at each prompt
        self._status: int | None = None

    def type(self, text: str) -> None:
        """Types a text, and forgets what was shown before."""
        self.text = ""
        os.write(self._end, text.encode())

    def expect(self, text: str) -> None:
        """Waits until the text is shown. What was shown before it is in `shown` then."""
        until = time.monotonic() + PATIENCE
        while text not in self.text:
            left = until - time.monotonic()
            if left <= 0 or not self._read(left):
                raise AssertionError(f"{text!r} was not shown, but {self.text!r}")
        self.shown, _, self.text = self.text.partition(text)

    def expect_prompt(self) -> None:
        """Waits until the program asks for a statement. A line that was typed is no prompt."""
        if self._has_paste:
            self.expect(PASTE)
        self.expect("cql>")

    def _read(self, seconds: float) -> bool:
        ready, _, _ = select.select([self._end], [], [], seconds)
        if not ready:
            return False
        try:
            data = os.read(self._end, 65_536)
        except OSError:
            return False
        # a busy terminal parts a word with sequences: each part of it is drawn by itself
        self.text = CONTROL.sub(_kept, self.text + data.decode("utf-8", "replace"))
        return bool(data)

    def status(self) -> int:
        """Waits for the end of the program, and returns its status."""
        while self._read(PATIENCE):
            pass
        if self._status is None:
            self._status = os.waitstatus_to_exitcode(os.waitpid(self._pid, 0)[1])
        return self._status

    def close(self) -> None:
        """Ends the program."""
        if self._status is None:
            os.kill(self._pid, signal.SIGKILL)
            os.waitpid(self._pid, 0)
        os.close(self._end)


if __name__ == "__main__":
    unittest.main()
