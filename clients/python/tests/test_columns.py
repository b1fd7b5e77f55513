"""Columns with types, and the streams and queries that have them."""

from __future__ import annotations

import decimal
import random
from datetime import datetime, timedelta, timezone
from typing import Any

import numpy
import pandas
from support import Case

from cqld import (
    BadRow,
    BadValue,
    Bool,
    Clock,
    Column,
    Decimal,
    FileDictionary,
    Int,
    LateRow,
    MemoryDictionary,
    MissingPackage,
    Query,
    Refused,
    Schema,
    Skipped,
    Stream,
    Text,
    Time,
    UnknownNumber,
)
from cqld.language import Fault

MORNING = datetime(2026, 11, 27, 9, 30, tzinfo=timezone.utc)
MOST = 2**40 - 1


def after(seconds: float) -> datetime:
    return MORNING + timedelta(seconds=seconds)


class Columns(Case):
    """A value becomes a number and comes back, or is no value of its column."""

    def test_values_become_numbers_and_come_back(self) -> None:
        words = MemoryDictionary()
        words.number("first")
        clock = Clock.milliseconds(MORNING)
        table: list[tuple[Column, Any, int | None]] = [
            (Int(), 0, 0),
            (Int(), -MOST, -MOST),
            (Int(), numpy.int64(7), 7),
            (Int(), None, None),
            (Bool(), True, 1),
            (Bool(), False, 0),
            (Bool(), numpy.bool_(True), 1),
            (Text(words), "first", 0),
            (Text(words), "", 1),
            (Text(words), "zwölf\n", 2),
            (Decimal(2), decimal.Decimal("101.25"), 10125),
            (Decimal(2), decimal.Decimal("-0.5"), -50),
            (Decimal(2), 3, 300),
            (Decimal(2), -0.5, -50),
            (Decimal(2), numpy.float64(2.25), 225),
            (Decimal(0), decimal.Decimal("1E+3"), 1000),
            (Decimal(12), decimal.Decimal("0.000000000001"), 1),
            (Decimal(2), decimal.Decimal("10995116277.75"), MOST),
            (Time(), MORNING, 1795771800),
            (Time(clock), after(1.5), 1500),
            (Time(), pandas.Timestamp(MORNING), 1795771800),
        ]
        for column, value, number in table:
            with self.subTest(column=column, value=value):
                self.assertEqual(column.number(value), number)
                self.assertEqual(column.value(number), value)

    def test_float_is_the_decimal_that_it_shows(self) -> None:
        self.assertEqual(Decimal(2).number(0.1), 10)
        self.assertEqual(Decimal(2).value(10), decimal.Decimal("0.10"))
        self.assertEqual(str(Decimal(2).value(1)), "0.01")

    def test_values_that_are_none_are_refused(self) -> None:
        words = MemoryDictionary()
        table: list[tuple[Column, Any]] = [
            (Int(), "7"), (Int(), 1.0), (Int(), True), (Int(), MOST + 1), (Int(), -MOST - 1),
            (Bool(), 1), (Bool(), "true"),
            (Text(words), 5), (Text(words), b"x"),
            (Decimal(2), "1.5"), (Decimal(2), 0.123), (Decimal(2), decimal.Decimal("1.001")),
            (Decimal(2), float("nan")), (Decimal(2), float("inf")), (Decimal(2), True),
            (Decimal(2), decimal.Decimal("10995116277.76")), (Decimal(2), decimal.Decimal("1E+99")),
            (Decimal(2), decimal.Decimal("1E-99")),
            (Time(), 5), (Time(), MORNING.replace(tzinfo=None)), (Time(), MORNING.date()),
            (Time(), pandas.NaT),
            (Time(), datetime(1969, 12, 31, tzinfo=timezone.utc)),
            (Time(Clock.milliseconds(datetime(1970, 1, 1, tzinfo=timezone.utc))), MORNING),
        ]
        for column, value in table:
            with self.subTest(column=column, value=value):
                with self.assertRaises(BadValue) as caught:
                    column.number(value)
                self.assertNotEqual(caught.exception.reason, "")
        for column, number in ((Bool(), 2), (Time(), 2**40)):
            with self.assertRaises(BadValue):
                column.value(number)
        with self.assertRaises(UnknownNumber):
            Text(words).value(99)
        for places in (13, -1):
            with self.assertRaises(BadValue):
                Decimal(places)
        with self.assertRaises(BadValue):
            Clock(timedelta(0))

    def test_texts_of_a_file_become_values(self) -> None:
        naive = datetime(2026, 11, 27, 9, 30)
        table: list[tuple[Column, str, Any]] = [
            (Int(), "-12", -12),
            (Int(), "1_000", None),
            (Int(), "1.0", None),
            (Int(), "٣", None),
            (Bool(), "True", True),
            (Bool(), "0", False),
            (Bool(), "yes", None),
            (Decimal(2), "101.25", decimal.Decimal("101.25")),
            (Decimal(2), ".5", decimal.Decimal("0.5")),
            (Decimal(2), "1e3", None),
            (Decimal(2), "NaN", None),
            (Text(MemoryDictionary()), "a b", "a b"),
            (Time(), "2026-11-27 09:30:00", MORNING),
            (Time(), "2026-11-27T10:30:00+01:00", MORNING),
            (Time(Clock.seconds(naive)), "2026-11-27 09:30", naive),
            (Time(), "27.11.2026", None),
        ]
        for column, text, value in table:
            with self.subTest(column=column, text=text):
                if value is None:
                    with self.assertRaises(BadValue):
                        column.parse(text)
                else:
                    self.assertEqual(column.parse(text), value)

    def test_clock_counts_units_since_its_start(self) -> None:
        clock = Clock(timedelta(minutes=1), MORNING)
        self.assertEqual(clock.instant(after(59.9)), 0)
        self.assertEqual(clock.instant(after(60)), 1)
        self.assertEqual(clock.instant(17), 17)
        self.assertEqual(clock.time(2), after(120))
        east = timezone(timedelta(hours=2))
        self.assertEqual(clock.instant(after(60).astimezone(east)), 1)
        draw = random.Random(3)
        for unit in (timedelta(seconds=1), timedelta(milliseconds=1), timedelta(microseconds=7)):
            clock = Clock(unit, MORNING)
            for _ in range(200):
                instant = draw.randrange(2**37)  # years that datetime has
                self.assertEqual(clock.instant(clock.time(instant)), instant)
        for wrong in (-1, 2**40 + 1, "5", 5.0, True, None):
            with self.assertRaises(BadValue):
                clock.instant(wrong)  # type: ignore[arg-type]


class Streams(Case):
    """A stream and its queries, on a program."""

    def setUp(self) -> None:
        self.words = MemoryDictionary()
        self.engine = self.process()
        columns = {"symbol": Text(self.words), "price": Decimal(2), "big": Bool()}
        self.trades = Stream(self.engine, "Trades", columns, Clock.seconds())
        self.trades.declare(MORNING)

    def test_answers_are_named_tuples_of_values(self) -> None:
        text = """Select Istream(symbol, price, big) From Trades [Now]
            Where price > 100.50 And symbol <> 'B'"""
        high = Query(self.engine, "high", text, [self.trades])
        high.register()
        rows = [
            (MORNING, "A", 101.25, True),
            (after(1.7), "B", 200, None),
            {"instant": after(2), "symbol": "C", "price": decimal.Decimal("100.51"), "big": None},
            (after(3), "A", None, False),
        ]
        self.assertEqual(self.trades.append(rows), 4)
        self.trades.heartbeat(after(100_000))
        found = list(high.answers())
        self.assertEqual(high.fields, ("instant", "symbol", "price", "big"))
        self.assertEqual(found, [
            (MORNING, "A", decimal.Decimal("101.25"), True),
            (after(2), "C", decimal.Decimal("100.51"), None),
        ])
        self.assertEqual((found[0].symbol, found[0].instant), ("A", MORNING))
        self.assertEqual(type(found[0]).__name__, "high")
        self.assertEqual(self.trades.closed, self.trades.schema.instant(after(100_000)))
        high.drop()

    def test_fields_are_named_after_the_list(self) -> None:
        other = Stream(self.engine, "Other", {"symbol": Text(self.words), "def": Int()},
                       Clock.seconds())
        other.declare(MORNING)
        table = [
            ("Select Rstream(symbol, Count(*), Sum(price), Min(price) As least) From Trades"
             " Group By symbol", "symbol count sum_price least"),
            ("Select Istream(*) From Trades [Now]", "symbol price big"),
            ("Select Istream(*) From Trades [Now] a, Other [Now] b Where a.symbol = b.symbol",
             "a_symbol price big b_symbol def_"),
            ("Select Istream(b.def, a.price, a.price) From Trades [Now] a, Other [Now] b"
             " Where a.symbol = b.symbol", "def_ a_price a_price_2"),
        ]
        for number, (text, fields) in enumerate(table):
            with self.subTest(text=text):
                query = Query(self.engine, f"q{number}", text, [self.trades, other])
                self.assertEqual(" ".join(query.fields[1:]), fields)
                query.register()

    def test_friendly_query_is_answered(self) -> None:
        text = """Select Rstream(symbol, Avg(price) As mean, Max(price), Count(*) As n)
            From Trades [Range 10 seconds Slide 10 seconds]
            Group By symbol Having n >= 2 Every 10 seconds"""
        means = Query(self.engine, "means", text, [self.trades])
        means.register()
        self.trades.append([(after(n), "A" if n % 3 else "B", n, None) for n in range(1, 20)])
        self.trades.heartbeat(after(30))
        found = list(means.answers())
        self.assertEqual([it.instant for it in found], [after(10), after(10), after(20), after(20)])
        first = {it.symbol: it for it in found[:2]}
        self.assertEqual((first["A"].n, first["A"].mean), (7, 37 / 7))
        self.assertEqual(first["B"].max_price, decimal.Decimal(9))

    def test_wrong_text_points_at_its_place(self) -> None:
        with self.assertRaises(Fault) as caught:
            Query(self.engine, "q", "Select Istream(prise) From Trades [Now]", [self.trades])
        self.assertEqual((caught.exception.code, caught.exception.place), ("Q8", 15))

    def test_several_dictionaries_or_clocks_are_refused(self) -> None:
        other = Stream(self.engine, "Other", {"symbol": Text(MemoryDictionary())}, Clock.seconds())
        with self.assertRaisesRegex(Fault, "several dictionaries"):
            text = "Select Istream(symbol) From Other [Now] Where symbol = 'A'"
            Query(self.engine, "q", text, [self.trades, other])
        later = Stream(self.engine, "Later", {"symbol": Text(self.words)}, Clock.seconds(MORNING))
        with self.assertRaises((BadValue, Fault)):
            text = "Select Istream(price) From Trades, Later Where Trades.symbol = Later.symbol"
            Query(self.engine, "q", text, [self.trades, later])

    def test_bad_rows_are_named(self) -> None:
        table: list[tuple[Any, str, str | None]] = [
            ((MORNING, "A", "x", None), "N2", "price"),
            ((MORNING, 5, 1, None), "N2", "symbol"),
            ((MORNING, "A", 1, 1), "N2", "big"),
            ((MORNING, "A", 1.001, None), "N2", "price"),
            ((MORNING, "A", 10**12, None), "E8", "price"),
            ((MORNING.replace(tzinfo=None), "A", 1, None), "N2", "instant"),
            ((datetime(1950, 1, 1, tzinfo=timezone.utc), "A", 1, None), "E9", "instant"),
            (("2026-11-27", "A", 1, None), "N2", "instant"),
            ((MORNING, "A", 1), "E7", None),
            ({"instant": MORNING, "symbol": "A", "price": 1}, "N2", None),
            ({"instant": MORNING, "symbol": "A", "price": 1, "big": None, "x": 1}, "N2", None),
            ("text", "N2", None),
            (7, "N2", None),
        ]
        for row, code, column in table:
            with self.subTest(row=row):
                with self.assertRaises(BadRow) as caught:
                    self.trades.append([(MORNING, "A", 1, None), row])
                bad = caught.exception
                self.assertEqual((bad.code, bad.column, bad.index), (code, column, 1))
                self.assertEqual(bad.taken, 1)
        self.trades.heartbeat(after(5))
        with self.assertRaises(LateRow) as late:
            self.trades.append([(after(5.9), "A", 1, None)])
        self.assertEqual(late.exception.row[0], after(5.9))
        skipped = Skipped()
        rows = [(after(n), "A" if n % 2 else 5, 1, None) for n in range(10)]
        self.assertEqual(self.trades.append(rows, skip=skipped), 2)
        self.assertEqual((len(skipped.late), len(skipped.bad)), (3, 5))

    def test_stream_without_a_clock_has_whole_instants(self) -> None:
        plain = Stream(self.engine, "Plain", {"a": Int()})
        plain.declare(3)
        self.assertEqual(plain.append([(3, 1), {"instant": 4, "a": None}]), 2)
        with self.assertRaises(BadRow):
            plain.append([(MORNING, 1)])
        query = Query(self.engine, "q", "Select Istream(*) From Plain [Now]", [plain])
        query.register()
        plain.append([(4, 2)])
        plain.heartbeat(200_000)  # in steps
        self.assertEqual(list(query.answers()), [(4, 2)])
        with self.assertRaises(Refused) as caught:
            plain.heartbeat(200_000)
        self.assertEqual(caught.exception.code, "E11")

    def test_follow_decodes(self) -> None:
        text = "Select Istream(symbol) From Trades [Now] Where price > 1"
        query = Query(self.engine, "q", text, [self.trades])
        query.register()
        self.trades.append([(after(n), f"s{n}", n, None) for n in range(5)])
        self.trades.heartbeat(after(5))
        found = [it.symbol for it in query.follow(deadline=0.05)]
        self.assertEqual(found, ["s2", "s3", "s4"])

    def test_answers_become_a_frame(self) -> None:
        text = "Select Istream(symbol, price) From Trades [Now]"
        query = Query(self.engine, "q", text, [self.trades])
        query.register()
        self.trades.append([(after(n), f"s{n}", n, None) for n in range(3)])
        self.trades.heartbeat(after(5))
        frame = query.frame()
        self.assertEqual(list(frame.columns), ["instant", "symbol", "price"])
        self.assertEqual(list(frame.symbol), ["s0", "s1", "s2"])
        self.assertEqual(frame.instant[2], pandas.Timestamp(after(2)))
        self.assertEqual(len(query.frame()), 0)
        self.assertEqual(list(query.frame([]).columns), ["instant", "symbol", "price"])

    def test_answers_that_cannot_be_decoded_are_not_lost(self) -> None:
        """Rows have numbers that the dictionary has no text of. Another program adds them."""
        path = self.folder() / "words"
        words = FileDictionary(path)
        other = Stream(self.engine, "Other", {"word": Text(words)})
        other.declare()
        query = Query(self.engine, "q", "Select Istream(*) From Other [Now]", [other])
        query.register()
        self.engine.append("Other", [(0, words.number("a")), (0, 1), (1, 2)])
        other.heartbeat(1)
        self.engine.drain()
        with self.assertRaises(UnknownNumber) as caught:
            query.take(2)
        rows: list[list[int | None]] = [[0, 0], [0, 1]]
        self.assertEqual(list(caught.exception.rest), rows)
        with self.assertRaises(UnknownNumber) as caught:
            list(query.answers())
        self.assertEqual(list(caught.exception.rest), [[1, 2]])
        follow = query.follow(deadline=0)
        self.engine.append("Other", [(5, 2)])
        self.engine.heartbeat("Other", 5)
        with self.assertRaises(UnknownNumber):
            next(follow)
        self.assertEqual(follow.unseen, [[5, 2]])
        FileDictionary(path).numbers(["b", "c"])
        self.assertEqual(query.shape.decode_all(rows), [(0, "a"), (0, "b")])
        self.assertEqual(list(follow), [(5, "c")])

    def test_frame_without_pandas_says_so(self) -> None:
        import sys

        query = Query(self.engine, "q", "Select Istream(*) From Trades [Now]", [self.trades])
        before = sys.modules["pandas"]
        try:
            sys.modules["pandas"] = None  # type: ignore[assignment]
            with self.assertRaises(MissingPackage) as caught:
                query.frame([])
            self.assertEqual(caught.exception.package, "pandas")
        finally:
            sys.modules["pandas"] = before

    def test_random_rows_come_back_as_they_were(self) -> None:
        draw = random.Random(11)
        columns = {"i": Int(), "t": Text(self.words), "d": Decimal(3), "b": Bool(), "at": Time()}
        stream = Stream(self.engine, "Every", columns, Clock.milliseconds(MORNING))
        stream.declare(MORNING)
        query = Query(self.engine, "every", "Select Rstream(*) From Every [Now]", [stream])
        query.register()
        rows = []
        for number in range(2_000):
            cells: list[Any] = [
                draw.randrange(-MOST, MOST + 1), f"text {draw.randrange(300)}",
                decimal.Decimal(draw.randrange(-MOST, MOST)).scaleb(-3), draw.random() < 0.5,
                after(draw.randrange(10**6)),
            ]
            for place in range(5):
                if draw.random() < 0.1:
                    cells[place] = None
            rows.append((after(number / 1_000), *cells))
        self.assertEqual(stream.append(iter(rows)), 2_000)
        stream.heartbeat(after(2))
        self.assertEqual([tuple(it) for it in query.answers()], rows)


class Tables(Case):
    """Rows of CSV files."""

    def setUp(self) -> None:
        self.engine = self.process()
        columns = {"symbol": Text(MemoryDictionary()), "price": Decimal(2), "amount": Int()}
        self.trades = Stream(self.engine, "Trades", columns, Clock.seconds())
        self.trades.declare(MORNING)
        text = "Select Istream(*) From Trades [Now]"
        self.all = Query(self.engine, "all", text, [self.trades])
        self.all.register()

    def test_file_is_appended(self) -> None:
        lines = [
            "amount,when,note,symbol,price\n",
            '10,2026-11-27 09:30:01,"a, b",ACME,101.25\n',
            ",2026-11-27T10:30:02+01:00,,\"N\"\"X\",99\n",
            f"7,{int(after(3).timestamp())},x, ACME ,\n",
        ]
        self.assertEqual(self.trades.append_csv(lines, "when"), 3)
        self.trades.heartbeat(after(5))
        self.assertEqual([tuple(it) for it in self.all.answers()], [
            (after(1), "ACME", decimal.Decimal("101.25"), 10),
            (after(2), 'N"X', decimal.Decimal(99), None),
            (after(3), "ACME", None, 7),
        ])

    def test_bad_lines_are_named(self) -> None:
        head = "when,symbol,price,amount"
        good = "2026-11-27 09:30:01,ACME,1.50,3"
        table: list[tuple[str, str | None]] = [
            ("2026-11-27 09:30:01,ACME,1.50", "amount"),  # a field is missing
            ("2026-11-27 09:30:01", "symbol"),
            ("2026-11-27 09:30:01,ACME,1.50,3,4", None),  # a field too many
            ("2026-11-27 09:30:01,ACME,cheap,3", "price"),
            ("2026-11-27 09:30:01,ACME,1.505,3", "price"),
            ("2026-11-27 09:30:01,ACME,1.50,three", "amount"),
            (",ACME,1.50,3", "instant"),
            ("yesterday,ACME,1.50,3", "instant"),
            ("-5,ACME,1.50,3", "instant"),
            ("2026-11-27 09:29:59,ACME,1.50,3", "instant"),  # late
        ]
        for line, column in table:
            with self.subTest(line=line):
                with self.assertRaises(BadRow) as caught:
                    self.trades.append_csv([head, good, line, good], "when")
                bad = caught.exception
                self.assertEqual((bad.index, bad.column, bad.taken), (1, column, 1))
                self.assertEqual((bad.row.line, len(bad.rest)), (3, 1))
        skipped = Skipped()
        lines = [head, *(line for line, _ in table), good]
        self.assertEqual(self.trades.append_csv(lines, "when", skip=skipped), 1)
        self.assertEqual((len(skipped.late), len(skipped.bad)), (1, 9))

    def test_file_without_a_column_or_quote_says_so(self) -> None:
        with self.assertRaisesRegex(BadRow, "no column of this name"):
            self.trades.append_csv(["when,symbol,price", "2026-11-27 09:30:01,A,1"], "when")
        with self.assertRaises(BadValue) as caught:
            lines = ["when,symbol,price,amount", "2026-11-27 09:30:01,A,1,1", '1,"A,1,1']
            self.trades.append_csv(lines, "when")
        self.assertEqual(caught.exception.taken, 1)
        self.assertEqual(self.trades.append_csv([], "when"), 0)


class Schemas(Case):
    """A schema alone, as for the client of asyncio."""

    def test_schema_encodes_for_any_client(self) -> None:
        schema = Schema({"a": Decimal(1)}, Clock.seconds(MORNING))
        engine = self.process()
        engine.stream("S", schema.names)
        self.assertEqual(engine.append("S", [(MORNING, 1.5)], schema=schema), 1)
        self.assertEqual(schema.encode((after(2), None)), [2, None])
        self.assertEqual(schema.time(2), after(2))
