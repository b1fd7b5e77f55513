"""The friendly dialect: units, Avg, Having, Every, decimals and texts, and what is refused."""

from __future__ import annotations

import unittest
from collections import Counter
from collections.abc import Callable, Iterable
from datetime import datetime, timezone
from fractions import Fraction
from random import Random

from support import Case
from cqld import Process
from cqld.language import (
    BOOL,
    INT,
    TEXT,
    Declared,
    Fault,
    Kind,
    Rewritten,
    SumOutOfRange,
    Unit,
    read,
    read_friendly,
    rewrite,
    unit_of,
)
from cqld.language.types import clock, decimal, time
from cqld.wire import Row
from texts import STREAMS, Texts

SECONDS = clock(Unit.SECOND)
TRADES = Declared(
    {
        "symbol": TEXT,
        "price": decimal(2),
        "amount": INT,
        "at": time(SECONDS),
        "ok": BOOL,
        "note": TEXT,
        "cost": decimal(2),
        "share": decimal(3),
    },
    Unit.SECOND,
)
CATALOG = {
    "Trades": TRADES,
    "Minutes": Declared({"symbol": TEXT}, Unit.MINUTE),
    "Plain": Declared({"a": INT, "b": INT}),
    "Later": Declared({"symbol": TEXT}, Unit.SECOND, datetime(2026, 1, 1, tzinfo=timezone.utc)),
}


Answered = Counter[tuple[Fraction | None, ...]]
"""Answers, and how often each came."""


class Numbers:
    """Numbers texts from 0 on, as they come."""

    def __init__(self) -> None:
        self.known: list[str] = []

    def __call__(self, text: str) -> int:
        if text not in self.known:
            self.known.append(text)
        return self.known.index(text)


def rewritten(text: str, numbers: Callable[[str], int] | None = None) -> Rewritten:
    """Returns what a text means over the catalog."""
    return rewrite(text, CATALOG, numbers or Numbers())


class EngineTexts(unittest.TestCase):
    """The text that the engine runs."""

    def test_what_the_engine_runs(self) -> None:
        table = {
            # units
            "Select Istream(amount) From Trades [Range 10 seconds]":
                "Select Istream(amount) From Trades [Range 9]",
            "Select Istream(amount) From Trades [Range 1.5 Minutes Slide 1 minute]":
                "Select Istream(amount) From Trades [Range 89 Slide 60]",
            "Select Istream(amount) From Trades [Range 2 h]":
                "Select Istream(amount) From Trades [Range 7199]",
            "Select Istream(amount) From Trades [Range 3000 ms Slide 2]":
                "Select Istream(amount) From Trades [Range 2 Slide 2]",
            "Select Istream(symbol) From Minutes [Range 1 day]":
                "Select Istream(symbol) From Minutes [Range 1439]",
            # literals
            "Select Istream(amount) From Trades Where price >= 1.5 And -0.25 < price":
                "Select Istream(amount) From Trades Where price >= 150 And -25 < price",
            "Select Istream(amount) From Trades Where price = 100":
                "Select Istream(amount) From Trades Where price = 10000",
            "Select Istream(amount) From Trades Where symbol = 'A''B' Or symbol <> 'é;'":
                "Select Istream(amount) From Trades Where symbol = 0 Or symbol <> 1",
            "Select Istream(amount) From Trades Where ok = true And Not ok = False":
                "Select Istream(amount) From Trades Where ok = 1 And Not ok = 0",
            "Select Istream(amount) From Trades Where at >= '1970-01-02' And at < 90000":
                "Select Istream(amount) From Trades Where at >= 86400 And at < 90000",
            "Select Istream(amount) From Trades Where at = '1970-01-01T02:00:00+01:00'":
                "Select Istream(amount) From Trades Where at = 3600",
            "Select Istream(amount) From Trades Where price > cost And symbol = note":
                "Select Istream(amount) From Trades Where price > cost And symbol = note",
            # Avg
            "Select Rstream(Avg(price) As mean) From Trades":
                "Select Rstream(Sum(price), Count(price)) From Trades",
            "Select Rstream(Count(price), Avg(price), Avg(amount)) From Trades":
                "Select Rstream(Count(price), Sum(price), Sum(amount), Count(amount)) From Trades",
            # Having and Every
            "Rstream(Select symbol, Count(*) From Trades Group By symbol Having Sum(amount) > 3"
            " Every 1 minute);":
                "Rstream(Select symbol, Count(*), Sum(amount) From Trades Group By symbol)",
            "Select Rstream(Count(*) As n) From Trades Having Count(*) > 3 Every 5":
                "Select Rstream(Count(*) As n) From Trades",
            "Select Rstream(Count(*)) From Trades Group By symbol Having symbol = 'x'":
                "Select Rstream(Count(*), symbol) From Trades Group By symbol",
            "Select Rstream(Count(*)) From Trades Having Avg(price) > 3":
                "Select Rstream(Count(*), Sum(price), Count(price)) From Trades",
            # names that are words of the dialect
            "Select Istream(every.amount) From Trades every Where every.amount = 1":
                "Select Istream(every.amount) From Trades every Where every.amount = 1",
            "Select Istream(amount) From Trades having":
                "Select Istream(amount) From Trades having",
        }
        for text, engine in table.items():
            with self.subTest(text=text):
                self.assertEqual(rewritten(text).text, engine)

    def test_a_text_of_the_engine_means_the_same_over_whole_numbers(self) -> None:
        catalog = {
            name: Declared({column: INT for column in columns}) for name, columns in STREAMS.items()
        }
        texts = Texts(Random(31))
        count = 0
        for _ in range(1_500):
            text = texts.text()
            try:
                query = read(text)
                found = rewrite(text, catalog, Numbers())
            except Fault as fault:
                self.assertRegex(fault.code, "^Q")
                continue
            self.assertEqual(read(found.text), query, text)
            self.assertEqual((found.having, found.every, found.notes), (None, None, ()))
            count += 1
        self.assertGreater(count, 200)

    def test_columns_have_names_types_and_places(self) -> None:
        found = rewritten(
            "Select Rstream(symbol As s, Avg(price) As mean, Sum(price), Min(at), Sum(ok), Avg(ok),"
            " Count(*)) From Trades Group By symbol Every 1 minute"
        )
        self.assertEqual(
            [(each.name, str(each.type), each.place, each.count) for each in found.columns],
            [
                ("s", "text", 0, None),
                ("mean", "decimal(2)", 1, 7),
                ("Sum(price)", "decimal(2)", 2, None),
                ("Min(at)", "time", 3, None),
                ("Sum(ok)", "int", 4, None),
                ("Avg(ok)", "int", 5, 8),
                ("Count(*)", "int", 6, None),
            ],
        )
        self.assertEqual(found.every, 60)
        self.assertEqual(found.streams, ("Trades",))

    def test_notes_say_what_was_changed(self) -> None:
        found = rewritten(
            "Select Rstream(symbol, Avg(price) As mean) From Trades [Range 10 seconds] "
            "Where price > 1.5 Group By symbol Having mean > 2 Every 1 minute"
        )
        notes = "\n".join(found.notes)
        for part in ("[Range 9]", "150", "Sum(price) divided by Count(price)", "mean > 2",
                     "multiples of 60 instants"):
            self.assertIn(part, notes)

    def test_units(self) -> None:
        for word, unit in {"s": Unit.SECOND, "Seconds": Unit.SECOND, "WEEK": Unit.WEEK,
                           "min": Unit.MINUTE, "fortnight": None}.items():
            self.assertIs(unit_of(word), unit)

    def test_instants_may_count_from_a_later_time(self) -> None:
        since = datetime(2026, 1, 1, tzinfo=timezone.utc)
        declared = Declared({"at": time(clock(Unit.MILLISECOND, since))}, Unit.MILLISECOND, since)
        text = "Select Istream(at) From S [Range 1 second] Where at > '2026-01-01 00:00:01.5'"
        found = rewrite(text, {"S": declared}, Numbers())
        self.assertEqual(found.text, "Select Istream(at) From S [Range 999] Where at > 1500")


class Refusals(unittest.TestCase):
    """What cannot be said is refused, with its place and the reason."""

    def test_refusals(self) -> None:
        table = [
            # text, code, what the caret marks, a part of the reason
            ("Select Istream(Avg(price)) From Trades", "F2", "Avg(price)", "equal mean"),
            ("Select Dstream(Avg(price)) From Trades", "F2", "Avg(price)", "use Rstream"),
            ("Select Rstream(Distinct Avg(price)) From Trades", "F2", "Avg(price)", "Distinct"),
            ("Select Istream(amount) From Trades Every 1 minute", "F4", "1 minute", "Rstream only"),
            ("Select Dstream(amount) From Trades Every 5", "F4", "5", "Rstream only"),
            ("Select Istream(symbol) From Trades Where symbol > 'A'", "F5", "symbol > 'A'",
             "no order"),
            ("Select Istream(symbol) From Trades Where symbol <= note", "F5", "symbol <= note",
             "no order"),
            ("Select Rstream(Max(symbol)) From Trades", "F5", "Max(symbol)", "no Max"),
            ("Select Rstream(Min(symbol) As m) From Trades", "F5", "Min(symbol) As m", "no Min"),
            ("Select Rstream(Sum(symbol)) From Trades", "F5", "Sum(symbol)", "no Sum"),
            ("Select Rstream(Avg(at)) From Trades", "F5", "Avg(at)", "no Avg"),
            ("Select Istream(amount) From Trades Where price > amount", "F5", "price > amount",
             "differ in scale"),
            ("Select Istream(amount) From Trades Where price > share", "F5", "price > share",
             "differ in scale"),
            ("Select Istream(amount) From Trades Where symbol = amount", "F5", "symbol = amount",
             "is text"),
            ("Select Istream(amount) From Trades Where price > 1.005", "F6", "1.005", "2 places"),
            ("Select Istream(amount) From Trades Where amount > 1.5", "F6", "1.5", "whole"),
            ("Select Istream(amount) From Trades Where symbol = 5", "F6", "5", "in quotes"),
            ("Select Istream(amount) From Trades Where amount = 'x'", "F6", "'x'", "no int"),
            ("Select Istream(amount) From Trades Where at = 'soon'", "F6", "'soon'", "no time"),
            ("Select Istream(amount) From Trades Where amount = true", "F6", "true", "no int"),
            ("Select Istream(amount) From Trades Where 'a' = 'b'", "F6", "'a'", "two literals"),
            ("Select Istream(amount) From Trades Where price > 99999999999", "Q5", "99999999999",
             "greatest"),
            ("Select Istream(amount) From Trades [Range 1500 ms]", "F1", "1500 ms", "whole number"),
            ("Select Istream(amount) From Trades [Range 0 seconds]", "Q5", "0 seconds", "1 to"),
            ("Select Istream(a) From Plain [Range 1 minute]", "F1", "1 minute", "no unit"),
            ("Select Rstream(a) From Plain Every 1 minute", "F1", "1 minute", "no unit"),
            ("Select Rstream(amount) From Trades T, Minutes Where T.symbol = Minutes.symbol", "F1",
             "Minutes", "cannot meet"),
            ("Select Rstream(amount) From Later, Trades Where Later.symbol = Trades.symbol", "F1",
             "Trades", "since 1970-01-01"),
            ("Select Istream(symbol, Count(*)) From Trades Group By symbol Having Sum(amount) > 3",
             "F3", "Sum(amount)", "add it to the list"),
            ("Select Rstream(Distinct symbol) From Trades Group By symbol Having Count(*) > 3",
             "F3", "Count(*)", "Distinct"),
            ("Select Rstream(symbol) From Trades Group By symbol Having amount > 3", "F3", "amount",
             "no Group By"),
            ("Select Rstream(symbol) From Trades Having Count(*) > 3", "F3", "Count(*)",
             "nothing to aggregate"),
            ("Select Rstream(Sum(price) As n, Count(*) As n) From Trades Having n > 3", "F3", "n",
             "2 items"),
            ("Select Rstream(symbol, Count(*)) From Trades Group By symbol Having symbol < 'a'",
             "F5", "symbol < 'a'", "no order"),
            ("Select Rstream(amount) From Trades [Range 1 mnute]", "Q4", "mnute", "where"),
            ("Select Rstream(amount) From Trades Where symbol = 'x", "Q3", "'", "no end"),
        ]
        for text, code, marked, reason in table:
            with self.subTest(text=text):
                with self.assertRaises(Fault) as caught:
                    rewritten(text)
                fault = caught.exception
                self.assertEqual((fault.code, fault.found), (code, marked))
                assert fault.place is not None
                self.assertTrue(text.startswith(marked, fault.place))
                self.assertIn(reason, fault.message())

    def test_the_nearest_names_are_those_of_the_dialect_too(self) -> None:
        for text, names in {
            "Select Rstream(Count(*) As volume) From Trades Having volum > 3": ("volume",),
            "Select Rstream(Count(*)) From Trades [Range 1 minte]": ("minutes",),
            "Select Rstream(Count(*)) From Trades Group By symbol Evry 5": ("Every",),
            "Select Rstream(Count(*)) From Trades Group By symbol Havin symbol = 'x'": ("Having",),
        }.items():
            with self.subTest(text=text):
                with self.assertRaises(Fault) as caught:
                    rewritten(text)
                self.assertEqual(caught.exception.nearest, names)

    def test_what_gets_too_wide_by_rewriting_says_so(self) -> None:
        items = ", ".join(["Avg(amount)", *["Sum(amount)"] * 31])
        with self.assertRaises(Fault) as caught:
            rewritten(f"Select Rstream({items}) From Trades")
        self.assertEqual(caught.exception.code, "Q13")
        self.assertIn("once it is written for the engine", caught.exception.message())

    def test_having_without_a_condition_is_an_alias_as_for_the_engine(self) -> None:
        self.assertEqual(read_friendly("Select Rstream(*) From S Having").query.sources[0].alias,
                         "Having")


class Answers(Case):
    """What the client keeps and divides, over a running engine."""

    def answers(
        self, engine: Process, name: str, found: Rewritten
    ) -> list[tuple[Fraction | None, ...]]:
        """Returns the answers that the client keeps, the instant first."""
        kept = []
        for row in engine.answers(name):
            if found.keeps(row):
                values = [column.scaled(row) for column in found.columns]
                kept.append((Fraction(row[0] or 0), *values))
        return kept

    def ask(self, rows: Iterable[Row], texts: list[str], until: int) -> list[Answered]:
        """Returns the answers of each text over rows of a stream `S (g int, v decimal(1))`."""
        catalog = {"S": Declared({"g": INT, "v": decimal(1)}, Unit.SECOND)}
        engine = self.process()
        engine.stream("S", ["g", "v"])
        found = [rewrite(text, catalog, Numbers()) for text in texts]
        for place, each in enumerate(found):
            engine.query(f"q{place}", each.text)
        engine.append("S", rows)
        engine.heartbeat("S", until)
        return [Counter(self.answers(engine, f"q{n}", each)) for n, each in enumerate(found)]

    def test_means_having_and_every_are_those_of_the_rows(self) -> None:
        for seed in range(6):
            random = Random(seed)
            rows: list[Row] = [
                [random.randrange(60), random.randrange(3), random.choice([None, *range(-9, 30)])]
                for _ in range(150)
            ]
            answers = self.ask(
                rows,
                [
                    "Select Rstream(g, Avg(v) As mean) From S [Range 6 seconds] Group By g "
                    "Having (mean > 1.05 Or Count(*) >= 4) And Not g = 1 Every 5 seconds",
                ],
                59,
            )[0]
            expected: Answered = Counter()
            for instant in range(0, 60, 5):
                for group in (0, 2):
                    held = [row[2] for row in rows
                            if row[1] == group and instant - 5 <= (row[0] or 0) <= instant]
                    values = [value for value in held if value is not None]
                    mean = Fraction(sum(values), 10 * len(values)) if values else None
                    above = mean is not None and mean > Fraction("1.05")
                    if held and (above or len(held) >= 4):
                        expected[(Fraction(instant), Fraction(group), mean)] += 1
            self.assertEqual(answers, expected)
            self.assertTrue(expected)

    def test_having_filters_the_relation_for_each_operator(self) -> None:
        """A filter of answers is that of the relation: its changes are the filtered changes."""
        body = "(g, Sum(v) As total) From S [Range 4 seconds] Group By g"
        having = "Having total >= 2.5 Or g <> 0"
        for seed in range(6):
            random = Random(seed)
            rows: list[Row] = [
                [random.randrange(40), random.randrange(3), random.choice([None, 5, 10, 20])]
                for _ in range(80)
            ]
            whole, *operators = self.ask(
                rows,
                [f"Select Rstream{body}"]
                + [f"Select {word}{body} {having}" for word in ("Rstream", "Istream", "Dstream")],
                39,
            )
            relations: list[Answered] = [Counter() for _ in range(40)]
            for (instant, group, total), count in whole.items():
                if (total is not None and total >= Fraction("2.5")) or group != 0:
                    relations[int(instant or 0)][(group, total)] += count
            for number, answers in enumerate(operators):
                expected: Answered = Counter()
                for at, relation in enumerate(relations):
                    before = relations[at - 1] if at else Counter()
                    part = [relation, relation - before, before - relation][number]
                    for row, count in part.items():
                        expected[(Fraction(at), *row)] += count
                self.assertEqual(answers, expected)

    def test_a_sum_at_its_end_is_no_mean(self) -> None:
        found = rewritten("Select Rstream(Avg(amount) As mean) From Trades Having mean > 1")
        end = 9_223_372_036_854_775_807
        for total in (end, -end):
            with self.assertRaises(SumOutOfRange) as caught:
                found.keeps([7, total, 2])
            self.assertEqual((caught.exception.column, caught.exception.instant), ("mean", 7))
            with self.assertRaises(SumOutOfRange):
                found.values([7, total, 2])
        self.assertEqual(found.values([7, end - 1, 2]), [Fraction(end - 1, 2)])
        self.assertEqual(found.values([7, None, 0]), [None])
        self.assertFalse(found.keeps([7, None, 0]))

    def test_unknown_is_not_true(self) -> None:
        def kept(having: str, *values: int | None) -> bool:
            text = f"Select Rstream(a, b) From Plain Having {having}"
            return rewritten(text).keeps([0, *values])

        self.assertFalse(kept("a > 1", None, 0))
        self.assertFalse(kept("Not a > 1", None, 0))
        self.assertTrue(kept("a > 1 Or b = 0", None, 0))
        self.assertFalse(kept("a > 1 And b = 0", None, 0))
        self.assertTrue(kept("Not (a > 1 And b = 1)", None, 0))
        self.assertFalse(kept("Not (a > 1 Or b = 1)", None, 0))
        for sign, expected in {"=": (0, 1, 0), "<>": (1, 0, 1), "<": (1, 0, 0), "<=": (1, 1, 0),
                               ">": (0, 0, 1), ">=": (0, 1, 1), "!=": (1, 0, 1)}.items():
            found = tuple(int(kept(f"a {sign} 5", value, 0)) for value in (4, 5, 6))
            self.assertEqual(found, expected, sign)

    def test_values_of_different_scale_are_compared_as_people_know_them(self) -> None:
        text = "Select Rstream(price, amount, share) From Trades Having price > amount"
        self.assertTrue(rewritten(text).keeps([0, 201, 2, 0]))
        self.assertFalse(rewritten(text).keeps([0, 200, 2, 0]))
        text = "Select Rstream(price, amount, share) From Trades Having price = share"
        self.assertTrue(rewritten(text).keeps([0, 150, 2, 1500]))
        self.assertEqual(TRADES.columns["share"].kind, Kind.DECIMAL)


if __name__ == "__main__":
    unittest.main()
