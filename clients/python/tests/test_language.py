"""The reader of query texts: the engine's faults, places, carets, names and suggestions."""

from __future__ import annotations

import json
import subprocess
import unittest
from collections import Counter
from random import Random

import support
from cqld import find_program
from cqld.language import (
    And,
    Column,
    Comparison,
    Fault,
    Function,
    Item,
    JoinKey,
    Literal,
    Not,
    Now,
    Operator,
    Or,
    Partition,
    Query,
    Range,
    Reference,
    Rows,
    Sign,
    Source,
    Unbounded,
    conjuncts,
    is_name,
    nearest,
    read,
    references,
    resolve,
    write,
)
from texts import STREAMS, Texts

CATALOG = {"Trades": ["symbol", "price", "amount"], "Quotes": ["symbol", "bid"]}


def verdict(text: str) -> str:
    """Returns what the reader says of a text over the streams of the random ones."""
    try:
        resolve(read(text), STREAMS, text)
    except Fault as fault:
        return fault.engine
    return "ok"


def engine_verdicts(texts: list[str]) -> list[str]:
    """Returns what the engine says of texts over the same streams."""
    lines = [
        json.dumps({"op": "stream", "name": name, "columns": columns, "from": 0})
        for name, columns in STREAMS.items()
    ]
    for text in texts:
        lines.append(json.dumps({"op": "query", "name": "q", "text": text}))
        lines.append('{"op":"drop","query":"q"}')
    done = subprocess.run(
        [find_program("cqlrun")],
        input="\n".join(lines) + "\n",
        capture_output=True,
        text=True,
        timeout=support.PATIENCE,
        check=True,
    )
    replies = done.stdout.splitlines()
    assert len(replies) == len(lines)
    return [json.loads(reply).get("error", "ok") for reply in replies[len(STREAMS) :: 2]]


class AgainstTheEngine(unittest.TestCase):
    """Each text has the engine's verdict: the same code, and the same place."""

    def test_random_texts_have_the_engines_verdicts(self) -> None:
        random = Random(20)
        texts = Texts(random)
        kinds = [texts.text, texts.mutated, texts.long]
        made = [random.choices(kinds, [40, 57, 3])[0]() for _ in range(6_000)]
        told = engine_verdicts(made)
        for text, expected in zip(made, told):
            self.assertEqual(verdict(text), expected, repr(text))
        codes = Counter(each.split()[0] for each in told)
        self.assertGreater(codes["ok"], 600)
        for number in range(1, 14):
            self.assertGreater(codes[f"Q{number}"], 0, f"no text has the fault Q{number}")

    def test_each_prefix_of_a_text_has_the_engines_verdict(self) -> None:
        text = (
            "Rstream(Select Distinct x.k As n, Count(*), Sum(y.v) From One [Now] As x,"
            "T y [Partition By k, v Rows 3] Where (x.k=y.k) And Not y.v <> -07 Group By x.k, v);"
        )
        prefixes = [text[:size] for size in range(len(text) + 1)]
        self.assertEqual([verdict(each) for each in prefixes], engine_verdicts(prefixes))

    def test_what_is_written_reads_as_the_same_query(self) -> None:
        texts = Texts(Random(21))
        count = 0
        for _ in range(1_500):
            text = texts.text()
            try:
                query = read(text)
            except Fault:
                continue
            self.assertEqual(read(write(query)), query, text)
            count += 1
        self.assertGreater(count, 500)


class Reading(unittest.TestCase):
    """What a text says, part by part."""

    def test_every_part_is_read(self) -> None:
        query = read(
            "Select Istream(Distinct T.symbol As s, Count(*), Max(price)) From Trades [Range 5 "
            "Slide 2] T, Quotes Q [Partition By symbol Rows 3] Where T.symbol = Q.symbol And "
            "(price > 5 Or Not bid <> -2) Group By T.symbol;"
        )
        symbol = Reference("T", "symbol")
        other = Reference("Q", "symbol")
        self.assertEqual(
            query,
            Query(
                Operator.ISTREAM,
                True,
                (
                    Item(None, symbol, "s"),
                    Item(Function.COUNT, None),
                    Item(Function.MAX, Reference(None, "price")),
                ),
                (
                    Source("Trades", Range(5, 2), "T"),
                    Source("Quotes", Partition((Reference(None, "symbol"),), 3), "Q"),
                ),
                And(
                    (
                        Comparison(symbol, Sign.EQUAL, other),
                        Or(
                            (
                                Comparison(Reference(None, "price"), Sign.GREATER, Literal(5)),
                                Not(Comparison(Reference(None, "bid"), Sign.UNEQUAL, Literal(-2))),
                            )
                        ),
                    )
                ),
                (symbol,),
            ),
        )
        self.assertTrue(query.is_grouped)
        self.assertEqual(len(conjuncts(query.condition)), 2)
        self.assertEqual([str(each) for each in references(query.condition)],
                         ["T.symbol", "Q.symbol", "price", "bid"])

    def test_windows(self) -> None:
        for text, window in {
            "": Unbounded(),
            "[Now]": Now(),
            "[Range 007]": Range(7),
            "[Range -0 Slide 1]": Range(0, 1),
            "[Range Unbounded]": Unbounded(),
            "[Rows Unbounded]": Unbounded(),
            "[Rows 65536]": Rows(65_536),
        }.items():
            self.assertEqual(read(f"Select Istream(*) From S{text}").sources[0].window, window)

    def test_spans_say_where_parts_stand(self) -> None:
        text = "Select Rstream(Distinct a, Sum(b) As n) From S [Now] Where a > 1 Group By a ;"
        query = read(text)
        self.assertEqual(text[query.list_span.start : query.list_span.end], "a, Sum(b) As n")
        rest = text[query.rest_span.start : query.rest_span.end]
        self.assertEqual(rest, "From S [Now] Where a > 1 Group By a")
        spans = [text[item.span.start : item.span.end] for item in query.items]
        self.assertEqual(spans, ["a", "Sum(b) As n"])

    def test_names(self) -> None:
        for name, is_one in {"_a2": True, "a" * 32: True, "a" * 33: False, "sLIDE": False,
                             "2a": False, "": False, "é": False, "Avg": True}.items():
            self.assertEqual(is_name(name), is_one, name)


class Faults(unittest.TestCase):
    """Faults say what stands there, what could, and the nearest name."""

    def fault(self, text: str) -> Fault:
        """Returns the fault of a text."""
        with self.assertRaises(Fault) as caught:
            resolve(read(text), CATALOG, text)
        return caught.exception

    def test_the_caret_stands_below_the_fault(self) -> None:
        fault = self.fault("Select Istream(symbol)\n  From Trades [Now]\n  Where prise > 100")
        self.assertEqual(fault.caret(), "  Where prise > 100\n        ^^^^^")
        self.assertEqual(fault.message(),
                         "Q8 UnknownColumn: no column `prise` in Trades; did you mean `price`?")
        self.assertEqual(fault.shown(), f"{fault.caret()}\n{fault.message()}")

    def test_the_caret_of_an_end_stands_after_the_text(self) -> None:
        fault = self.fault("Select Istream(symbol) From")
        self.assertEqual(fault.caret(), "Select Istream(symbol) From\n" + " " * 27 + "^")
        self.assertEqual(fault.expected, ("a stream",))

    def test_a_tab_before_the_caret_stays_a_tab(self) -> None:
        self.assertEqual(self.fault("Select\tIstream(*) Form T").caret(),
                         "Select\tIstream(*) Form T\n      \t           ^^^^")

    def test_faults_of_the_grammar(self) -> None:
        table = [
            ("Select Istream(symbol) Form Trades", "Q4", 23, "Form", ("`From`",), ("From",)),
            ("Select Istream(symbol, ) From Trades", "Q4", 23, ")",
             ("`Count(`", "`Sum(`", "`Min(`", "`Max(`", "a column"), ()),
            ("Select * From Trades", "Q4", 7, "*", ("`Istream`", "`Dstream`", "`Rstream`"), ()),
            ("Select Istream(*) From Trades [Rows 0]", "Q5", 36, "0", (), ()),
            ("Select Istream(*) From Trades Where price > 'x'", "Q3", 44, "'", (), ()),
            ("Select Istream(*) From Trades Grup By symbol", "Q4", 35, "By", None, ("Group",)),
            ("Select Istream(*) From Trades Where price = 1 Grup By a", "Q4", 46, "Grup", None,
             ("Group",)),
        ]
        for text, code, place, found, expected, close in table:
            with self.subTest(text=text):
                fault = self.fault(text)
                self.assertEqual((fault.code, fault.place, fault.found), (code, place, found))
                if expected is not None:
                    self.assertEqual(fault.expected, expected)
                self.assertEqual(fault.nearest, close)

    def test_faults_of_names_have_a_place_and_the_nearest_name(self) -> None:
        table = [
            ("Select Istream(*) From Trads", "Q7", 23, ("Trades",)),
            ("Select Istream(Price) From Trades", "Q8", 15, ("price",)),
            ("Select Istream(Q.bit) From Quotes Q", "Q8", 15, ("Q.bid",)),
            ("Select Istream(R.bid) From Quotes Q", "Q8", 15, ()),
            ("Select Istream(symbol) From Trades, Quotes Where price = bid", "Q9", 15,
             ("Trades.symbol", "Quotes.symbol")),
            ("Select Istream(price) From Trades a, Trades a", "Q9", 15, ()),
            ("Select Istream(*) From Trades, Trades", "Q10", 31, ()),
            ("Select Istream(*) From Trades, Quotes", "Q11", 31, ()),
            ("Select Istream(price, Count(*)) From Trades Group By symbol", "Q12", 15, ()),
            ("Select Istream(*) From Trades Group By symbol", "Q12", 15, ()),
        ]
        for text, code, place, close in table:
            with self.subTest(text=text):
                fault = self.fault(text)
                self.assertEqual((fault.code, fault.place, fault.nearest), (code, place, close))
                self.assertNotIn(" at ", fault.engine)

    def test_words_of_sql_get_a_sentence(self) -> None:
        for text, words in {
            "Select Istream(*) From Trades Where symbol like 5": "`=` and `<>` only",
            "Select Istream(*) From Trades Where price = null": "never true",
            "Select Istream(*) From Trades Group By symbol Order By symbol": "one order",
            "Select Istream(*) From Trades Where price Between 1 And 2": "two comparisons",
        }.items():
            with self.subTest(text=text):
                self.assertIn(words, self.fault(text).message())

    def test_long_and_odd_texts(self) -> None:
        self.assertEqual(self.fault("Select" + " " * 4_091).engine, "Q1 TextTooLong")
        fault = self.fault("Select Istream(é) From Trades")
        self.assertEqual((fault.engine, fault.place), ("Q2 NotAscii", 15))
        self.assertEqual(self.fault("").engine, "Q4 Unexpected at 0")

    def test_nearest_names(self) -> None:
        self.assertEqual(nearest("SYMBOL", ["price", "symbol"]), ["symbol"])
        self.assertEqual(nearest("symbl", ["price", "symbol", "symbols"]), ["symbol", "symbols"])
        self.assertEqual(nearest("x", ["price", "symbol"]), [])

    def test_a_fault_moves_with_its_text(self) -> None:
        fault = self.fault("Select Istream(prise) From Trades")
        moved = fault.moved("create query q as Select Istream(prise) From Trades", 18)
        self.assertEqual((moved.place, moved.nearest), (33, ("price",)))


class Names(unittest.TestCase):
    """What names mean."""

    def test_columns_keys_and_partitions(self) -> None:
        text = (
            "Select Rstream(*) From Trades T [Partition By price, symbol Rows 1], Quotes, Trades U "
            "Where Quotes.symbol = T.symbol And U.symbol = Quotes.symbol And bid > 5 And "
            "T.price = U.price"
        )
        found = resolve(read(text), CATALOG, text)
        self.assertEqual(found.partitions, ((Column(0, 1), Column(0, 0)), (), ()))
        self.assertEqual(
            found.keys,
            (
                (),
                (JoinKey(Column(0, 0), Column(1, 0)),),
                (JoinKey(Column(1, 0), Column(2, 0)), JoinKey(Column(0, 1), Column(2, 1))),
            ),
        )
        self.assertEqual(
            [(str(each.item.column), each.column) for each in found.items][2:5],
            [("T.amount", Column(0, 2)), ("Quotes.symbol", Column(1, 0)),
             ("Quotes.bid", Column(1, 1))],
        )
        self.assertEqual(found.column(Reference(None, "bid")), Column(1, 1))

    def test_a_group_is_told_by_columns_and_not_by_spelling(self) -> None:
        text = "Select Rstream(Trades.symbol, Count(price)) From Trades Group By symbol"
        found = resolve(read(text), CATALOG, text)
        self.assertEqual(found.group, (Column(0, 0),))
        self.assertEqual([each.column for each in found.items], [Column(0, 0), Column(0, 1)])


if __name__ == "__main__":
    unittest.main()
