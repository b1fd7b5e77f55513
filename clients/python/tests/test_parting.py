"""Queries over parts of their streams: the rule, the driver, and the mergers of bridges."""

from __future__ import annotations

import contextlib
import io
import sys
import unittest
from collections import Counter
from collections.abc import Iterable, Mapping, Sequence
from pathlib import Path
from random import Random
from typing import Any

sys.path.insert(0, str(Path(__file__).resolve().parent))

import growth_support  # noqa: E402, F401  (finds the package and the random scripts)
from compare import Script  # noqa: E402

from cqld import Refused  # noqa: E402
from cqld.growth.parted import Parted, PartedFault, UnknownKey  # noqa: E402
from cqld.growth.parting import (  # noqa: E402
    Unparted, Way, main, part_of, stages, way)
from cqld.language import read, resolve  # noqa: E402

STREAMS = {"A": ["k", "u"], "B": ["k", "v"], "C": ["v", "w"]}
KEYS = {"A": "k", "B": "k"}

WAYS: Mapping[str, Way] = {
    "Select Istream(w) From C [Rows 3]": Way.ONE,
    "Select Istream(k, v) From B [Range 9] Where v > 3": Way.MERGE,
    "Select Rstream(v) From B [Range 9]": Way.MERGE,
    "Select Istream(*) From B [Partition By k Rows 2]": Way.MERGE,
    "Select Istream(k, Count(*)) From B [Range 9] Group By k": Way.MERGE,
    "Select Rstream(Sum(v)) From B [Range 9] Group By k, v": Way.MERGE,
    "Select Istream(A.k, v) From A [Now], B [Range 5] Where A.k = B.k": Way.MERGE,
    "Select Istream(B.k) From A [Now], B [Range 5] Where u = v And A.k = B.k": Way.MERGE,
    "Select Istream(Distinct k, v) From B [Now]": Way.MERGE,
    "Select Rstream(k, w) From B [Now], C [Rows 2] Where B.v = C.v": Way.MERGE,
    "Select Istream(v) From B [Range 9]": Way.NET,
    "Select Dstream(Sum(v)) From B [Range 9] Group By k": Way.NET,
    "Select Rstream(v, Count(*)) From B [Range 9] Group By v": Way.STAGES,
    "Select Istream(Count(*), Max(v)) From B [Range 9]": Way.STAGES,
    "Select Rstream(Distinct v) From B [Range 9]": Way.STAGES,
}

REFUSED: Mapping[str, str] = {
    "Select Istream(*) From B [Rows 3]": "[Rows 3] counts over all keys of B",
    "Select Istream(*) From B [Partition By v Rows 3]": "Partition By of B has not its key",
    "Select Istream(A.k) From A [Now], B [Now] Where A.k = B.v":
        "no chain of equalities leads from the key of A to that of B",
    "Select Istream(x.k) From B [Now] x, B [Now] y Where x.v = y.v":
        "no chain of equalities leads from the key of x to that of y",
}


class RuleTest(unittest.TestCase):

    def test_each_query_is_answered_in_its_way(self) -> None:
        for text, wanted in WAYS.items():
            self.assertIs(way(resolve(read(text), STREAMS), KEYS, STREAMS), wanted, text)

    def test_a_query_that_cannot_be_parted_is_refused_with_the_reason(self) -> None:
        for text, reason in REFUSED.items():
            with self.assertRaises(Unparted) as caught:
                way(resolve(read(text), STREAMS), KEYS, STREAMS)
            self.assertEqual(caught.exception.reason, reason)
        text = "Select Rstream(u, Count(*), Sum(u), Min(u), Max(u), Count(u), Sum(A.k), Min(A.k)) "
        text += "From A [Now] Group By u"
        with self.assertRaises(Unparted) as caught:
            stages(resolve(read(text), STREAMS), STREAMS, "s")
        self.assertIn("9 columns", caught.exception.reason)

    def test_the_command_says_the_way_or_the_reason(self) -> None:
        words = ["--stream", "B:k,v", "--key", "B:k"]
        out, errors = io.StringIO(), io.StringIO()
        with contextlib.redirect_stdout(out), contextlib.redirect_stderr(errors):
            self.assertEqual(main([*words, "Select Istream(v) From B"]), 0)
            self.assertEqual(main([*words, "Select Istream(v) From B [Rows 1]"]), 1)
            self.assertEqual(main([*words, "Select Istream(x) From B"]), 2)
            self.assertEqual(main([*words, "--key", "B:w", "Select Istream(v) From B"]), 2)
        self.assertEqual(out.getvalue().splitlines(), [
            "net", "cannot be parted: [Rows 1] counts over all keys of B"])
        self.assertIn("Q8 UnknownColumn", errors.getvalue())


def keys_of(draw: Random, script: Script) -> dict[str, str]:
    """Chooses a key for some of the streams, so that some queries can be parted."""
    return {name: draw.choice(stream.columns) for name, stream in script.streams.items()
            if draw.random() < 0.75}


class DriverTest(unittest.TestCase):

    def run_script(self, seed: int, parts: int, counts: Counter[str]) -> None:
        """Runs a random script over parts, and compares each take with what was foretold."""
        script, draw = Script(seed, has_looks=False), Random(seed)
        keys = keys_of(draw, script)
        left_out: set[str] = set()
        with Parted(parts, keys) as engines:
            for request, reply in zip(script.requests, script.replies):
                name = request.get("name") if request["op"] == "query" else request.get("query")
                if name in left_out:
                    continue
                try:
                    rows = self.carry(engines, request)
                except Unparted:
                    left_out.add(str(name))
                    counts["unparted"] += 1
                    continue
                except PartedFault:
                    left_out.add(str(name))
                    counts["too great"] += 1
                    continue
                except Refused as refused:
                    self.assertEqual({"error": refused.fault}, reply, (seed, request))
                    counts["refused"] += 1
                    continue
                self.assertNotIn("error", reply, (seed, request))
                if rows is not None:
                    wanted = reply["rows"]
                    if len(rows) < len(wanted):  # its partial sums grew too great
                        with self.assertRaises(PartedFault, msg=(seed, request)):
                            engines.take(request["query"])
                        left_out.add(str(name))
                        counts["too great"] += 1
                        wanted = wanted[:len(rows)]
                    self.assertEqual(rows, wanted, (seed, request))
                    counts["takes"] += 1
                    counts["rows"] += len(rows)

    def carry(self, engines: Parted, request: Mapping[str, Any]) -> Any:
        match request["op"]:
            case "stream":
                engines.stream(request["name"], request["columns"], request["from"])
            case "query":
                engines.query(request["name"], request["text"])
            case "append":
                engines.append(request["stream"], request["rows"])
            case "heartbeat":
                engines.heartbeat(request["stream"], request["at"])
            case "drain":
                engines.drain()
            case "take":
                return engines.take(request["query"], request["limit"])
            case "drop":
                engines.drop(request["query"])
        return None

    def test_answers_over_parts_are_those_of_one_engine(self) -> None:
        counts: Counter[str] = Counter()
        for seed in range(260):
            self.run_script(seed, 2 + seed % 3, counts)
        self.assertGreater(counts["takes"], 500)
        self.assertGreater(counts["unparted"], 100)
        self.assertGreater(counts["refused"], 10)

    def test_a_value_that_enters_one_part_as_it_leaves_another_is_no_answer(self) -> None:
        first = next(key for key in range(99) if part_of(key, 2) == 0)
        second = next(key for key in range(99) if part_of(key, 2) == 1)
        with Parted(2, {"S": "k"}) as engines:
            engines.stream("S", ["k", "v"])
            engines.query("come", "Select Istream(v) From S [Now]")
            engines.query("gone", "Select Dstream(v) From S [Now]")
            engines.append("S", [(1, first, 5), (2, second, 5), (2, first, 6), (3, second, 6)])
            engines.heartbeat("S", 4)
            engines.drain()
            self.assertEqual(engines.take("come"), [[1, 5], [2, 6]])
            self.assertEqual(engines.take("gone"), [[3, 5], [4, 6]])

    def test_a_refused_append_is_in_no_part(self) -> None:
        with Parted(3, {"S": "k"}) as engines:
            engines.stream("S", ["k", "v"], 3)
            engines.query("q", "Select Rstream(*) From S")
            good = [[4, key, 1] for key in range(20)]
            faults: Iterable[tuple[str, Sequence[Any]]] = [
                ("E10 Late", [2, 1, 1]), ("E7 BadWidth", [4, 1]), ("E8 ValueRange", [4, 1, 2**40]),
                ("E9 InstantRange", [2**40 + 1, 1, 1]), ("E8 ValueRange", [4, 1, "x"])]
            for fault, row in faults:
                with self.assertRaises(Refused) as caught:
                    engines.append("S", [*good, row])
                self.assertEqual(caught.exception.fault, fault)
            with self.assertRaises(Refused):
                engines.append("T", good)
            engines.heartbeat("S", 4)
            engines.drain()
            self.assertEqual(engines.take("q", 100), [])

    def test_a_refused_query_leaves_nothing(self) -> None:
        with Parted(2, {"S": "k"}) as engines:
            engines.stream("S", ["k", "v"])
            for number in range(128):
                engines.query(f"q{number}", "Select Istream(v) From S [Now]")
            for number in range(2):  # each takes two of the 256 at a part
                with self.assertRaises(Refused) as caught:
                    engines.query("more", "Select Istream(v) From S [Now]")
                self.assertEqual(caught.exception.code, "E4")
            engines.drop("q0")
            engines.query("more", "Select Istream(v) From S [Now]")

    def test_a_partial_sum_out_of_range_stops_only_its_query(self) -> None:
        with Parted(2, {"S": "k"}) as engines:
            engines.stream("S", ["k", "v"])
            engines.query("sum", "Select Rstream(Sum(v)) From S [Now]")
            engines.query("rows", "Select Rstream(k) From S [Now]")
            engines.append("S", [(0, 1, 5), (1, 1, 2**40 - 1), (1, 1, 2**40 - 1)])
            engines.heartbeat("S", 0)
            engines.drain()
            engines.heartbeat("S", 1)
            engines.drain()
            self.assertEqual(engines.take("sum"), [[0, 5]])
            with self.assertRaises(PartedFault):
                engines.take("sum")
            self.assertEqual(engines.take("rows"), [[0, 1], [1, 1], [1, 1]])

    def test_an_unknown_key_is_refused(self) -> None:
        with Parted(2, {"S": "z"}) as engines, self.assertRaises(UnknownKey):
            engines.stream("S", ["k"])


if __name__ == "__main__":
    unittest.main()
