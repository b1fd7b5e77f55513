#!/usr/bin/env python3
"""Averages, crossings and a join over the daily closes of four indices.

    /usr/bin/python3 docs/tutorials/market_data.py [FOLDER]

It prints market-data.txt and draws market-data.svg, by default beside itself.
"""
from __future__ import annotations

import sys
from pathlib import Path
from typing import Any, TextIO

HERE = Path(__file__).resolve().parent
sys.path[:0] = [str(HERE), str(HERE.parents[1] / "clients" / "python")]

from picture import BLUE, GREEN, GREY, ORANGE, RED, Plot  # noqa: E402

from cqld import Bool, Decimal, Int, MemoryDictionary, Process, Query, Stream, Text  # noqa: E402

AVERAGES = """
    Select Rstream(f.symbol, Avg(f.close) As fast, Avg(s.close) As slow)
    From Closes [Range 4] f, Closes [Range 19] s
    Where f.symbol = s.symbol Group By f.symbol Having Count(*) = 100
"""
CROSSINGS = "Select Istream(symbol, above) From Signals [Partition By symbol Rows 1]"
ABOVE = """
    Select Rstream(dax.close As dax, cac.close As cac)
    From Closes [Now] dax, Closes [Now] cac
    Where dax.day = cac.day And dax.symbol = 'DAX' And cac.symbol = 'CAC'
      And dax.close > cac.close
"""


class Market:
    """The closes in an engine, and the queries over them."""

    def __init__(self, engine: Process) -> None:
        symbols = MemoryDictionary()
        self.closes = Stream(engine, "Closes", {
            "day": Int(), "symbol": Text(symbols), "close": Decimal(2)})
        self.signals = Stream(engine, "Signals", {"symbol": Text(symbols), "above": Bool()})
        self.averages = Query(engine, "averages", AVERAGES, [self.closes])
        self.above = Query(engine, "above", ABOVE, [self.closes])
        self.crossings = Query(engine, "crossings", CROSSINGS, [self.signals])
        for stream in (self.closes, self.signals):
            stream.declare()
        for query in (self.averages, self.above, self.crossings):
            query.register()

    def load(self, path: Path) -> int:
        """Appends the closes of a file, and returns how many there are."""
        with path.open(newline="") as lines:
            count = self.closes.append_csv(lines, "day")
        self.closes.heartbeat(1_860)
        return count

    def signal(self, averages: list[Any]) -> None:
        """Feeds the averages back: a row says whether the fast one is above the slow one."""
        self.signals.append((each.instant, each.symbol, each.fast > each.slow)
                            for each in averages)
        self.signals.heartbeat(1_860)


def crossings_of(changes: list[Any]) -> list[Any]:
    """Returns the changes but the first of each symbol, which is no crossing."""
    seen: set[str] = set()
    found = []
    for change in changes:
        if change.symbol in seen:
            found.append(change)
        seen.add(change.symbol)
    return found


def draw(closes: list[tuple[int, float]], averages: list[Any], crossings: list[Any],
         path: Path) -> None:
    """Draws a stretch of the DAX with both averages and the crossings."""
    first, last = 1_000, 1_180
    plot = Plot("DAX: closes, averages of 5 and 20 days, and where they cross",
                (first, last), (1_950, 2_350))
    plot.axes(range(first, last + 1, 30), range(1_950, 2_351, 50), lambda day: f"day {day:g}")
    plot.line("close", [point for point in closes if first <= point[0] <= last], GREY, 1)
    near = [each for each in averages if each.symbol == "DAX" and first <= each.instant <= last]
    plot.line("5 days", [(each.instant, each.fast) for each in near], BLUE)
    plot.line("20 days", [(each.instant, each.slow) for each in near], ORANGE)
    slow = {each.instant: each.slow for each in near}
    for change in crossings:
        if change.symbol == "DAX" and change.instant in slow:
            color = GREEN if change.above else RED
            plot.mark(change.instant, slow[change.instant], color, change.above)
    plot.write(path)


def closes_of(path: Path, symbol: str) -> list[tuple[int, float]]:
    """Returns the days and closes of a symbol."""
    rows = [line.split(",") for line in path.read_text().splitlines()[1:]]
    return [(int(day), float(close)) for day, name, close in rows if name == symbol]


def tutorial(out: TextIO, folder: Path) -> None:
    """Writes what the tutorial shows, and draws its picture."""
    data = HERE / "eu_stock_markets.csv"
    with Process() as engine:
        market = Market(engine)
        print(f"{market.load(data):,} closes", file=out)
        averages = list(market.averages.answers())
        for each in averages[:4]:
            print(f"day {each.instant}  {each.symbol:4}  5 days {each.fast:8.2f}  "
                  f"20 days {each.slow:8.2f}", file=out)

        market.signal(averages)
        crossings = crossings_of(list(market.crossings.answers()))
        dax = [each for each in crossings if each.symbol == "DAX"]
        print(f"\n{len(crossings)} crossings, {len(dax)} of them of the DAX, the first:", file=out)
        for each in dax[:4]:
            print(f"day {each.instant:3}  {'up' if each.above else 'down'}", file=out)

        above = list(market.above.answers())
        print(f"\nthe DAX closes above the CAC on {len(above):,} days, the first:", file=out)
        for each in above[:3]:
            print(f"day {each.instant}  DAX {each.dax}  CAC {each.cac}", file=out)
    draw(closes_of(data, "DAX"), averages, crossings, folder / "market-data.svg")


def main() -> None:
    """Writes the output and the picture into a folder."""
    folder = Path(sys.argv[1]) if len(sys.argv) > 1 else HERE
    with (folder / "market-data.txt").open("w") as out:
        tutorial(out, folder)
    print((folder / "market-data.txt").read_text(), end="")


if __name__ == "__main__":
    main()
