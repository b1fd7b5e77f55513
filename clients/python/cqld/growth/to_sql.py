"""A query as one SELECT of SQL over tables.

    sql = to_sql("Select Istream(k, Sum(v)) From S [Range 9] Group By k", {"S": ["k", "v"]})

    python3 -m cqld.growth.to_sql --stream S:k,v "Select Rstream(*) From S [Now]" [--sqlite]

For the source number N it reads a table `source_N (ts, arrival, c0, c1, ..)`, the query's input of
that source, and `instants (inst)`, the closed instants above the query's base. It gives `inst` and
the values: what the engine answers, in its order.

A window gives each row a life: the first instant at which it is shown, and the first at which it
no longer is. The relation at an instant is the rows whose life holds it. All else is SQL with the
instant in each join, group and Distinct. The operators are differences of bags between an instant
and the one before.
"""

import argparse
import sys
from collections.abc import Mapping, Sequence
from enum import Enum

from ..language import (And, Column, Comparison, Condition, Fault, Function, Literal, Not, Now,
                        Operand, Operator, Or, Partition, Range, Reference, ResolvedItem,
                        ResolvedQuery, Rows, Streams, Unbounded, read, resolve)
from .errors import GrowthError

_MOST = 2**63 - 1  # the greatest sum of an answer


class Dialect(Enum):
    """The SQL that is written. SQLite has no EXCEPT ALL, so copies are numbered there."""

    STANDARD = "standard"
    SQLITE = "sqlite"


class Unmapped(GrowthError):
    """Says that a text has no query that SQL could be written for; `fault` says why."""

    def __init__(self, fault: Fault) -> None:
        super().__init__(str(fault))
        self.fault = fault


def to_sql(text: str, streams: Streams, dialect: Dialect = Dialect.STANDARD,
           tables: Sequence[str] | None = None) -> str:
    """Returns the SELECT of a query text.

    `tables` are the names of the sources' tables, by default `source_0` and so on. Raises
    Unmapped if the engine would refuse the text.
    """
    try:
        query = resolve(read(text), streams, text)
    except Fault as fault:
        raise Unmapped(fault) from fault
    sources = query.query.sources
    names = tables or [f"source_{number}" for number in range(len(sources))]
    widths = [len(streams[source.stream]) for source in sources]
    return _Select(query, names, widths, dialect).text()


class _Select:
    def __init__(self, query: ResolvedQuery, tables: Sequence[str], widths: Sequence[int],
                 dialect: Dialect) -> None:
        self._query, self._tables, self._widths = query, tables, widths
        self._dialect = dialect

    def text(self) -> str:
        """The whole SELECT."""
        parts = [part for number in range(len(self._tables)) for part in self._windows(number)]
        parts += [self._joined(), self._relation(), *self._moments()]
        values = self._values()
        order = ", ".join(["inst", *(f"{value} NULLS FIRST" for value in values)])
        return (f"WITH {', '.join(parts)} SELECT {', '.join(['inst', *values])} "
                f"FROM ({self._stream()}) AS s ORDER BY {order}")

    def _values(self) -> list[str]:
        return [f"a{number}" for number in range(len(self._query.items))]

    def _windows(self, number: int) -> list[str]:
        """The lives of a source's rows, and the rows of each instant."""
        columns = ", ".join(f"c{place} AS x{number}_{place}"
                            for place in range(self._widths[number]))
        named = ", ".join(f"x{number}_{place}" for place in range(self._widths[number]))
        first, end = self._life(number)
        return [
            f"life_{number} AS (SELECT {first} AS first_, {end} AS end_, {columns} "
            f"FROM {self._tables[number]})",
            f"window_{number} AS (SELECT inst, {named} FROM instants JOIN life_{number} "
            f"ON first_ <= inst AND (end_ IS NULL OR inst < end_))",
        ]

    def _life(self, number: int) -> tuple[str, str]:
        """The first instant at which a window shows a row, and the first at which no longer."""
        window = self._query.query.sources[number].window
        match window:
            case Unbounded():
                return "ts", "CAST(NULL AS BIGINT)"
            case Now():
                return "ts", "ts + 1"
            case Range(last, None):
                return "ts", f"ts + {last + 1}"
            case Range(last, slide):  # shown at the multiples m with m - last <= ts <= m
                assert slide is not None
                return (f"(ts + {slide - 1}) / {slide} * {slide}",
                        f"((ts + {last}) / {slide} + 1) * {slide}")
            case Rows(count):
                return "ts", f"LEAD(ts, {count}) OVER (ORDER BY ts, arrival)"
            case Partition(_, count):
                by = ", ".join(f"c{column.place}" for column in self._query.partitions[number])
                return "ts", f"LEAD(ts, {count}) OVER (PARTITION BY {by} ORDER BY ts, arrival)"
        raise AssertionError(window)

    def _joined(self) -> str:
        """The rows that the condition keeps, of each instant."""
        columns = ", ".join(f"x{number}_{place}" for number, width in enumerate(self._widths)
                            for place in range(width))
        joins = "window_0" + "".join(f" JOIN window_{number} ON window_{number}.inst = "
                                     f"window_0.inst" for number in range(1, len(self._widths)))
        where = self._query.query.condition
        kept = "" if where is None else f" WHERE {self._condition(where)}"
        return f"kept AS (SELECT window_0.inst AS inst, {columns} FROM {joins}{kept})"

    def _relation(self) -> str:
        """The query's relation at each instant."""
        query = self._query
        distinct = "DISTINCT " if query.query.distinct else ""
        source, group = "kept", ""
        if query.query.is_grouped:
            group = " GROUP BY " + ", ".join(["kept.inst", *map(_name, query.group)])
        instant, one = "kept.inst", "*"
        if query.query.is_grouped and not query.group:  # one row also where nothing is kept
            source = "instants LEFT JOIN kept ON kept.inst = instants.inst"
            group, instant, one = " GROUP BY instants.inst", "instants.inst", "kept.inst"
        items = ", ".join(f"{_item(item, one)} AS {value}"
                          for item, value in zip(query.items, self._values()))
        return f"r AS (SELECT {distinct}{instant} AS inst, {items} FROM {source}{group})"

    def _moments(self) -> list[str]:
        """The relation at each instant, and that at the instant before."""
        values = ", ".join(self._values())
        copy = copied = ""
        if self._dialect is Dialect.SQLITE:
            copy = f", ROW_NUMBER() OVER (PARTITION BY inst, {values}) AS copy"
            copied = ", copy"
        return [f"now AS (SELECT inst, {values}{copy} FROM r)",
                f"before AS (SELECT inst + 1 AS inst, {values}{copied} FROM now "
                f"WHERE inst + 1 IN (SELECT inst FROM instants))"]

    def _stream(self) -> str:
        less = "EXCEPT" if self._dialect is Dialect.SQLITE else "EXCEPT ALL"
        match self._query.query.operator:
            case Operator.ISTREAM:
                return f"SELECT * FROM now {less} SELECT * FROM before"
            case Operator.DSTREAM:
                return f"SELECT * FROM before {less} SELECT * FROM now"
            case Operator.RSTREAM:
                return "SELECT * FROM now"

    def _condition(self, condition: Condition) -> str:
        match condition:
            case Comparison(left, sign, right):
                return f"{self._operand(left)} {sign.value} {self._operand(right)}"
            case Not(part):
                return f"NOT ({self._condition(part)})"
            case And(parts):
                return "(" + " AND ".join(map(self._condition, parts)) + ")"
            case Or(parts):
                return "(" + " OR ".join(map(self._condition, parts)) + ")"

    def _operand(self, operand: Operand) -> str:
        if isinstance(operand, Literal):
            return str(operand.value)
        assert isinstance(operand, Reference)  # only Having compares anything else
        return _name(self._query.column(operand))


def _name(column: Column) -> str:
    return f"x{column.source}_{column.place}"


def _item(item: ResolvedItem, one: str) -> str:
    """An item of the list; `one` is what a row of the relation has for certain."""
    function = item.item.function
    if item.column is None:
        return f"COUNT({one})"
    name = _name(item.column)
    if function is None:
        return name
    if function is not Function.SUM:
        return f"{function.value.upper()}({name})"
    whole = f"SUM({name})"  # CASE, as LEAST and GREATEST treat nulls otherwise in each system
    return (f"CASE WHEN {whole} > {_MOST} THEN {_MOST} WHEN {whole} < -{_MOST} THEN -{_MOST} "
            f"ELSE {whole} END")


def main(words: list[str] | None = None) -> int:
    """Prints the SELECT of a query. Returns 0, or 2 if the text has none."""
    parser = argparse.ArgumentParser(
        prog="python3 -m cqld.growth.to_sql", description="Writes a query as one SELECT.")
    parser.add_argument("text", help="the query")
    parser.add_argument("--stream", action="append", default=[], metavar="NAME:COLUMN,..",
                        help="a stream and its columns")
    parser.add_argument("--sqlite", action="store_true", help="write what SQLite reads")
    chosen = parser.parse_args(words)
    streams: Mapping[str, list[str]] = {
        name: columns.split(",") for name, _, columns in
        (each.partition(":") for each in chosen.stream)}
    try:
        print(to_sql(chosen.text, streams,
                     Dialect.SQLITE if chosen.sqlite else Dialect.STANDARD))
    except Unmapped as fault:
        print(fault, file=sys.stderr)
        return 2
    return 0


if __name__ == "__main__":
    sys.exit(main())
