"""Which queries can be answered over parts of their streams, and how.

    query = resolve(read("Select Rstream(k, Count(*)) From S [Now] Group By k"), streams)
    way(query, {"S": "k"}, streams)                     # Way.MERGE

    python3 -m cqld.growth.parting --stream S:k,v --key S:k "Select Istream(v) From S [Range 9]"

A stream is parted by one of its columns, its key: rows of one key are in one part, those without
a key (null) too. A stream without a key is in each part as a whole.
"""

import argparse
import sys
from collections.abc import Mapping
from dataclasses import dataclass, replace
from enum import Enum
from zlib import crc32

from ..language import (Column, Comparison, Fault, Function, Item, Operator, Partition, Query,
                        Reference, ResolvedQuery, Rows, Sign, Source, Streams, Window, conjuncts,
                        read, resolve, write)
from .errors import GrowthError
from .script import Value

COLUMNS = 8  # of a stream, at most


class Way(Enum):
    """How a query is answered over parts."""

    ONE = "one"  # no stream of it is parted: any part has all answers
    MERGE = "merge"  # the answers of the parts, sorted by instant and values
    NET = "net"  # as an answer may leave one part and enter another: Istream less Dstream
    STAGES = "stages"  # parts keep partial groups, and a second engine adds them up


class Unparted(GrowthError):
    """Says that a query needs rows of several parts together. `reason` says which."""

    def __init__(self, reason: str) -> None:
        super().__init__(reason)
        self.reason = reason


def way(query: ResolvedQuery, keys: Mapping[str, str], streams: Streams) -> Way:
    """Returns how a query is answered where streams are parted by their keys.

    `keys` has the name of the key of each parted stream. Raises Unparted if the query cannot be
    answered over parts.
    """
    sources = query.query.sources
    parted = [Column(number, list(streams[source.stream]).index(keys[source.stream]))
              for number, source in enumerate(sources) if source.stream in keys]
    if not parted:
        return Way.ONE
    same = _equal_to(parted[0], query)
    for key in parted:
        _test(query, key, key in same, sources[parted[0].source])
    has_listed = any(item.item.function is None and item.column in same for item in query.items)
    is_local = any(column in same for column in query.group)
    if query.query.is_grouped and not is_local or query.query.distinct and not has_listed:
        return Way.STAGES
    return Way.MERGE if has_listed or query.query.operator is Operator.RSTREAM else Way.NET


def part_of(key: Value, parts: int) -> int:
    """Returns the number of the part that rows of a key are in.

    Any program can compute it: the CRC-32 of the key in decimal digits, or of `None`, modulo the
    number of parts.
    """
    return crc32(str(key).encode()) % parts


def both_ways(query: Query) -> tuple[str, str]:
    """Returns the texts of a query and of its counterpart: Dstream for Istream, and the reverse.

    Of all parts together, the answers to the first less those to the second are the query's.
    """
    other = Operator.DSTREAM if query.operator is Operator.ISTREAM else Operator.ISTREAM
    return write(query), write(replace(query, operator=other))


@dataclass(frozen=True, slots=True)
class Stages:
    """The texts of a query in two stages.

    `entering` and `leaving` are asked of each part: groups as they change. Their answers go to a
    stream of `columns`: the part, `groups` columns, the count of rows, partial aggregates. The
    query `second` over it gives the answers.
    """

    entering: str
    leaving: str
    columns: tuple[str, ...]
    groups: int
    second: str


def stages(query: ResolvedQuery, streams: Streams, name: str) -> Stages:
    """Returns the two stages of a query, the second over a stream of a name.

    Raises Unparted if the stream would have more columns than a stream may.
    """
    grouped = query.query.is_grouped
    listed = query.group if grouped else [it.column for it in query.items]
    groups = list(dict.fromkeys(column for column in listed if column is not None))
    partial = list(dict.fromkeys((it.item.function, it.column) for it in query.items
                                 if it.item.function is not None and it.column is not None))
    by = [f"g{number}" for number in range(len(groups))]
    columns = ("part", *by, "n", *(f"a{number}" for number in range(len(partial))))
    if len(columns) > COLUMNS:
        raise Unparted(f"the second stage would need a stream of {len(columns)} columns, and "
                       f"{COLUMNS} are the most")
    names = [_reference(query, column, streams) for column in groups]
    items = [Item(None, reference) for reference in names] + [Item(Function.COUNT, None)]
    items += [Item(function, _reference(query, column, streams)) for function, column in partial]
    first = replace(query.query, operator=Operator.ISTREAM, distinct=False, items=tuple(items),
                    group=tuple(names))
    sums = []
    for it in query.items:
        function = it.item.function
        if function is None and it.column is not None:
            sums.append(by[groups.index(it.column)])
        elif it.column is None:
            sums.append("Sum(n)")
        else:
            assert function is not None  # the first case has the others
            adds = Function.SUM if function is Function.COUNT else function
            sums.append(f"{adds.value}(a{partial.index((function, it.column))})")
    text = f"Select {query.query.operator.value}({'Distinct ' * query.query.distinct}"
    text += f"{', '.join(sums)}) From {name} [Partition By {', '.join(['part', *by])} Rows 1]"
    if groups:
        text += f" Where n > 0 Group By {', '.join(by)}"
    entering, leaving = both_ways(first)
    return Stages(entering, leaving, columns, len(groups), text)


def _equal_to(key: Column, query: ResolvedQuery) -> set[Column]:
    """The columns that the whole condition makes equal to one."""
    pairs = [(query.column(part.left), query.column(part.right))
             for part in conjuncts(query.query.condition)
             if isinstance(part, Comparison) and part.sign is Sign.EQUAL
             and isinstance(part.left, Reference) and isinstance(part.right, Reference)]
    found = {key}
    while more := {b for pair in pairs for a, b in (pair, pair[::-1])
                   if a in found and b not in found}:
        found |= more
    return found


def _test(query: ResolvedQuery, key: Column, is_equal: bool, first: Source) -> None:
    """Raises Unparted if a parted source needs rows of other parts."""
    source = query.query.sources[key.source]
    if not is_equal:
        raise Unparted(f"no chain of equalities leads from the key of {first.name} to that of "
                       f"{source.name}")
    window: Window = source.window
    if isinstance(window, Rows):
        raise Unparted(f"[Rows {window.count}] counts over all keys of {source.name}")
    if isinstance(window, Partition) and key not in query.partitions[key.source]:
        raise Unparted(f"Partition By of {source.name} has not its key")


def _reference(query: ResolvedQuery, column: Column, streams: Streams) -> Reference:
    source = query.query.sources[column.source]
    return Reference(source.name, streams[source.stream][column.place])


def main(words: list[str] | None = None) -> int:
    """Prints how a query is answered over parts. Returns 1 if it cannot be, 2 if it is unfit."""
    parser = argparse.ArgumentParser(
        prog="python3 -m cqld.growth.parting",
        description="Says how a query can be answered over parts of its streams.")
    parser.add_argument("text", help="the query")
    parser.add_argument("--stream", action="append", default=[], metavar="NAME:COLUMN,..",
                        help="a stream and its columns")
    parser.add_argument("--key", action="append", default=[], metavar="NAME:COLUMN",
                        help="a parted stream and its key")
    chosen = parser.parse_args(words)
    streams = {name: tuple(columns.split(",")) for name, _, columns in
               (each.partition(":") for each in chosen.stream)}
    keys = {name: key for name, _, key in (each.partition(":") for each in chosen.key)}
    for name, key in keys.items():
        if key not in streams.get(name, ()):
            print(f"no column {key} of a stream {name}", file=sys.stderr)
            return 2
    try:
        print(way(resolve(read(chosen.text), streams, chosen.text), keys, streams).value)
    except Fault as fault:
        print(fault, file=sys.stderr)
        return 2
    except Unparted as fault:
        print(f"cannot be parted: {fault}")
        return 1
    return 0


if __name__ == "__main__":
    sys.exit(main())
