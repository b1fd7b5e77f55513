"""Merges the answers of bridges over parts, instant by instant, each once.

    python3 -m cqld.growth.merge QUERY PREFIX PART.. [--net QUERY] [--redis URL]

Each PART is the prefix of a bridge whose streams hold one part. The answers of an instant go to
PREFIX:out:QUERY once every part has all of them, under the id INSTANT-PART, as a bridge would
write them. With `--net` those of a second query are taken off: its Dstream, where the first is an
Istream, or the reverse. Whatever dies, start it again.
"""

import argparse
import json
import sys
import time
from collections import Counter
from collections.abc import Iterator, Sequence
from itertools import groupby

from ..faults import CqldError
from .bridge import PART
from .parted import order
from .script import Value
from .store import Store, id_of

_SPAN = 10_000  # instants that are merged at a time
_MOST = 2**64 - 1  # the last part of an instant

_Answer = tuple[int, tuple[Value, ...]]


class Merger:
    """Merges one query. Its calls raise RedisGone and RedisFault."""

    def __init__(self, store: Store, query: str, prefix: str, parts: Sequence[str],
                 net: str | None = None) -> None:
        """Takes the prefixes of the parts, and the name of the query to take off."""
        self._store = store
        self._query, self._net = query, net
        self._out, self._upto = f"{prefix}:out:{query}", f"{prefix}:upto:{query}"
        self._parts = tuple(parts)

    def turn(self) -> int | None:
        """Writes what every part has, and returns the instant up to which that is.

        Returns None if some part has not begun.
        """
        after = self._store.number(self._upto)
        names = [self._query] if self._net is None else [self._query, self._net]
        uptos = [self._store.number(f"{part}:upto:{name}")
                 for part in self._parts for name in names]
        known = [upto for upto in uptos if upto is not None]
        if len(known) < len(uptos):
            return None
        start = -1 if after is None else after
        first = self._first(names, start)
        upto = min(known) if first is None else min(*known, first + _SPAN)
        if after is None or upto > after:
            entries = list(self._entries(start, upto)) if upto > start else []
            self._store.put(self._out, entries, upto=(self._upto, upto))
        return upto

    def _first(self, names: Sequence[str], after: int) -> int | None:
        """The first instant after one at which some part has an answer."""
        places = [self._store.first(f"{part}:out:{name}", (after + 1, 0))
                  for part in self._parts for name in names]
        return min((place[0] for place in places if place is not None), default=None)

    def _entries(self, after: int, upto: int) -> Iterator[tuple[str, str]]:
        bag: Counter[_Answer] = Counter()
        for part in self._parts:
            bag.update(self._answers(part, self._query, after, upto))
            if self._net is not None:
                bag.subtract(self._answers(part, self._net, after, upto))
        answers = sorted((+bag).elements(), key=lambda it: (it[0], order(it[1])))
        for instant, found in groupby(answers, key=lambda it: it[0]):
            rows = [row for _, row in found]
            for at in range(0, len(rows), PART):
                text = json.dumps(rows[at:at + PART], separators=(",", ":"))
                yield id_of((instant, 1 + at // PART)), text

    def _answers(self, part: str, query: str, after: int, upto: int) -> Iterator[_Answer]:
        for entry in self._store.between(f"{part}:out:{query}", (after + 1, 0), (upto, _MOST)):
            for row in json.loads(entry.fields[b"rows"]):
                yield entry.place[0], tuple(row)


def main(words: list[str] | None = None) -> int:
    """Merges until Redis has gone. Returns 1 then."""
    parser = argparse.ArgumentParser(
        prog="python3 -m cqld.growth.merge",
        description="Merges the answers of bridges over parts.")
    parser.add_argument("query")
    parser.add_argument("prefix", help="what the keys of the merged answers begin with")
    parser.add_argument("parts", nargs="+", help="the prefixes of the bridges")
    parser.add_argument("--net", metavar="QUERY", help="the query whose answers are taken off")
    parser.add_argument("--redis", default="redis://127.0.0.1:6379/0", metavar="URL")
    chosen = parser.parse_args(words)
    try:
        with Store(chosen.redis) as store:
            merger = Merger(store, chosen.query, chosen.prefix, chosen.parts, chosen.net)
            upto = None
            while True:
                last, upto = upto, merger.turn()
                if upto == last:
                    time.sleep(0.02)
    except CqldError as fault:
        print(f"merge: {fault}", file=sys.stderr)
    except KeyboardInterrupt:
        pass
    return 1


if __name__ == "__main__":
    sys.exit(main())
