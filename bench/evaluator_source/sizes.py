"""Writes examples/sizes.jsonl, as large as the limits allow, and the replies, by the rules only.

usage: python3 bench/evaluator_source/sizes.py, at the top of the repository. `bench/evaluator`
tries random scripts.
"""

import json
from collections import Counter
from types import SimpleNamespace

from evaluate import answers, relation

DONE = {"ok": True}
LARGEST_APPEND, LARGEST_TAKE, QUERIES = 1024, 4096, 256
ROWS_OF_FOUR_SOURCES = 32768


def window(span=None, last=None):
    return SimpleNamespace(span=span, step=None, last=last, partition=())


def query(text, operator, streams, windows, items, conditions=(), group_by=(), is_grouped=False):
    shape = SimpleNamespace(
        windows=windows, items=items, conditions=conditions, group_by=group_by,
        is_grouped=is_grouped, is_distinct=False,
    )
    return SimpleNamespace(text=text, operator=operator, streams=streams, shape=shape)


NOW = query("Select Istream(*) From S [Now]", "Istream", "S", [window(span=0)], [(None, 0)])
LAST = query(
    "Rstream(Select Count(*), Sum(a) From S [Rows 2])", "Rstream", "S", [window(last=2)],
    [("Count", None), ("Sum", 0)],
    is_grouped=True,
)
LEFT = query(
    "Select Dstream(a) From S [Range 1] Where a > 1", "Dstream", "S", [window(span=1)], [(None, 0)],
    [("compare", ">", (True, 0), (False, 1))],
)
ROWS = query(
    "Select Istream(*) From L [Now]", "Istream", "L", [window(span=0)], [(None, 0), (None, 1)],
)
SUMS = query(
    "Rstream(Select k, Count(*), Sum(v) From L [Rows 1024] Group By k)", "Rstream", "L",
    [window(last=1024)],
    [(None, 0), ("Count", None), ("Sum", 1)], group_by=(0,), is_grouped=True,
)
PAIRS = query(
    "Select Istream(L.v) From L [Now], R [Now] Where L.k = R.k", "Istream", "LR",
    [window(span=0), window(span=0)],
    [(None, 1)], [("compare", "=", (True, 0), (True, 2))],
)


def answers_of(it, streams, upto):
    """All answers of a query that was registered before the first row came."""
    inputs = [[(at, number, tuple(row)) for number, (at, *row) in enumerate(streams[name])]
              for name in it.streams]
    before, rows = Counter(), []
    for instant in range(upto + 1):
        now = relation(it.shape, inputs, instant)
        rows += [[instant, *row] for row in answers(it.operator, before, now)]
        before = now
    return rows


def script():
    """The requests with their replies."""
    columns = {"S": ["a"], "L": ["k", "v"], "R": ["k"]}
    streams = {
        "S": [[0, 1], [0, 2], [1, 3], [3, 4]],
        # half of the rows of each instant have the key 0; every append has rows of both instants
        "L": [[number // 2 % 2, number % 2, number * 7 % LARGEST_TAKE]
              for number in range(LARGEST_TAKE)],
        # the first three rows meet 1,024 rows each, all in one turn
        "R": [[0, 0], [0, 1], [0, 0], [1, 1]],
    }
    small = [NOW, LAST, LEFT]
    queries = [small[number % len(small)] for number in range(QUERIES - 3)] + [ROWS, SUMS, PAIRS]
    for name, names in columns.items():
        yield {"op": "stream", "name": name, "columns": names, "from": 0}, DONE
    for number, it in enumerate(queries):
        yield {"op": "query", "name": f"q{number}", "text": it.text}, DONE
    yield {"op": "query", "name": "more", "text": NOW.text}, {"error": "E4 TooMany"}
    rows = streams["L"][: LARGEST_APPEND + 1]
    yield {"op": "append", "stream": "L", "rows": rows}, {"error": "E4 TooMany"}
    for name, rows in streams.items():
        for first in range(0, len(rows), LARGEST_APPEND):
            some = rows[first : first + LARGEST_APPEND]
            yield {"op": "append", "stream": name, "rows": some}, DONE
    upto = 3
    for name in columns:
        yield {"op": "heartbeat", "stream": name, "at": upto}, DONE
    yield {"op": "drain"}, DONE
    known = {id(it): answers_of(it, streams, upto) for it in queries}
    for number, it in enumerate(queries):
        rows = known[id(it)]
        take = {"op": "take", "query": f"q{number}", "limit": LARGEST_TAKE}
        yield take, {"ok": True, "rows": rows[:LARGEST_TAKE]}
        if it in (ROWS, PAIRS):
            assert len(rows) == LARGEST_TAKE
            yield take, {"ok": True, "rows": []}
    yield from rows_of_four_sources()


def rows_of_four_sources():
    """As many rows as queries of three and four sources let their streams take; none is closed."""
    append = lambda stream, count: {"op": "append", "stream": stream, "rows": [[5, 0]] * count}
    register = lambda name, sources, keys: {
        "op": "query", "name": name,
        "text": f"Select Istream(*) From {sources} Where w.a = x.a{keys}",
    }
    full = {"error": "E13 StreamFull"}
    for number in range(4):
        yield {"op": "drop", "query": f"q{number}"}, DONE
    for name in "FG":
        yield {"op": "stream", "name": name, "columns": ["a"], "from": 0}, DONE
    yield register("two", "F w, F x", ""), DONE
    yield register("three", "F w, F x, F y", " And x.a = y.a"), DONE
    # F is neither the first nor the last source
    yield register("earlier", "S w, F x, F y, G z", " And x.a = y.a And y.a = z.a"), DONE
    yield append("F", LARGEST_APPEND), DONE
    yield register("later", "F w, F x, F y, F z", " And x.a = y.a And y.a = z.a"), DONE
    for _ in range(ROWS_OF_FOUR_SOURCES // LARGEST_APPEND - 2):
        yield append("F", LARGEST_APPEND), DONE
    yield append("F", LARGEST_APPEND - 1), DONE
    yield append("F", 2), full
    # what is forgotten counts on
    yield {"op": "forget"}, DONE
    yield append("F", 1), DONE
    yield append("F", 1), full
    yield append("F", 0), DONE
    for name in "SG":
        yield append(name, 1), DONE
    # the other query of four sources counts from its own registration on
    yield {"op": "drop", "query": "earlier"}, DONE
    yield append("F", LARGEST_APPEND), DONE
    yield append("F", 1), full
    yield register("latest", "F w, F x, F y, F z", " And x.a = y.a And y.a = z.a"), DONE
    yield append("F", 1), full
    yield {"op": "drop", "query": "later"}, DONE
    yield append("F", LARGEST_APPEND), DONE


def main():
    lines = [*script()]
    for name, part in ("examples/sizes.jsonl", 0), ("examples/sizes.jsonl.stdout", 1):
        with open(name, "w") as file:
            file.writelines(json.dumps(it[part], separators=(",", ":")) + "\n" for it in lines)


if __name__ == "__main__":
    main()
