"""Makes a script whose drains have work for several threads."""

from typing import Any

ROWS = 1_024  # of an append, the most that one may have
DENSE = 128  # rows of an instant
QUERIES = (
    "Select Rstream(k, v) From S [Now] Where v > 500",
    "Select Istream(k, Count(*), Sum(v)) From S [Range 2] Group By k",
    "Select Istream(k, Min(v), Max(v)) From S [Rows 64] Group By k",
    "Select Istream(Distinct k) From S [Range 4]",
)


def large(drains: int) -> list[dict[str, Any]]:
    """Returns requests of one stream and four queries, with so many drains.

    Before each drain one append comes. Its rows wait for the window of each query, so 4,096 rows
    are to be passed. A drain takes another thread for each 1,024.
    """
    requests: list[dict[str, Any]] = [
        {"op": "stream", "name": "S", "columns": ["k", "v"], "from": 0},
        *({"op": "query", "name": f"q{it}", "text": text} for it, text in enumerate(QUERIES)),
    ]
    for drain in range(drains):
        numbers = range(drain * ROWS, (drain + 1) * ROWS)
        rows = [[it // DENSE, it % 16, it * 7_919 % 1_000] for it in numbers]
        requests += [
            {"op": "append", "stream": "S", "rows": rows},
            {"op": "heartbeat", "stream": "S", "at": numbers[-1] // DENSE},
            {"op": "drain"},
            *({"op": "take", "query": f"q{it}", "limit": 4_096} for it in range(len(QUERIES))),
        ]
    return requests
