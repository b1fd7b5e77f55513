"""Compares the replies of a run in which a growth was refused with those of a plain engine."""

import functools
import json
import subprocess
from typing import Any

Json = dict[str, Any]
Row = list[int | None]

DONE = {"ok": True}
BROKEN = {"error": "E15 Broken"}
TAKE = 4_096


def lines(requests: list[Json]) -> str:
    """Returns the requests as a script."""
    return "".join(json.dumps(request) + "\n" for request in requests)


@functools.cache
def plain_text(program: str, script: str) -> str:
    """Returns what a plain engine answers to a script."""
    return subprocess.run([program, "--plain"], input=script, capture_output=True, text=True,
                          timeout=60).stdout


def plain(program: str, requests: list[Json]) -> list[Json]:
    """Returns what a plain engine answers to requests."""
    return [json.loads(line) for line in plain_text(program, lines(requests)).splitlines()]


def all_answers(program: str, requests: list[Json]) -> list[list[Row]]:
    """Returns all that each query has to hand out until it is dropped, or until the end, by the
    order of registration."""
    def take_all(query: str) -> list[Json]:
        return [{"op": "drain"}, {"op": "take", "query": query, "limit": TAKE}]

    script: list[Json] = []
    for request in requests:
        if request["op"] == "drop":
            script += take_all(request["query"])
        if request["op"] not in ("drain", "take"):
            script.append(request)
    for name in {request["name"] for request in requests if request["op"] == "query"}:
        script += take_all(name)
    rows: list[list[Row]] = []
    places: dict[str, int] = {}
    for request, reply in zip(script, plain(program, script), strict=True):
        if request["op"] == "query" and reply == DONE:
            places[request["name"]] = len(rows)
            rows.append([])
        elif request["op"] == "take" and "rows" in reply:
            rows[places[request["query"]]].extend(reply["rows"])
    assert all(len(some) < TAKE for some in rows), "a take may have left answers"
    return rows


class Comparison:
    """Follows a run beside a plain engine that answered the same requests.

    Less may have been drained than there, or more. What a query handed out has to be a prefix of
    its answers, and what a peek shows has to come next. A status has to agree with both. All other
    replies have to be the same. `broken` has the queries that are broken.
    """

    def __init__(self, every: list[list[Row]]) -> None:
        """Starts a run. `every` has all answers of each query, by the order of registration."""
        self.every = every
        self.given: list[list[Row]] = []
        self.places: dict[str, int] = {}
        self.broken: set[int] = set()

    def follow(self, request: Json, reply: Json, want: Json) -> None:
        """Compares one reply."""
        if "queries" in want:
            self.follow_status(reply, want)
        elif "rows" in want:
            self.follow_rows(request, reply)
        else:
            assert reply == want, f"{request} is answered {reply}"
            if request["op"] == "query" and want == DONE:
                self.places[request["name"]] = len(self.given)
                self.given.append([])

    def follow_rows(self, request: Json, reply: Json) -> None:
        """Compares what is answered to a take or a peek."""
        number = self.places[request["query"]]
        if reply == BROKEN:
            self.broken.add(number)
            return
        assert "rows" in reply, f"{request} is answered {reply}"
        shown = self.given[number] + reply["rows"]
        assert len(reply["rows"]) <= request["limit"], f"{request} gives {reply}"
        assert shown == self.every[number][:len(shown)], f"{request} gives {shown}"
        if request["op"] == "take":
            self.given[number] = shown

    def follow_status(self, reply: Json, want: Json) -> None:
        """Compares what is answered to a status."""
        assert reply.get("streams") == want["streams"], f"a status is answered {reply}"
        closed = max((it["closed"] for it in want["streams"]), default=-1)
        for query, right in zip(reply["queries"], want["queries"], strict=True):
            number = self.places[query["name"]]
            if query.pop("broken", False):
                self.broken.add(number)
            come = query["taken"] + query["waiting"]
            every = self.every[number]
            complete = sum((row[0] or 0) <= query["upto"] for row in every)
            assert (query.keys() == right.keys()
                    and (query["name"], query["base"]) == (right["name"], right["base"])
                    and query["base"] <= query["upto"] <= closed
                    and query["taken"] == len(self.given[number])
                    and complete <= come <= len(every)), f"a status shows {query}, after {right}"
