"""Requests as data, and as the lines of a script.

    request = read_request(b'{"op":"heartbeat","stream":"S","at":3}')   # Heartbeat("S", 3)
    line = write_request(request)                                        # the line again

A request here is one that an engine accepted or is going to be asked. The engine stays the judge
of it: nothing is checked but the kinds of the values.
"""

import json
from collections.abc import Mapping, Sequence
from dataclasses import dataclass
from typing import TypeAlias

from ..faults import BadReply
from ..wire import LAST, LEAP, LINE, ROWS, TAKE, Value, heartbeats as beats, reply_of
from .errors import BadLine

__all__ = [
    "LAST", "LEAP", "LINE", "ROWS", "TAKE", "Append", "Drain", "Drop", "Heartbeat", "Other",
    "Query", "Reply", "Request", "Row", "Stream", "Take", "Value", "appends", "heartbeats",
    "object_of", "read_reply", "read_request", "read_rows", "reply_from", "request_of",
    "write_reply", "write_request",
]

Row: TypeAlias = Sequence[Value]


@dataclass(frozen=True, slots=True)
class Stream:
    """Declares a stream whose first open instant is `start`."""

    name: str
    columns: tuple[str, ...]
    start: int


@dataclass(frozen=True, slots=True)
class Query:
    """Registers a query; `chart` has a cost and a size for each operator."""

    name: str
    text: str
    chart: tuple[tuple[int, int], ...] | None = None


@dataclass(frozen=True, slots=True)
class Append:
    """Appends rows, each an instant and its values."""

    stream: str
    rows: Sequence[Row]


@dataclass(frozen=True, slots=True)
class Heartbeat:
    """Promises that no row at or below `at` will come."""

    stream: str
    at: int


@dataclass(frozen=True, slots=True)
class Drain:
    """Brings every query up to what is closed."""


@dataclass(frozen=True, slots=True)
class Take:
    """Takes the next answers of a query, at most `limit`."""

    query: str
    limit: int


@dataclass(frozen=True, slots=True)
class Drop:
    """Drops a query."""

    query: str


@dataclass(frozen=True, slots=True)
class Other:
    """Any other request, which changes nothing that an answer depends on: forget, plan, status."""

    op: str


Request: TypeAlias = Stream | Query | Append | Heartbeat | Drain | Take | Drop | Other


@dataclass(frozen=True, slots=True)
class Reply:
    """What an engine answered: perhaps a fault's text, perhaps rows, else that all is well."""

    fault: str | None = None
    rows: Sequence[Row] | None = None


def read_request(line: bytes | str) -> Request:
    """Returns the request of a line.

    Raises BadLine if the line is no JSON object, or a key is missing or of another kind.
    """
    found = _json(line)
    if not isinstance(found, dict):
        raise BadLine("no JSON object")
    try:
        return request_of(found)
    except (KeyError, TypeError, ValueError) as fault:
        raise BadLine(f"no request: {type(fault).__name__} {fault}") from fault


def read_rows(text: bytes) -> Sequence[Row]:
    """Returns the rows of a JSON text. Raises BadLine if it is no list of rows."""
    try:
        return _rows(_json(text))
    except TypeError as fault:
        raise BadLine(str(fault)) from fault


def request_of(found: Mapping[str, object]) -> Request:
    """Returns the request of a JSON object. Raises KeyError, TypeError or ValueError."""
    op = _text(found["op"])
    if op == "append":
        return Append(_text(found["stream"]), _rows(found["rows"]))
    if op == "heartbeat":
        return Heartbeat(_text(found["stream"]), _whole(found["at"]))
    if op == "take":
        return Take(_text(found["query"]), _whole(found["limit"]))
    if op == "drain":
        return Drain()
    if op == "stream":
        columns = tuple(_text(name) for name in _list(found["columns"]))
        return Stream(_text(found["name"]), columns, _whole(found["from"]))
    if op == "query":
        chart = None
        if "chart" in found:
            chart = tuple(_pair(pair) for pair in _list(found["chart"]))
        return Query(_text(found["name"]), _text(found["text"]), chart)
    if op == "drop":
        return Drop(_text(found["query"]))
    return Other(op)


def write_request(request: Request) -> str:
    """Returns the line of a request, without its line feed."""
    return json.dumps(object_of(request), separators=(",", ":"))


def object_of(request: Request) -> dict[str, object]:
    """Returns the JSON object of a request."""
    match request:
        case Append(stream, rows):
            return {"op": "append", "stream": stream, "rows": rows}
        case Heartbeat(stream, at):
            return {"op": "heartbeat", "stream": stream, "at": at}
        case Take(query, limit):
            return {"op": "take", "query": query, "limit": limit}
        case Drain():
            return {"op": "drain"}
        case Stream(name, columns, start):
            return {"op": "stream", "name": name, "columns": columns, "from": start}
        case Query(name, text, None):
            return {"op": "query", "name": name, "text": text}
        case Query(name, text, chart):
            return {"op": "query", "name": name, "text": text, "chart": chart}
        case Drop(query):
            return {"op": "drop", "query": query}
        case Other(op):
            return {"op": op}


def read_reply(line: bytes) -> Reply:
    """Returns what a reply line says. Raises BadLine if it is no reply."""
    try:
        return reply_from(reply_of(line))
    except (BadReply, TypeError) as fault:
        raise BadLine(f"no reply: {line[:80]!r}") from fault


def reply_from(found: Mapping[str, object]) -> Reply:
    """Returns what the JSON object of a reply says. Raises TypeError if it is none."""
    fault, rows = found.get("error"), found.get("rows")
    return Reply(None if fault is None else _text(fault), None if rows is None else _rows(rows))


def write_reply(reply: Reply) -> str:
    """Returns the line of a reply, without its line feed."""
    if reply.fault is not None:
        return json.dumps({"error": reply.fault}, separators=(",", ":"))
    found: dict[str, object] = {"ok": True}
    if reply.rows is not None:
        found["rows"] = reply.rows
    return json.dumps(found, separators=(",", ":"))


def appends(stream: str, rows: Sequence[Row]) -> list[Append]:
    """Returns appends of the rows in their order, each within the limits of a line."""
    if len(rows) > ROWS:
        return [part for at in range(0, len(rows), ROWS)
                for part in appends(stream, rows[at:at + ROWS])]
    if len(rows) > 1 and len(write_request(Append(stream, rows))) > LINE:
        half = len(rows) // 2
        return appends(stream, rows[:half]) + appends(stream, rows[half:])
    return [Append(stream, rows)] if rows else []


def heartbeats(stream: str, closed: int, at: int) -> list[Heartbeat]:
    """Returns heartbeats that close a stream from `closed` up to `at`, in steps that may be."""
    return [Heartbeat(stream, step) for step in beats(closed, at)]


def _json(line: bytes | str) -> object:
    try:
        found: object = json.loads(line)
    except (ValueError, RecursionError) as fault:
        raise BadLine(f"no JSON: {fault}") from fault
    return found


def _text(value: object) -> str:
    if not isinstance(value, str):
        raise TypeError(f"no text: {value!r:.40}")
    return value


def _whole(value: object) -> int:
    if not isinstance(value, int) or isinstance(value, bool):
        raise TypeError(f"no whole number: {value!r:.40}")
    return value


def _list(value: object) -> list[object]:
    if not isinstance(value, list):
        raise TypeError(f"no list: {value!r:.40}")
    return value


def _pair(value: object) -> tuple[int, int]:
    first, second = _list(value)
    return _whole(first), _whole(second)


def _rows(value: object) -> Sequence[Row]:
    """Returns rows as they are, after a look at the kind of each value."""
    rows: list[list[Value]] = []
    for row in _list(value):
        if not isinstance(row, list) or not row or type(row[0]) is not int:
            raise TypeError(f"no row: {row!r:.40}")
        for each in row:
            if each is not None and type(each) is not int:
                raise TypeError(f"no whole number or null: {each!r:.40}")
        rows.append(row)
    return rows
