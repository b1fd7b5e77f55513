"""Entries of a bridge's log, from their fields.

    op          a request as JSON: stream (with `producers`, a list of names), query or drop
    stream, rows        rows as JSON
    stream, at, p       p promises that it sends the stream no row at or below `at`
    p, n        who sent the entry, and its number there; one not above the last is a repeat
"""

import json
from collections.abc import Mapping, Sequence
from dataclasses import dataclass
from typing import TypeAlias

from .errors import BadLine
from .script import Drop, Query, Row, Stream, read_request, read_rows


class BadEntry(BadLine):
    """An entry is no request, as its fields show. It goes to the refused ones."""


@dataclass(frozen=True, slots=True)
class Sender:
    """Who sent an entry, and its number there."""

    name: str
    number: int


@dataclass(frozen=True, slots=True)
class Declaration:
    """A stream with its producers, a query, or the drop of one."""

    request: Stream | Query | Drop
    producers: tuple[str, ...] = ()


@dataclass(frozen=True, slots=True)
class Rows:
    """Rows of a stream; `size` is the length of their text in bytes."""

    stream: str
    rows: Sequence[Row]
    size: int


@dataclass(frozen=True, slots=True)
class Promise:
    """A producer's promise that no row at or below `at` will come from it."""

    stream: str
    producer: str
    at: int


Told: TypeAlias = Declaration | Rows | Promise


def sender_of(fields: Mapping[bytes, bytes]) -> Sender | None:
    """Returns who sent an entry and says its number. Raises BadEntry if that is no number."""
    if b"p" not in fields or b"n" not in fields:
        return None
    return Sender(_text(fields, b"p"), _whole(fields, b"n"))


def told_by(fields: Mapping[bytes, bytes]) -> Told:
    """Returns what an entry says. Raises BadEntry."""
    if b"rows" in fields:
        try:
            rows = read_rows(fields[b"rows"])
        except BadLine as fault:
            raise BadEntry(f"N2 BadRequest: {fault}") from fault
        return Rows(_text(fields, b"stream"), rows, len(fields[b"rows"]))
    if b"op" in fields:
        return _declaration(fields[b"op"])
    if b"at" in fields:
        at = _whole(fields, b"at")
        return Promise(_text(fields, b"stream"), _text(fields, b"p"), at)
    raise BadEntry("neither op nor rows nor at")


def _declaration(line: bytes) -> Declaration:
    try:
        request = read_request(line)
    except BadLine as fault:
        raise BadEntry(f"N2 BadRequest: {fault}") from fault
    if not isinstance(request, (Stream, Query, Drop)):
        raise BadEntry("an op that a log does not take")
    if not isinstance(request, Stream):
        return Declaration(request)
    producers = json.loads(line).get("producers", [])
    if not isinstance(producers, list) or not all(isinstance(it, str) for it in producers):
        raise BadEntry("producers are no list of names")
    return Declaration(request, tuple(producers))


def _text(fields: Mapping[bytes, bytes], name: bytes) -> str:
    try:
        return fields[name].decode()
    except KeyError:
        raise BadEntry(f"no field {name.decode()}") from None
    except UnicodeDecodeError as fault:
        raise BadEntry(f"{name.decode()}: {fault}") from fault


def _whole(fields: Mapping[bytes, bytes], name: bytes) -> int:
    try:
        return int(_text(fields, name))
    except ValueError as fault:
        raise BadEntry(f"{name.decode()}: {fault}") from fault
