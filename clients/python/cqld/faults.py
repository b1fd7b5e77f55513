"""Errors of the package. They have one base, `CqldError`, and a class for each cause."""

from __future__ import annotations

import re
from collections.abc import Mapping, Sequence
from typing import Any

Request = Mapping[str, Any]

_FAULT = re.compile(r"([A-Z]\d+) (\w+)(?: at (\d+))?")


class CqldError(Exception):
    """Is the base of every error of the package.

    An error that leaves `append` also says how far the call came:

    - `taken`: how many of its rows the engine took before the error.
    - `rest`: rows that it had read from its iterable, but not sent. They are as the caller gave
      them, and follow the row or the request that failed.

    Where answers of a `Query` were taken and could not be decoded, `rest` has their rows.
    """

    taken: int = 0
    rest: Sequence[Any] = ()


class Refused(CqldError):
    """Says that the engine refused a request. The engine is as it was.

    - `fault`: the text of the fault, as `Q4 Unexpected at 40`.
    - `code`, `name`: its parts, as `Q4` and `Unexpected`.
    - `place`: how many bytes of the query's text stand before the fault, or None.
    - `request`: what was asked.
    """

    def __init__(self, fault: str, request: Request) -> None:
        super().__init__(fault, request)
        self.fault = fault
        self.request = request
        parts = _FAULT.fullmatch(fault)
        self.code: str = parts[1] if parts else fault.partition(" ")[0]
        self.name: str = parts[2] if parts else fault.partition(" ")[2]
        self.place: int | None = int(parts[3]) if parts and parts[3] else None

    def __str__(self) -> str:
        return f"{self.fault}: {self.request.get('op')}"


class BadRow(Refused):
    """Says that a row cannot be appended. Every row before it was taken, or skipped.

    Its `fault` is that of the engine, also where the client found it before it sent the row.

    - `index`: the number of the row in the iterable, from 0.
    - `position`: the place of the bad value in the row, from 0 for the instant, or None.
    - `column`: the name of that column where the client knows it, or None.
    - `reason`: what is wrong, in words.
    - `row`: the row as the caller gave it.
    """

    def __init__(
        self,
        fault: str,
        request: Request,
        index: int,
        row: Any,
        reason: str,
        position: int | None = None,
        column: str | None = None,
    ) -> None:
        super().__init__(fault, request)
        self.args = (fault, request, index, row, reason, position, column)
        self.index = index
        self.row = row
        self.reason = reason
        self.position = position
        self.column = column

    def __str__(self) -> str:
        where = f"row {self.index}"
        if self.column is not None:
            where += f", column {self.column}"
        elif self.position is not None:
            where += f", position {self.position}"
        return f"{self.fault}: {where}: {self.reason}"


class LateRow(BadRow):
    """Says that the instant of a row is closed already. `instant` is that instant."""

    @property
    def instant(self) -> int:
        """Returns the closed instant of the row, as the engine counts it."""
        return int(self.request["rows"][0][0])


class BatchRefused(Refused):
    """Says that requests of a batch were refused. The others of the batch were carried out.

    `refusals` are all of them in their order. The other attributes are those of the first.
    """

    def __init__(self, refusals: Sequence[Refused]) -> None:
        super().__init__(refusals[0].fault, refusals[0].request)
        self.args = (refusals,)
        self.refusals = tuple(refusals)

    def __str__(self) -> str:
        count = len(self.refusals)
        return f"{count} requests of a batch were refused, the first: {self.refusals[0]}"


class BadValue(CqldError, ValueError):
    """Says that a column cannot hold a value.

    `value` is the value, and `reason` says why not. `fault` is what an engine would answer. Where
    the value is one of a row, `position` is its place there, from 0 for the instant, else None.
    """

    position: int | None = None

    def __init__(self, value: object, reason: str, fault: str = "N2 BadRequest") -> None:
        super().__init__(value, reason, fault)
        self.value = value
        self.reason = reason
        self.fault = fault

    def __str__(self) -> str:
        return f"{self.value!r:.80}: {self.reason}"


class BadRequest(CqldError, ValueError):
    """Says that a request cannot be written as a line. Nothing was sent."""

    def __init__(self, request: Request, reason: str) -> None:
        super().__init__(request, reason)
        self.request = request
        self.reason = reason

    def __str__(self) -> str:
        return f"{self.request.get('op')}: {self.reason}"


class CannotConnect(CqldError, ConnectionError):
    """Says that no server answered at a host and port. Nothing was sent."""

    def __init__(self, host: str, port: int, reason: str) -> None:
        super().__init__(host, port, reason)
        self.host = host
        self.port = port
        self.reason = reason

    def __str__(self) -> str:
        return f"no server at {self.host}:{self.port}: {self.reason}"


class ConnectionLost(CqldError, ConnectionError):
    """Says that a connection ended. Each request whose reply came was carried out as replied.

    - `unknown`: requests that were written, in whole or in part. They may have been carried out.
    - `unsent`: requests of which no byte was written. They were not carried out.
    - `reason`: what ended the connection, in words.
    """

    def __init__(
        self, reason: str, unknown: Sequence[Request] = (), unsent: Sequence[Request] = ()
    ) -> None:
        super().__init__(reason, unknown, unsent)
        self.reason = reason
        self.unknown = tuple(unknown)
        self.unsent = tuple(unsent)

    def __str__(self) -> str:
        return (
            f"{self.reason}; the outcome of {len(self.unknown)} requests is unknown,"
            f" {len(self.unsent)} were not sent"
        )


class BadReply(ConnectionLost):
    """Says that a reply is none of an engine. The connection is closed then."""


class TimedOut(CqldError, TimeoutError):
    """Says that a reply did not come in time. The connection can still be used.

    The reply may come later: `settle` of the client waits for it and returns it.

    - `seconds`: how long the call waited.
    - `unknown`: requests that have no reply yet.
    """

    def __init__(self, seconds: float, unknown: Sequence[Request] = ()) -> None:
        super().__init__(seconds, unknown)
        self.seconds = seconds
        self.unknown = tuple(unknown)

    def __str__(self) -> str:
        return f"no reply in {self.seconds:g} s; {len(self.unknown)} requests have none yet"


class Closed(CqldError):
    """Says that a client was used after it was closed. Nothing was sent."""

    def __str__(self) -> str:
        return "the client is closed"


class ProgramMissing(CqldError, FileNotFoundError):
    """Says that a program was not found, or cannot be started. `program` is its name or path."""

    def __init__(self, program: str, reason: str) -> None:
        super().__init__(program, reason)
        self.program = program
        self.reason = reason

    def __str__(self) -> str:
        return f"{self.program}: {self.reason}"


class ProgramFailed(CqldError):
    """Says that a program ended by itself. `status` is its status, `errors` what it wrote."""

    def __init__(self, program: str, status: int, errors: str) -> None:
        super().__init__(program, status, errors)
        self.program = program
        self.status = status
        self.errors = errors

    def __str__(self) -> str:
        return f"{self.program} ended with status {self.status}: {self.errors.strip()}"


class PortTaken(ProgramFailed):
    """Says that a server could not listen on its port. `port` is the port."""

    def __init__(self, program: str, status: int, errors: str, port: int) -> None:
        super().__init__(program, status, errors)
        self.args = (program, status, errors, port)
        self.port = port

    def __str__(self) -> str:
        return f"port {self.port} is taken: {self.errors.strip()}"


class ClockBack(CqldError, ValueError):
    """Says that a producer promised less than before. Its former promise holds.

    `producer` is its name, `at` what it promised and `promised` its former promise: instants.
    """

    def __init__(self, producer: str, at: int, promised: int) -> None:
        super().__init__(producer, at, promised)
        self.producer = producer
        self.at = at
        self.promised = promised

    def __str__(self) -> str:
        return f"{self.producer} promised {self.promised}, and now only {self.at}"


class UnknownProducer(CqldError, LookupError):
    """Says that a watermark has no producer of the name `producer`."""

    def __init__(self, producer: str) -> None:
        super().__init__(producer)
        self.producer = producer

    def __str__(self) -> str:
        return f"no producer {self.producer}"


class OtherConsumer(CqldError):
    """Says that somebody else takes from a query that is followed. Nothing is lost yet.

    - `query`: the query.
    - `rows`: answers that were taken for this consumer, but that it was not given.
    """

    def __init__(self, query: str, rows: Sequence[Sequence[int | None]]) -> None:
        super().__init__(query, rows)
        self.query = query
        self.rows = tuple(rows)

    def __str__(self) -> str:
        return f"another consumer takes answers of {self.query}; {len(self.rows)} came here unseen"


class DictionaryFault(CqldError):
    """Says that a dictionary is damaged or cannot be reached. `reason` says which."""

    def __init__(self, reason: str) -> None:
        super().__init__(reason)
        self.reason = reason

    def __str__(self) -> str:
        return self.reason


class UnknownNumber(DictionaryFault, LookupError):
    """Says that a dictionary has no text of the number `number`."""

    def __init__(self, number: int) -> None:
        super().__init__(f"no text has the number {number}")
        self.args = (number,)
        self.number = number


class MissingPackage(CqldError, ImportError):
    """Says that a call needs a package that is not installed. `package` is its name."""

    def __init__(self, package: str) -> None:
        super().__init__(package)
        self.package = package

    def __str__(self) -> str:
        return f"install {self.package}: this call needs it"
