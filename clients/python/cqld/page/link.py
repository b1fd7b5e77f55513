"""A connection to the server that asks several requests at once, in order."""
from __future__ import annotations

import asyncio
import json
import os
from typing import Any, Mapping, Sequence

from .errors import Away, Refusal

LONGEST_REPLY = 64 * 1024 * 1024  # bytes; a take of 4,096 answers of 32 columns fits
CONNECTING = 5.0  # seconds
ANSWERING = 30.0  # seconds

Request = Mapping[str, Any]
Reply = dict[str, Any]


class Link:
    """One connection. `asking` sends all its requests in one write, so little comes between."""

    def __init__(self, reader: asyncio.StreamReader, writer: asyncio.StreamWriter) -> None:
        self._reader = reader
        self._writer = writer

    @classmethod
    async def opened(cls, host: str, port: int) -> Link:
        """Connects, or raises `Away`."""
        try:
            async with asyncio.timeout(CONNECTING):
                reader, writer = await asyncio.open_connection(host, port, limit=LONGEST_REPLY)
        except OSError as error:
            raise Away(_reason(error, "no connection")) from error
        return cls(reader, writer)

    async def asking(self, requests: Sequence[Request]) -> list[Reply]:
        """Returns the reply to each request, refusals included. Raises `Away`."""
        lines = [json.dumps(request, separators=(",", ":")) + "\n" for request in requests]
        try:
            async with asyncio.timeout(ANSWERING):
                self._writer.write("".join(lines).encode())
                await self._writer.drain()
                return [await self._reply() for _ in requests]
        except (OSError, ValueError) as error:
            raise Away(_reason(error, "no reply")) from error

    async def ask(self, op: str, **keys: Any) -> Reply:
        """Returns the reply to one request, or raises `Refusal`."""
        reply, = await self.asking([{"op": op, **keys}])
        if "error" in reply:
            raise Refusal(str(reply["error"]))
        return reply

    async def _reply(self) -> Reply:
        line = await self._reader.readline()
        if not line.endswith(b"\n"):
            raise Away("the server closed the connection")
        reply = json.loads(line)
        if not isinstance(reply, dict):
            raise Away("the server sent a line that is no reply")
        return reply

    def close(self) -> None:
        """Ends the connection, and does not wait for what was not written yet."""
        self._writer.transport.abort()


def _reason(error: BaseException, otherwise: str) -> str:
    """Returns why a call failed, in words."""
    number = getattr(error, "errno", None)
    return os.strerror(number) if isinstance(number, int) else str(error) or otherwise
