"""Clients: `Client` of a server over TCP, and `Process` of a program over a pipe."""

from __future__ import annotations

import math
import socket
import subprocess

from .connection import Connection
from .faults import CannotConnect, ProgramFailed, TimedOut
from .programs import Program, find_program, start
from .wire import Link, Seconds

__all__ = ["Client", "Connection", "Process"]


class Client(Connection):
    """Is a connection to a `cqld`, on this machine or through a tunnel.

        with Client(7711, timeout=30) as client:
            client.stream("Trades", ["symbol", "price"])
            client.query("high", "Select Rstream(symbol) From Trades [Now] Where price > 100")
            client.append("Trades", [(0, 7, 120), (1, 8, 99), (2, 7, 101)])
            client.heartbeat("Trades", 2)
            for instant, symbol in client.answers("high"):
                print(instant, symbol)
    """

    def __init__(
        self, port: int, host: str = "127.0.0.1", timeout: Seconds | None = None
    ) -> None:
        """Connects. `timeout` is in seconds, for the connection and then for each call.

        A server answers as many connections at a time as its `--clients` says. One more waits
        without a word until another one ends, so set a time-out. Raises `CannotConnect`.
        """
        self.port = port
        self.host = host
        self._socket: socket.socket | None = None
        super().__init__(timeout)

    def _open(self, timeout: Seconds | None) -> Link:
        try:
            wait = None if timeout == math.inf else timeout
            made = socket.create_connection((self.host, self.port), wait)
        except (OSError, OverflowError) as error:
            raise CannotConnect(self.host, self.port, str(error)) from error
        made.setsockopt(socket.IPPROTO_TCP, socket.TCP_NODELAY, 1)
        self._socket = made

        def acknowledge() -> None:
            # a server may hold the next reply back until the last one is acknowledged
            made.setsockopt(socket.IPPROTO_TCP, socket.TCP_QUICKACK, 1)

        return Link(made.fileno(), made.fileno(), acknowledge)

    def _shut(self) -> None:
        if self._socket is not None:
            self._socket.close()
            self._socket = None


class Process(Connection):
    """Is a `cqlrun` of its own, over a pipe. It ends when it is closed, and all it holds is gone.

        with Process() as engine:
            engine.stream("S", ["a"])
            engine.query("q", "Select Rstream(*) From S [Now]")

    Its drains are complete: no other thread has a turn out. After `reconnect` there is a fresh
    engine without streams and queries. `pid` is the number of its process.
    """

    is_alone = True

    def __init__(
        self,
        program: Program | None = None,
        *,
        workers: int | None = None,
        plain: bool = False,
        turn: int | None = None,
        timeout: Seconds | None = None,
    ) -> None:
        """Starts the program, by default the one that `find_program` finds.

        `workers` are threads of a drain, 1 to 64. `plain` takes the engine that evaluates the
        definition. `turn` is the most rows of a turn, 1 to 1,024. `timeout` is in seconds, for
        each call. Raises `ProgramMissing`; a wrong number shows as `ConnectionLost` at a call.
        """
        self.program = str(program) if program is not None else find_program("cqlrun")
        self._words = [self.program]
        if workers is not None:
            self._words += ["--workers", str(workers)]
        if plain:
            self._words.append("--plain")
        if turn is not None:
            self._words += ["--turn", str(turn)]
        self._process: subprocess.Popen[bytes] | None = None
        self.pid = 0
        super().__init__(timeout)

    def close(self) -> None:
        """Ends the program, and waits for it. Raises `ProgramFailed` where its status is not 0."""
        process, self._process = self._process, None
        self._let_go()
        if process is None:
            return
        try:
            wait = None if self.timeout == math.inf else self.timeout
            _, errors = process.communicate(timeout=wait)
        except subprocess.TimeoutExpired as error:
            process.kill()
            process.communicate()
            raise TimedOut(error.timeout) from None
        if process.returncode != 0:
            text = errors.decode("utf-8", "replace")
            raise ProgramFailed(self.program, process.returncode, text)

    def _open(self, timeout: Seconds | None) -> Link:
        process = start(self._words, is_asked=True)
        assert process.stdin is not None and process.stdout is not None
        self.columns.clear()
        self._process = process
        self.pid = process.pid
        return Link(process.stdout.fileno(), process.stdin.fileno())

    def _why(self, reason: str) -> str:
        process = self._process
        if process is None:
            return reason
        try:
            _, errors = process.communicate(timeout=5)
        except subprocess.TimeoutExpired:
            return reason
        self._process = None
        text = errors.decode("utf-8", "replace").strip()
        return f"{self.program} ended with status {process.returncode}" + (text and f": {text}")

    def _shut(self) -> None:
        process, self._process = self._process, None
        if process is not None:
            process.kill()
            process.communicate()
