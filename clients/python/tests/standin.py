"""Servers for what a real one cannot be made to do: to lie, to stall, to cut a line, to close."""

from __future__ import annotations

import json
import socket
import threading
from collections.abc import Callable, Iterator, Mapping
from contextlib import contextmanager
from typing import Any, TypeVar

from cqld import Process, Refused

Answer = Callable[[Mapping[str, Any]], "Mapping[str, Any] | bytes | None"]
Self = TypeVar("Self", bound="Fake")


@contextmanager
def ignored(*kinds: type[BaseException]) -> Iterator[None]:
    """Ends a `with` quietly where it raises one of the kinds."""
    try:
        yield
    except kinds:
        pass


class Fake:
    """Answers the lines of connections by a function: a reply, bytes as they are, or None.

    So it can send what no engine would, wait as long as it likes, and end the connection: None
    does that. `requests` has all that came.
    """

    def __init__(self, answer: Answer) -> None:
        self._answer = answer
        self._listener = socket.create_server(("127.0.0.1", 0))
        self.port: int = self._listener.getsockname()[1]
        self.requests: list[Mapping[str, Any]] = []
        self._open: list[socket.socket] = []
        threading.Thread(target=self._accept, daemon=True).start()

    def __enter__(self: Self) -> Self:
        return self

    def __exit__(self, *_: object) -> None:
        self.close()

    def close(self) -> None:
        """Ends the server and its connections."""
        for connection in [self._listener, *self._open]:
            with ignored(OSError):
                connection.shutdown(socket.SHUT_RDWR)
            connection.close()

    def count(self, op: str) -> int:
        """Returns how many requests of a kind came."""
        return sum(request["op"] == op for request in self.requests)

    def _accept(self) -> None:
        with ignored(OSError):
            while True:
                connection, _ = self._listener.accept()
                self._open.append(connection)
                threading.Thread(target=self._serve, args=(connection,), daemon=True).start()

    def _serve(self, connection: socket.socket) -> None:
        with ignored(OSError, ValueError), connection, connection.makefile("rb") as lines:
            for line in lines:
                request = json.loads(line)
                self.requests.append(request)
                reply = self._answer(request)
                if reply is None:
                    connection.shutdown(socket.SHUT_RDWR)
                    return
                data = reply if isinstance(reply, bytes) else json.dumps(reply).encode() + b"\n"
                connection.sendall(data)


class Standin(Fake):
    """Passes requests on to a real cqlrun, and does three things that no real server does.

    It refuses each request whose `op` is in `faults`, as a program without `peek` and `status`
    does, or one whose turns are all out. It notes the requests, so that a test can count them. And
    its work is never late: where it `works`, all of it is done before each request, and else only
    a drain does any.
    """

    def __init__(
        self, program: str | None = None, works: bool = True, timeout: float | None = None
    ) -> None:
        self.faults: dict[str, str] = {}
        self._works = works
        self._engine = Process(program, timeout=timeout)
        self._lock = threading.Lock()
        super().__init__(self.pass_on)

    def close(self) -> None:
        """Ends the server, its connections and the program."""
        super().close()
        with self._lock:
            self._engine.close()

    def pass_on(self, request: Mapping[str, Any]) -> Mapping[str, Any] | None:
        """Returns the program's reply to a request, or the fault that a test chose."""
        if request["op"] in self.faults:
            return {"error": self.faults[request["op"]]}
        with self._lock:
            try:
                if self._works:
                    self._engine.drain()
                return self._engine.ask(**request)
            except Refused as refused:
                return {"error": refused.fault}

    def taken(self, query: str) -> int:
        """Returns how many answers of a query were taken, also where `status` is refused."""
        with self._lock:
            return self._engine.status().queries[query].taken
