"""What the tests share: programs on free ports, servers of a test's own, and patience."""

from __future__ import annotations

import os
import shutil
import socket
import subprocess
import sys
import tempfile
import time
import unittest
from collections.abc import Callable
from pathlib import Path
from typing import Any

PACKAGE = Path(__file__).resolve().parents[1]
ROOT = PACKAGE.parents[1]
if str(PACKAGE) not in sys.path:
    sys.path.insert(0, str(PACKAGE))

from cqld import Client, Process, Server
from standin import Answer, Fake, Standin, ignored

PATIENCE = 120.0  # seconds that anything may take on a busy machine


def wait_until(condition: Callable[[], Any], seconds: float = PATIENCE) -> None:
    """Waits until a condition holds. Raises `AssertionError` where it does not in time."""
    until = time.monotonic() + seconds
    while not condition():
        if time.monotonic() > until:
            raise AssertionError("what a test waits for did not come")
        time.sleep(0.005)


class Case(unittest.TestCase):
    """Is a test case whose programs, servers and folders go at its end."""

    def folder(self) -> Path:
        """Returns a fresh folder."""
        path = Path(tempfile.mkdtemp(prefix="cqld-test-"))
        self.addCleanup(shutil.rmtree, path, True)
        return path

    def server(self, workers: int = 2, clients: int = 8) -> Server:
        """Returns a running cqld on a free port."""
        server = Server(workers=workers, clients=clients, timeout=PATIENCE)
        self.addCleanup(server.close)
        return server

    def client(self, server: Server | None = None) -> Client:
        """Returns a client of a server, by default of a fresh one."""
        client = Client((server or self.server()).port, timeout=PATIENCE)
        self.addCleanup(client.close)
        return client

    def process(self, **keys: Any) -> Process:
        """Returns a client of a cqlrun of its own."""
        process = Process(timeout=PATIENCE, **keys)
        self.addCleanup(process.close)
        return process

    def fake(self, answer: Answer) -> Fake:
        """Returns a server that answers each request by a function."""
        fake = Fake(answer)
        self.addCleanup(fake.close)
        return fake

    def standin(self, works: bool = True) -> Standin:
        """Returns a server that passes requests on to a cqlrun. See `Standin` for `works`."""
        standin = Standin(works=works, timeout=PATIENCE)
        self.addCleanup(standin.close)
        return standin

    def redis(self) -> "RedisServer":
        """Returns a redis-server of the test's own."""
        server = RedisServer(self.folder())
        self.addCleanup(server.close)
        return server


class RedisServer:
    """Is a redis-server that keeps nothing, at a socket of its own. `url` is where it is."""

    def __init__(self, folder: Path) -> None:
        self.socket = folder / "redis.sock"
        self.url = f"unix://{self.socket}"
        words = ["redis-server", "--port", "0", "--unixsocket", str(self.socket)]
        words += ["--save", "", "--dir", str(folder)]
        nothing = subprocess.DEVNULL
        self._process = subprocess.Popen(words, stdout=nothing, stderr=nothing)
        try:
            wait_until(self._answers)
        except BaseException:
            self.close()
            raise

    def close(self) -> None:
        """Ends the server."""
        if self._process.poll() is None:
            self._process.kill()
        self._process.wait()

    def _answers(self) -> bool:
        if self._process.poll() is not None:
            raise AssertionError(f"redis-server ended with {self._process.returncode}")
        with ignored(OSError), socket.socket(socket.AF_UNIX) as connection:
            connection.connect(str(self.socket))
            connection.sendall(b"PING\r\n")
            return connection.recv(7) == b"+PONG\r\n"
        return False


def environment() -> dict[str, str]:
    """Returns an environment in which a program of a test finds the package of this folder."""
    path = os.environ.get("PYTHONPATH")
    return {**os.environ, "PYTHONPATH": str(PACKAGE) + (os.pathsep + path if path else "")}
