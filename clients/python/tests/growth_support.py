"""What the tests of growth share: random scripts, one run of an engine, and a Redis server."""

from __future__ import annotations

import json
import os
import shutil
import socket
import subprocess
import sys
import tempfile
import time
from collections.abc import Callable, Iterable, Mapping
from pathlib import Path
from typing import Any, Optional, Union

PACKAGE = Path(__file__).resolve().parent.parent
EVALUATOR = PACKAGE.parent.parent / "bench" / "evaluator_source"
sys.path[:0] = [str(PACKAGE), str(EVALUATOR)]

from cqld import find_program  # noqa: E402

PATIENCE = 240.0  # seconds that a machine under load may need for anything


def python(*words: Union[str, Path]) -> list[str]:
    """Returns the command that runs a module of the package, to be started in PACKAGE."""
    return [sys.executable, "-m", *map(str, words)]


def compact_json(value: object) -> str:
    """Returns a value as a line of JSON."""
    return json.dumps(value, separators=(",", ":"))


def replies_of(lines: Iterable[str]) -> list[bytes]:
    """Returns the reply lines that one engine gives lines."""
    data = "".join(line + "\n" for line in lines).encode()
    done = subprocess.run([find_program("cqlrun")], input=data, capture_output=True, check=True)
    return done.stdout.splitlines()


def all_answers(requests: Iterable[Mapping[str, Any]], query: str) -> list[list[Optional[int]]]:
    """Returns all answers of a query after requests, in one run."""
    lines = [compact_json(request) for request in requests] + ['{"op":"drain"}']
    take = compact_json({"op": "take", "query": query, "limit": 4096})
    found: list[list[Optional[int]]] = []
    count = 64
    while True:
        replies = replies_of(lines + [take] * count)[len(lines):]
        parts = [json.loads(reply)["rows"] for reply in replies]
        if not parts[-1]:
            for part in parts:
                found += part
            return found
        count *= 8


def wait_for(what: Callable[[], bool], patience: float = PATIENCE) -> None:
    """Waits until something holds. Raises TimeoutError past the patience, in seconds."""
    until = time.monotonic() + patience
    while not what():
        if time.monotonic() > until:
            raise TimeoutError(f"not within {patience} s")
        time.sleep(0.01)


def memory_folder() -> "tempfile.TemporaryDirectory[str]":
    """Returns a fresh folder, in memory where there is such: kills, not power cuts, are tried."""
    shared = Path("/dev/shm")
    is_there = shared.is_dir() and os.access(shared, os.W_OK)
    return tempfile.TemporaryDirectory(prefix="cqld-test-", dir=shared if is_there else None)


class RedisServer:
    """A redis-server of its own on a unix socket, whose data is in a folder."""

    def __init__(self, folder: Path) -> None:
        program = shutil.which("redis-server")
        assert program is not None, "install redis-server"
        self._socket = folder / "redis.sock"
        self._words = [
            program, "--port", "0", "--unixsocket", str(self._socket), "--dir", str(folder),
            "--appendonly", "yes", "--appendfsync", "always", "--save", "", "--loglevel", "warning",
            "--daemonize", "no",
        ]
        self._process: Optional[subprocess.Popen[bytes]] = None
        self.start()

    @property
    def url(self) -> str:
        """Where it listens."""
        return f"unix://{self._socket}"

    def start(self) -> None:
        """Starts it, and waits until it answers."""
        self._socket.unlink(missing_ok=True)
        self._process = subprocess.Popen(
            self._words, stdout=subprocess.DEVNULL, stderr=subprocess.DEVNULL)
        wait_for(self._answers)

    def kill(self) -> None:
        """Kills it without a chance to write anything."""
        if self._process is not None:
            self._process.kill()
            self._process.wait()
            self._process = None

    def _answers(self) -> bool:
        with socket.socket(socket.AF_UNIX) as client:
            client.settimeout(PATIENCE)
            try:
                client.connect(str(self._socket))
                client.sendall(b"PING\r\n")
                return client.recv(64).startswith(b"+PONG")
            except OSError:
                return False
