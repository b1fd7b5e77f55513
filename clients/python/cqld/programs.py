"""Finds the programs, and starts a server."""

from __future__ import annotations

import os
import shutil
import subprocess
import time
from pathlib import Path
from types import TracebackType

from .faults import PortTaken, ProgramFailed, ProgramMissing, TimedOut
from .wire import Link, Seconds

Program = str | os.PathLike[str]


def find_program(name: str) -> str:
    """Returns the path of `cqlrun` or `cqld`.

    It is what the environment's CQLRUN or CQLD says, else the one that the repository built
    beside this package, else the one on the PATH. Raises `ProgramMissing`.
    """
    said = os.environ.get(name.upper())
    if said:
        return said
    built = Path(__file__).resolve().parents[3] / "crates" / name / "out" / name
    if built.is_file():
        return str(built)
    found = shutil.which(name)
    if found is None:
        raise ProgramMissing(name, f"not found; set {name.upper()} to its path")
    return found


def start(words: list[str], *, is_asked: bool) -> "subprocess.Popen[bytes]":
    """Starts a program over pipes, with one for its input where it `is_asked` by lines.

    Raises `ProgramMissing` where it cannot be started.
    """
    pipe = subprocess.PIPE
    try:
        return subprocess.Popen(
            words, stdin=pipe if is_asked else subprocess.DEVNULL, stdout=pipe, stderr=pipe
        )
    except OSError as error:
        raise ProgramMissing(words[0], error.strerror or str(error)) from error


class Server:
    """Is a `cqld` of its own, on this machine. Close it, or use it in a `with`.

        with Server(workers=2, clients=8) as server, Client(server.port) as client:
            client.drain()

    `port` is the port that it listens on, `pid` the number of its process.
    """

    def __init__(
        self,
        port: int = 0,
        *,
        workers: int = 2,
        clients: int = 8,
        serve: int | None = None,
        program: Program | None = None,
        timeout: Seconds = 60,
    ) -> None:
        """Starts the server, and waits until it listens, at most `timeout` seconds.

        Port 0 lets the system choose. The server has so many `workers`, and answers so many
        `clients` at a time. It ends by itself once it has served `serve` connections.

        Raises `ProgramMissing`, `PortTaken`, `ProgramFailed` or `TimedOut`.
        """
        self.program = os.fspath(program) if program is not None else find_program("cqld")
        words = [self.program, f"--port={port}", f"--workers={workers}", f"--clients={clients}"]
        if serve is not None:
            words.append(f"--serve={serve}")
        self._process = start(words, is_asked=False)
        self.pid = self._process.pid
        try:
            self.port = self._listens(port, timeout)
        except BaseException:
            self.close()
            raise

    def __enter__(self) -> "Server":
        return self

    def __exit__(
        self,
        kind: type[BaseException] | None,
        error: BaseException | None,
        trace: TracebackType | None,
    ) -> None:
        self.close()

    def close(self) -> None:
        """Ends the server. All that it holds is gone."""
        if self._process.poll() is None:
            self._process.kill()
        self._process.communicate()

    def wait(self, timeout: Seconds | None = None) -> None:
        """Waits until the server has ended by itself, at most `timeout` seconds.

        Raises `TimedOut`, and `ProgramFailed` where its status is not 0.
        """
        try:
            _, errors = self._process.communicate(timeout=timeout)
        except subprocess.TimeoutExpired as error:
            raise TimedOut(error.timeout) from None
        if self._process.returncode != 0:
            text = errors.decode("utf-8", "replace")
            raise ProgramFailed(self.program, self._process.returncode, text)

    def _listens(self, port: int, timeout: Seconds) -> int:
        """Returns the port that the server says it listens on."""
        assert self._process.stdout is not None and self._process.stderr is not None
        out = self._process.stdout.fileno()
        link = Link(out, out)
        try:
            line = link.line(time.monotonic() + timeout)
        except TimeoutError:
            raise TimedOut(timeout) from None
        except ConnectionError:
            status = self._process.wait()
            errors = self._process.stderr.read().decode("utf-8", "replace")
            if "bind failed" in errors:
                raise PortTaken(self.program, status, errors, port) from None
            raise ProgramFailed(self.program, status, errors) from None
        return int(line.rsplit(b":", 1)[1])
