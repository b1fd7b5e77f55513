"""Engines that a session is over: a cqlrun of the shell's own, or a running cqld."""

import signal
from collections.abc import Iterator
from contextlib import contextmanager

from ..client import Client, Connection, Process


def own_engine() -> Connection:
    """Starts a cqlrun. Raises `ProgramMissing`.

    An interrupt at the terminal does not reach it: it would end, and all that it holds be gone.
    """
    with _blocked():
        return Process()


def server(host: str, port: int, timeout: float | None) -> Connection:
    """Connects to a cqld. A reply that takes longer than `timeout` seconds is an error.

    Raises `CannotConnect`.
    """
    return Client(port, host, timeout)


@contextmanager
def _blocked() -> Iterator[None]:
    before = signal.pthread_sigmask(signal.SIG_BLOCK, [signal.SIGINT])
    try:
        yield
    finally:
        signal.pthread_sigmask(signal.SIG_SETMASK, before)
