"""The command `cql page`."""
from __future__ import annotations

import argparse
import asyncio
import signal
import sys
from typing import Sequence

from ..dictionary import FileDictionary, MemoryDictionary
from ..faults import CqldError, MissingPackage
from .errors import BadOption
from .known import Known
from .session import read_session
from .watch import Watch


def add_arguments(parser: argparse.ArgumentParser) -> None:
    """Adds the options of the command."""
    parser.add_argument("--port", type=int, default=8080,
                        help="the port of the page; 0 lets the system choose (8080)")
    parser.add_argument("--host", default="127.0.0.1",
                        help="the address of the page (127.0.0.1: this machine only)")
    parser.add_argument("--server", default="127.0.0.1:7711", metavar="HOST:PORT",
                        help="the server to watch (127.0.0.1:7711)")
    parser.add_argument("--query", action="append", default=[], metavar="NAME",
                        help="a query whose answers the page may take, where the server cannot "
                             "be asked without taking; say it for each query")
    parser.add_argument("--session", metavar="FILE",
                        help="a file with the shell's statements `create stream` and `create "
                             "query`, for the names and the types of columns")
    parser.add_argument("--dictionary", metavar="FILE",
                        help="the file with the numbers of texts, as the shell keeps it")
    parser.add_argument("--every", type=float, default=0.5, metavar="SECONDS",
                        help="the pause between two looks (0.5)")


def address(text: str) -> tuple[str, int]:
    """Returns the host and the port of `HOST:PORT`, `:PORT` or `PORT`. Raises `BadOption`."""
    host, _, port = text.rpartition(":")
    if not port.isdigit() or int(port) > 65_535:
        raise BadOption(f"{text!r} is no HOST:PORT")
    return host.strip("[]") or "127.0.0.1", int(port)


def run(options: argparse.Namespace) -> int:
    """Serves the page until it is interrupted. Returns the status of the command."""
    try:
        host, port = address(options.server)
        asyncio.run(_serve(options, host, port, _known(options)))
    except CqldError as error:
        print(f"cql page: {error}", file=sys.stderr)
        return 1
    except OSError as error:
        print(f"cql page: {options.host}: {error.strerror or error}", file=sys.stderr)
        return 1
    return 0


def _known(options: argparse.Namespace) -> Known:
    if options.session is None:
        return Known(taken=tuple(options.query))
    path = options.dictionary
    dictionary = MemoryDictionary() if path is None else FileDictionary(path)
    return read_session(options.session, dictionary, options.query)


async def _serve(options: argparse.Namespace, host: str, port: int, known: Known) -> None:
    try:
        from .site import serve
    except ModuleNotFoundError as error:
        raise MissingPackage("aiohttp") from error
    watch = Watch(host, port, known, every=max(0.05, options.every))
    task = asyncio.ensure_future(serve(watch, options.host, options.port, _ready))
    loop = asyncio.get_running_loop()
    for number in (signal.SIGINT, signal.SIGTERM):
        loop.add_signal_handler(number, task.cancel)
    try:
        await task
    except asyncio.CancelledError:
        pass


def _ready(address: str) -> None:
    print(f"cql page: {address}", flush=True)


def main(words: Sequence[str] | None = None) -> int:
    """Runs the command with words, by default those of the command line."""
    parser = argparse.ArgumentParser(prog="cql page", description="Shows a server on a live page.")
    add_arguments(parser)
    return run(parser.parse_args(words))
