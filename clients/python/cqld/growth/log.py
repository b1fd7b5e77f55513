"""A log of requests in a file, and the replies beside it.

    with Log(Path("trades.log")) as log:
        log.write([Append("Trades", [(3, 7, 120)]), Heartbeat("Trades", 3)])

    python3 -m cqld.growth.log trades.log trades.out     # which lines were refused

Each line of the log is a request. Each reply is a line of the second file, in the same order:
so its number of lines says how far the log was answered. `tail_log.sh` runs an engine so.

Many producers may write one log. Each writes whole lines under a lock of the file. A line that a
dead producer left torn is ended first. It is refused when it is read (`N1 NotJson`), since no
proper prefix of a JSON object is one. The lines after it stay whole.
"""

import argparse
import fcntl
import os
import sys
from collections.abc import Iterable, Iterator
from dataclasses import dataclass
from pathlib import Path
from types import TracebackType
from typing import BinaryIO, Self

from .errors import BadLine, LogFault
from .script import LINE, Reply, Request, read_reply, write_request

BLANK = b" \t\r\n"


class Log:
    """A file that only grows by whole lines. Close it, or use it in a `with`."""

    def __init__(self, path: Path, *, sync: bool = False) -> None:
        """Opens the file, or makes it. With `sync` each write is on the disk before it returns.

        Raises LogFault if the file cannot be opened.
        """
        self._sync = sync
        self._path = path
        try:
            self._file = os.open(path, os.O_RDWR | os.O_APPEND | os.O_CREAT, 0o644)
        except OSError as fault:
            raise LogFault(f"{path}: {fault.strerror}") from fault

    def __enter__(self) -> Self:
        return self

    def __exit__(self, kind: type[BaseException] | None, error: BaseException | None,
                 trace: TracebackType | None) -> None:
        self.close()

    def close(self) -> None:
        """Closes the file. What was written stays."""
        if self._file >= 0:
            os.close(self._file)
            self._file = -1

    def write(self, requests: Iterable[Request]) -> int:
        """Appends requests, all of them together, and returns how many.

        Raises LogFault if a request is too long for a line (nothing was written then), or if the
        disk takes no more: then the lines may be there in part, and the torn one gets ended by
        the next write.
        """
        lines = [write_request(request).encode() for request in requests]
        for line in lines:
            if len(line) > LINE:
                raise LogFault(f"a line of {len(line)} bytes; at most {LINE} are read")
        self.write_lines(lines)
        return len(lines)

    def write_lines(self, lines: Iterable[bytes]) -> None:
        """Appends lines that have no line feed in them, all of them together.

        Raises LogFault as `write` does.
        """
        data = b"".join(line + b"\n" for line in lines)
        try:
            fcntl.flock(self._file, fcntl.LOCK_EX)
            try:
                self._append(b"\n" + data if self._is_torn() else data)
                if self._sync:
                    os.fsync(self._file)
            finally:
                fcntl.flock(self._file, fcntl.LOCK_UN)
        except OSError as fault:
            raise LogFault(f"{self._path}: {fault.strerror}") from fault

    def _is_torn(self) -> bool:
        size = os.fstat(self._file).st_size
        return size > 0 and os.pread(self._file, 1, size - 1) != b"\n"

    def _append(self, data: bytes) -> None:
        while data:
            data = data[os.write(self._file, data):]


@dataclass(frozen=True, slots=True)
class Answered:
    """A line of a log with its reply. `number` counts the log's lines from 1, blank ones too."""

    number: int
    line: bytes
    reply: Reply


def lines_of(path: Path) -> Iterator[bytes]:
    """Yields the whole lines of a file without their line feeds; a torn last line is left out.

    Raises LogFault if the file cannot be read.
    """
    try:
        with path.open("rb") as file:
            yield from _whole(file)
    except OSError as fault:
        raise LogFault(f"{path}: {fault.strerror}") from fault


def torn(path: Path) -> bytes:
    """Returns what follows the last line feed of a file: nothing, or a torn line.

    Raises LogFault if the file cannot be read.
    """
    try:
        with path.open("rb") as file:
            rest = b""
            for rest in file:
                pass
            return b"" if rest.endswith(b"\n") else rest
    except OSError as fault:
        raise LogFault(f"{path}: {fault.strerror}") from fault


def answered(log: Path, replies: Path) -> Iterator[Answered]:
    """Yields the lines of a log that were answered, each with its reply.

    Blank lines have none. Raises LogFault if there are more replies than lines, or if a reply is
    none.
    """
    number = 0
    lines = lines_of(log)
    for place, reply in enumerate(lines_of(replies), 1):
        for line in lines:
            number += 1
            if line.strip(BLANK):
                break
        else:
            raise LogFault(f"{replies}:{place}: a reply, and no line of {log} left for it")
        try:
            yield Answered(number, line, read_reply(reply))
        except BadLine as fault:
            raise LogFault(f"{replies}:{place}: {fault}") from fault


def refused(log: Path, replies: Path) -> Iterator[Answered]:
    """Yields the lines that an engine refused. Raises LogFault as `answered` does."""
    return (each for each in answered(log, replies) if each.reply.fault is not None)


def _whole(file: BinaryIO) -> Iterator[bytes]:
    for line in file:
        if line.endswith(b"\n"):
            yield line[:-1]


def main(words: list[str] | None = None) -> int:
    """Prints the refused lines of a log. Returns 1 if there are any, 2 if a file is unfit."""
    parser = argparse.ArgumentParser(
        prog="python3 -m cqld.growth.log", description="Prints the lines that an engine refused.")
    parser.add_argument("log", type=Path, help="requests, one a line")
    parser.add_argument("replies", type=Path, help="the replies to them, one a line")
    chosen = parser.parse_args(words)
    status = 0
    try:
        for each in refused(chosen.log, chosen.replies):
            line = each.line.decode(errors="replace")
            print(f"{chosen.log}:{each.number}: {each.reply.fault}: {line:.100}")
            status = 1
        for path in (chosen.log, chosen.replies):
            if rest := torn(path):
                print(f"{path}: its last line is torn: {rest.decode(errors='replace'):.100}")
    except LogFault as fault:
        print(fault, file=sys.stderr)
        return 2
    return status


if __name__ == "__main__":
    sys.exit(main())
