"""Writes a log anew, cut to what later answers need, with the replies beside it.

    python3 -m cqld.growth.compact LOG NEW                        # asks an engine what it accepts
    python3 -m cqld.growth.compact LOG NEW --replies OUT NEW_OUT  # reads that from the replies

A `cqlrun` that reads NEW gives each later request the reply that it would get after LOG.
What was taken already is not handed out again: NEW ends with takes of just those answers.
Lines of LOG that are not answered yet are copied as they are. Neither LOG nor OUT is changed.
"""

import argparse
import os
import sys
from collections.abc import Iterable, Iterator, Sequence
from dataclasses import dataclass
from pathlib import Path

from .. import find_program
from ..faults import CqldError
from ..language import Fault
from .compactor import Compactor
from .engine import Engine, replies_to
from .errors import GrowthError, LogFault
from .log import BLANK, Answered, answered, lines_of, torn
from .script import (TAKE, Drain, Drop, Query, Reply, Request, Row, Take, read_request,
                     write_reply, write_request)

_SHAKY = ("E15", "E18", "E19", "E20")  # faults that another run need not answer


@dataclass(frozen=True, slots=True)
class _Progress:
    """All answers up to an instant were taken, and some of the next instant."""

    upto: int
    some: int


@dataclass(frozen=True, slots=True)
class Summary:
    """How many lines were answered, how many of them refused, how many stand for them, and how
    many that were not answered were copied."""

    answered: int
    refused: int
    left: int
    copied: int


class Cutter:
    """Follows the requests and replies of one log, and says what is left of them.

    The log is one of a single `cqlrun`: answers come to wait at its drains only.
    """

    def __init__(self) -> None:
        """Begins with nothing."""
        self._compactor = Compactor()  # as things stood at the last drain
        self._since: list[Request] = []  # what came after it
        self._has_drained = False
        self._progress: dict[str, _Progress] = {}

    def note(self, request: Request, reply: Reply) -> None:
        """Takes a request and its reply in.

        Raises LogFault if an engine was out of memory or of turns at a drain or a take: then its
        replies are no function of the log.
        """
        if reply.fault is not None:
            if isinstance(request, (Drain, Take)) and reply.fault.startswith(_SHAKY):
                raise LogFault(f"{reply.fault}: what was answered is no function of the log")
            return
        match request:
            case Drain():
                self._drain()
            case Take(query, limit):
                self._take(query, limit, reply.rows or ())
            case _:
                self._since.append(request)

    def cut(self, program: str) -> list[Request]:
        """Returns what is left, for which it asks an engine how many old answers come again.

        Raises ConnectionLost if the engine does not answer.
        """
        progress = {name: self._progress[name] for name in self._compactor.queries
                    if name in self._progress and not self._is_dropped(name)}
        for name, each in progress.items():
            self._compactor.answered(name, each.upto)
        script = self._compactor.script()
        if self._has_drained:
            script.append(Drain())
        with Engine(program) as engine:
            engine.tell(script)
            for name, each in progress.items():
                old = sum(_instant(row) <= each.upto for row in engine.waiting(name)) + each.some
                script += [Take(name, min(TAKE, old - at)) for at in range(0, old, TAKE)]
        return script + self._since

    def _drain(self) -> None:
        for request in self._since:
            if isinstance(request, Drop):
                self._progress.pop(request.query, None)
            self._compactor.note(request)
        self._since.clear()
        self._has_drained = True

    def _take(self, query: str, limit: int, rows: Sequence[Row]) -> None:
        if query not in self._compactor.queries or self._is_dropped(query):
            return  # it was registered after the last drain, so nothing of it waits
        if len(rows) < limit:
            self._progress[query] = _Progress(self._compactor.closed(query), 0)
            return
        last = _instant(rows[-1])
        some = sum(_instant(row) == last for row in rows)
        old = self._progress.get(query)
        if old is not None and old.upto == last - 1:
            some += old.some
        self._progress[query] = _Progress(last - 1, some)

    def _is_dropped(self, query: str) -> bool:
        return any(isinstance(request, Drop) and request.query == query for request in self._since)


def compact_log(log: Path, new: Path, program: str,
                replies: tuple[Path, Path] | None = None) -> Summary:
    """Writes `new`, and the second of `replies`, from `log` and the first of them.

    Without `replies` an engine is asked for them. Raises LogFault if a file is unfit or one to be
    written is there already, ConnectionLost if the engine does not answer.
    """
    for path in (new,) if replies is None else (new, replies[1]):
        if path.exists():
            raise LogFault(f"{path}: is there already")
    pairs = _ask(program, log) if replies is None else answered(log, replies[0])
    cutter = Cutter()
    count = number = refused = 0
    for each in pairs:
        count, number = count + 1, each.number
        refused += each.reply.fault is not None
        try:
            if each.reply.fault is None or each.reply.fault.startswith(_SHAKY):
                cutter.note(read_request(each.line), each.reply)
        except (GrowthError, Fault) as fault:
            raise LogFault(f"{log}:{number}: {fault}") from fault
    left = cutter.cut(program)
    rest = [line for place, line in enumerate(lines_of(log), 1) if place > number]
    lines = [write_request(request).encode() for request in left]
    _write(new, [line + b"\n" for line in lines + rest] + [torn(log)])
    if replies is not None:
        _write_replies(replies[1], left, program)
    return Summary(count, refused, len(left), len(rest))


def _instant(row: Row) -> int:
    assert row[0] is not None  # the first value of an answer is its instant
    return row[0]


def _ask(program: str, log: Path) -> Iterator[Answered]:
    """The lines of a log, each with the reply that an engine gives it."""
    lines = ((number, line) for number, line in enumerate(lines_of(log), 1) if line.strip(BLANK))
    replies = replies_to(program, log)
    for (number, line), reply in zip(lines, replies):
        yield Answered(number, line, reply)


def _write_replies(path: Path, requests: Sequence[Request], program: str) -> None:
    with Engine(program) as engine:
        replies = engine.replies(requests)
    _write(path, [write_reply(reply).encode() + b"\n" for reply in replies])


def _write(path: Path, lines: Iterable[bytes]) -> None:
    """Writes a file that is whole or not there."""
    part = path.with_name(path.name + ".part")
    try:
        with part.open("wb") as file:
            file.writelines(lines)
            file.flush()
            os.fsync(file.fileno())
        part.rename(path)
    except OSError as fault:
        raise LogFault(f"{path}: {fault.strerror}") from fault


def main(words: list[str] | None = None) -> int:
    """Compacts a log. Returns 0, or 2 if a file is unfit."""
    parser = argparse.ArgumentParser(
        prog="python3 -m cqld.growth.compact",
        description="Writes a log anew, cut to what later answers need.")
    parser.add_argument("log", type=Path)
    parser.add_argument("new", type=Path, help="the log to write")
    parser.add_argument("--replies", nargs=2, type=Path, metavar=("OUT", "NEW_OUT"),
                        help="the replies to the log, and where to write those to the new one")
    parser.add_argument("--program", default=None, help="the engine, as a path to cqlrun")
    chosen = parser.parse_args(words)
    replies = None if chosen.replies is None else (chosen.replies[0], chosen.replies[1])
    try:
        program = chosen.program or find_program("cqlrun")
        done = compact_log(chosen.log, chosen.new, program, replies)
    except CqldError as fault:
        print(fault, file=sys.stderr)
        return 2
    print(f"{done.answered} lines answered, {done.refused} of them refused: {done.left} left, "
          f"and {done.copied} that were not answered")
    return 0


if __name__ == "__main__":
    sys.exit(main())
