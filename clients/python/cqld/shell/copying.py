"""Copies the rows of a file into a stream, and closes its instants on the way.

A file with a size is read twice. The first time finds its first instant, and how far a row comes
after a later one. So the stream begins where the file does, and instants are closed as soon as no
row of the file can come for them. Of a pipe nothing is closed before its end, unless `late` says
how late rows may be.
"""

from collections.abc import Callable, Iterator, Sequence
from dataclasses import dataclass
from typing import Protocol

from ..faults import BadRow, BadValue, CqldError, DictionaryFault, LateRow
from ..wire import ROWS, Row
from .errors import CopyStopped, Interrupted, ShellError
from .files import BadRecord, Record, RowFile
from .interrupts import held
from .progress import Progress
from .statements import Copy, Policy
from .values import Parse

BATCHES = 8
"""After so many appends the instants that are over are closed."""


class Sink(Protocol):
    """Where the rows go."""

    @property
    def closed(self) -> int | None:
        """The closed instant of the stream; None where it is not known."""

    def open(self, start: int) -> None:
        """Declares the stream from an instant on, unless it is declared."""

    def append(self, rows: Sequence[Row], skip: Callable[[BadRow], object] | None) -> int:
        """Appends rows, and returns how many were taken."""

    def close(self, at: int) -> None:
        """Closes the instants up to one."""

    def shown(self, instant: int) -> str:
        """Returns an instant as people read it."""


@dataclass(slots=True)
class Copied:
    """What a copy did: rows that were taken, late and bad ones that were not, and the last line.

    `first_late` and `first_bad` say where the first of these stood.
    """

    rows: int = 0
    late: int = 0
    bad: int = 0
    top: int | None = None
    first_late: str = ""
    first_bad: str = ""


@dataclass(frozen=True, slots=True)
class _Survey:
    """What the first reading found: the first instant, and the greatest delay of a row."""

    least: int | None
    delay: int


class Copying:
    """One copy."""

    def __init__(
        self,
        copy: Copy,
        file: RowFile,
        columns: Sequence[str],
        parsers: Sequence[Parse],
        instant: Callable[[str], int],
        sink: Sink,
        progress: Progress,
        late: int | None,
    ) -> None:
        """Takes the columns in the stream's order, each with its parser.

        `late` is by how many instants a row may come after a later one; None where all may.
        """
        self._copy = copy
        self._file = file
        self._names = [copy.time, *columns]
        self._parsers = [instant, *parsers]
        self._instant = instant
        self._sink = sink
        self._progress = progress
        self._late = late
        self._done = Copied()
        self._rows: list[Row] = []
        self._lines: list[int] = []
        self._next = 2
        self._batches = 0

    def run(self) -> Copied:
        """Copies all rows. Raises `CopyStopped`, and `ShellError` where nothing was copied."""
        try:
            if self._file.size is not None and self._late is None:
                survey = self._survey()
                self._late = survey.delay
                self._file.rewind()
                self._progress.restart()
                if survey.least is not None:
                    self._sink.open(survey.least)
            self._copy_all()
        finally:
            self._progress.end()
        return self._done

    # The first reading.

    def _survey(self) -> _Survey:
        least: int | None = None
        top = 0
        delay = 0
        count = 0
        for record in self._records([self._copy.time]):
            count += 1
            if count % 1_024 == 0:
                self._progress.tell("looking at", count, self._file.read)
            if isinstance(record, BadRecord):
                continue
            try:
                instant = self._instant(record.fields[0])
            except BadValue:
                continue
            least = instant if least is None else min(least, instant)
            top = max(top, instant)
            delay = max(delay, top - instant)
        return _Survey(least, delay)

    def _records(self, names: Sequence[str]) -> Iterator[Record | BadRecord]:
        return self._file.records(names, self._copy.line)

    # The second one.

    def _copy_all(self) -> None:
        try:
            for record in self._records(self._names):
                self._take(record)
                self._next = record.line + 1
                if len(self._rows) >= ROWS:
                    self._flush()
                    self._progress.tell("copied", self._done.rows, self._file.read)
            self._flush()
        except KeyboardInterrupt:
            resume = self._lines[0] if self._lines else self._next
            path, rows = self._file.path, self._done.rows
            raise Interrupted(path, resume, "interrupted", rows, resume) from None
        done = self._done
        if done.top is not None and not self._copy.stays_open:
            self._close(done.top)

    def _take(self, record: Record | BadRecord) -> None:
        if isinstance(record, BadRecord):
            self._meet_bad(record.line, record.reason)
            return
        try:
            row: Row = [parse(text) for parse, text in zip(self._parsers, record.fields)]
        except (BadValue, DictionaryFault):
            self._meet_bad(record.line, self._reason(record))
            return
        instant = row[0]
        assert instant is not None
        closed = self._sink.closed
        if closed is not None and instant <= closed:
            self._meet_late(record.line, instant, closed)
            return
        self._rows.append(row)
        self._lines.append(record.line)

    def _reason(self, record: Record) -> str:
        """Returns which field is bad, and why."""
        for name, parse, text in zip(self._names, self._parsers, record.fields):
            try:
                parse(text)
            except BadValue as error:
                return f"column `{name}`: `{text}`: {error.reason}"
            except DictionaryFault as error:
                return f"column `{name}`: `{text}`: {error}"
        return "the row cannot be read"

    def _meet_bad(self, line: int, reason: str) -> None:
        if self._copy.on_bad is Policy.STOP:
            self._flush()
            raise self._stopped(line, reason, line)
        self._done.bad += 1
        self._done.first_bad = self._done.first_bad or f"line {line}: {reason}"

    def _meet_late(self, line: int, instant: int, closed: int) -> None:
        reason = (
            f"its instant is {self._sink.shown(instant)}, and the stream is closed up to "
            f"{self._sink.shown(closed)}"
        )
        if self._copy.on_late is Policy.STOP:
            self._flush()
            raise self._stopped(line, f"the row is late: {reason}", line)
        self._done.late += 1
        self._done.first_late = self._done.first_late or f"line {line}: {reason}"

    def _flush(self) -> None:
        """Appends the rows in hand, and closes what is over after some appends."""
        if not self._rows:
            return
        rows, lines = self._rows, self._lines
        instants = [row[0] or 0 for row in rows]
        self._sink.open(min(instants))
        skip = self._skip if self._copy.on_late is Policy.SKIP else None
        try:
            with held():
                self._done.rows += self._sink.append(rows, skip)
                self._rows, self._lines = [], []
        except BadRow as error:
            self._done.rows += error.taken
            line = lines[min(error.index, len(lines) - 1)]
            raise self._stopped(line, error.reason, line) from error
        except CqldError as error:
            self._done.rows += error.taken
            line = lines[min(error.taken, len(lines) - 1)]
            reason = f"{error}; some of the rows from here on may have been taken"
            raise self._stopped(line, reason, line) from error
        top = max(instants)
        self._done.top = top if self._done.top is None else max(self._done.top, top)
        self._batches += 1
        if self._late is not None and self._batches % BATCHES == 0:
            self._close(self._done.top - self._late - 1)

    def _skip(self, error: BadRow) -> None:
        if not isinstance(error, LateRow):
            raise error
        self._done.late += 1
        line = self._lines[error.index]
        self._done.first_late = self._done.first_late or f"line {line}: {error.reason}"

    def _close(self, at: int) -> None:
        closed = self._sink.closed
        if at >= 0 and (closed is None or at > closed):
            self._sink.close(at)

    def _stopped(self, line: int, reason: str, resume: int) -> ShellError:
        return CopyStopped(self._file.path, line, reason, self._done.rows, resume)
