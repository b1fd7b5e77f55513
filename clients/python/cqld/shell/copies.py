"""Carries a copy out, and tells what it did."""

from collections.abc import Callable, Sequence
from dataclasses import dataclass

from ..dictionary import Dictionary
from ..faults import BadRow
from ..wire import Row
from .copying import Copied, Copying
from .errors import ShellError
from .files import RowFile
from .output import Output
from .progress import Progress
from .session import Session
from .statements import Copy
from .states import StreamState
from .values import declared_parsers, instant_parser, time_text


@dataclass(slots=True)
class _StreamSink:
    """A stream of a session, into which rows are copied."""

    session: Session
    state: StreamState

    @property
    def closed(self) -> int | None:
        return self.state.closed

    def open(self, start: int) -> None:
        self.session.open(self.state.name, start)

    def append(self, rows: Sequence[Row], skip: Callable[[BadRow], object] | None) -> int:
        return self.session.append(self.state.name, rows, skip)

    def close(self, at: int) -> None:
        self.session.close_to(self.state.name, at)

    def shown(self, instant: int) -> str:
        return time_text(instant, self.state.clock)


def copy_file(session: Session, dictionary: Dictionary, output: Output, copy: Copy) -> None:
    """Copies the rows of a file. Raises `ShellError`, and `CopyStopped` where it ends early."""
    state = session.stream(copy.stream)
    declared = state.declared
    parsers = declared_parsers(declared, dictionary, copy.null)
    with RowFile(copy.path, copy.delimiter) as file:
        copying = Copying(
            copy,
            file,
            [state.headers.get(name, name) for name in parsers],
            list(parsers.values()),
            instant_parser(declared.clock),
            _StreamSink(session, state),
            Progress(output.notes, file.size),
            _late(copy, state),
        )
        done = copying.run()
    _tell(output, state, done)


def _late(copy: Copy, state: StreamState) -> int | None:
    """Returns by how many instants a row may come after a later one, if that was said."""
    if copy.late is None:
        return None
    try:
        return int(copy.late.instants(state.declared.unit))
    except ValueError as error:
        raise ShellError(f"late {copy.late}: {error}") from None


def _tell(output: Output, state: StreamState, done: Copied) -> None:
    told = "1 row copied" if done.rows == 1 else f"{done.rows:,} rows copied"
    if state.closed is not None and state.closed >= 0:
        told += f"; closed up to {time_text(state.closed, state.clock)}"
    output.say(told)
    for count, what, first in (
        (done.late, "late", done.first_late),
        (done.bad, "bad", done.first_bad),
    ):
        if count:
            verb = "row was" if count == 1 else "rows were"
            output.say(f"{count:,} {what} {verb} skipped, the first at {first}")
