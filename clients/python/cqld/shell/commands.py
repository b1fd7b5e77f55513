"""The shell: it runs statements one after the other, over an engine, and tells their errors."""

import time
from collections.abc import Callable
from pathlib import Path

from ..client import Connection
from ..dictionary import Dictionary
from ..faults import (
    BadRow,
    CannotConnect,
    Closed,
    ConnectionLost,
    CqldError,
    ProgramMissing,
    Refused,
)
from ..language import Fault
from .actions import carry_out
from .engines import own_engine, server
from .errors import Interrupted, ShellError
from .output import Output
from .pieces import Piece, Pieces
from .reading import read_statement
from .session import Session
from .statements import Connect

MOST_NESTED = 16
"""The most files that `source` opens inside of each other."""

_TOLD = {
    "E2": "the engine has one of this name; `if not exists` uses it as it is",
    "E4": "the engine has as many as it may: 64 streams and 256 queries",
    "E11": "the instant is closed already, perhaps by another client",
    "E12": "one heartbeat closes at most 65,536 instants, and how far the stream is is not known",
    "E13": "the stream has as many rows as it may",
    "E15": "the engine ran out of memory for the query, and dropped what it held; drop the query",
    "E20": "the engine ran out of memory, and did nothing",
}


class Shell:
    """Runs statements. `failed` counts those that failed.

    `is_over` says that `quit` was met, `is_stopped` that a script ended early: by an interrupt, or
    by its first fault. `text` is that of the statement that runs. Where statements come from
    standard input, a copy may not read it, and `may_copy_input` is False.
    """

    def __init__(
        self,
        output: Output,
        dictionary: Dictionary,
        *,
        connect: Connect = Connect(),
        timeout: float | None = 60,
        pause: Callable[[float], object] = time.sleep,
        stops: bool = False,
    ) -> None:
        """Takes where to write, the numbers of texts, and the engine to begin with.

        A server has `timeout` seconds for a reply. With `stops` a script ends at its first fault.
        `pause` waits for so many seconds between two looks at a server.
        """
        self.output = output
        self.dictionary = dictionary
        self.pause = pause
        self.failed = 0
        self.is_over = False
        self.is_stopped = False
        self.may_copy_input = True
        self.text = ""
        self._timeout = timeout
        self._stops = stops
        self._depth = 0
        self._at = connect
        self._is_lost = False
        self._session: Session | None = None

    # The engine.

    @property
    def session(self) -> Session:
        """The session. The first use starts or connects to the engine, and may raise for that."""
        if self._session is None:
            self._session = self._begun()
        return self._session

    @property
    def known(self) -> Session | None:
        """The session, if there is one yet."""
        return self._session

    @property
    def where(self) -> str:
        """The engine, as messages name it."""
        at = self._at
        return "a cqlrun of its own" if at.port is None else f"cqld at {at.host}:{at.port}"

    def connect(self, at: Connect) -> None:
        """Goes on over another engine. Raises `CannotConnect` and `ProgramMissing`.

        What the session knows is kept where the same engine was lost, and else forgotten.
        """
        before, was = self._session, self._at
        is_again = self._is_lost and at == was
        self._at = at
        try:
            session = self._begun()
        except CqldError:
            self._at = was
            raise
        self.close()
        self._is_lost = False
        self._session = session
        self.output.say(f"connected to {self.where}")
        if before is None or not before.streams:
            return
        if not is_again:
            self.output.say("the streams and queries of before are not known here")
            return
        gone = session.adopt(before)
        if gone:
            told = ", ".join(gone)
            self.output.say(f"it does not have {told}; they begin again with the next rows")

    def close(self) -> None:
        """Ends the connection; an engine of the shell's own ends with it."""
        session, self._session = self._session, None
        if session is not None:
            try:
                session.connection.close()
            except CqldError:
                pass  # it is gone in any case

    def _begun(self) -> Session:
        at = self._at
        connection: Connection = (
            own_engine() if at.port is None else server(at.host, at.port, self._timeout)
        )
        return Session(connection, self.dictionary, is_own=at.port is None)

    # Scripts and statements.

    def run_text(self, text: str, name: str) -> None:
        """Runs the statements of a script. Errors are told with the script's name and line.

        Raises `ShellError` where too many scripts run inside of each other.
        """
        if self._depth >= MOST_NESTED:
            raise ShellError(f"at most {MOST_NESTED} files are opened inside of each other")
        if self._depth == 0:
            self.is_stopped = False
        self._depth += 1
        try:
            pieces = Pieces()
            for piece in [*pieces.feed(text), *pieces.finish()]:
                if not self.run(piece, name) and self._stops:
                    self.is_stopped = True
                if self.is_over or self.is_stopped:
                    return
        finally:
            self._depth -= 1

    def run_file(self, path: str) -> None:
        """Runs the statements of a file. Raises `ShellError` where it cannot be read."""
        try:
            text = Path(path).expanduser().read_text("utf-8")
        except (OSError, UnicodeDecodeError) as error:
            reason = getattr(error, "strerror", None) or str(error)
            raise ShellError(f"{path}: {reason}") from None
        self.run_text(text, path)

    def run(self, piece: Piece, name: str | None = None) -> bool:
        """Runs one statement, and tells its errors. Returns whether it went well.

        Errors have the name of a script and the line before them, where there is a name.
        """
        failed = self.failed
        self.text = piece.text
        try:
            carry_out(self, read_statement(piece.text))
        except Fault as fault:
            parts = [fault.caret(), fault.message()]
            if name is not None:
                parts.reverse()
            self._tell(piece, name, fault.place, "\n".join(part for part in parts if part))
        except KeyboardInterrupt:
            self.is_stopped = True
            self._tell(piece, name, None, "interrupted")
        except CqldError as error:
            self._note(error)
            self._tell(piece, name, None, self._message(error))
        return self.failed == failed

    def _note(self, error: CqldError) -> None:
        """Notes whether the engine is lost, and whether a script is to end."""
        lost = (ConnectionLost, Closed)
        if isinstance(error, lost) or isinstance(error.__cause__, lost):
            self._is_lost = True
        if isinstance(error, Interrupted):
            self.is_stopped = True
        if isinstance(error, (ProgramMissing, CannotConnect)) and self._session is None:
            self.is_stopped = True

    def _tell(self, piece: Piece, name: str | None, place: int | None, message: str) -> None:
        self.failed += 1
        where = "" if name is None else f"{name}:{piece.line_at(place or 0)}: "
        self.output.warn(f"{where}{message}")

    def _message(self, error: CqldError) -> str:
        if isinstance(error, Refused) and not isinstance(error, BadRow):
            told = _TOLD.get(error.code)
            return error.fault if told is None else f"{error.fault}: {told}"
        if isinstance(error, (ConnectionLost, Closed)):
            at = self._at
            gone = "the engine has ended" if at.port is None else "the server went away"
            again = "connect own" if at.port is None else f"connect {at.host}:{at.port}"
            return f"{gone}: {error}; `{again};` connects again"
        if isinstance(error, ProgramMissing):
            return f"{error}, or `connect HOST:PORT;` to a running cqld"
        return str(error)
