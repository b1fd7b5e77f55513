"""Errors of the shell, which have the package's base."""

from ..faults import CqldError


class ShellError(CqldError):
    """Says in a sentence why a statement was not carried out."""


class CopyStopped(ShellError):
    """Says that a copy ended early.

    `path` and `line` are where, `taken` is how many rows the engine took. `resume` is the line from
    which a copy goes on without a gap and without a repeat, as far as that is known.
    """

    def __init__(self, path: str, line: int, reason: str, taken: int, resume: int) -> None:
        super().__init__(path, line, reason, taken, resume)
        self.path = path
        self.line = line
        self.reason = reason
        self.taken = taken
        self.resume = resume

    def __str__(self) -> str:
        rows = "1 row was" if self.taken == 1 else f"{self.taken:,} rows were"
        return (
            f"{self.path}:{self.line}: {self.reason}\n"
            f"{rows} copied; `from line {self.resume}` at the end of the copy goes on from here"
        )


class Interrupted(CopyStopped):
    """Says that an interrupt ended a copy."""
