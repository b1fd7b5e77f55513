"""Cuts what is typed, or a file, into statements. A statement ends at `;`.

A line that begins with `.` or `\\`, and `exit` or `quit`, is a statement of its own without a `;`.
Comments run from `--` to the end of the line. They become spaces, so that places stay.
"""

import re
from dataclasses import dataclass

_LONE = re.compile(r"[ \t]*([.\\][^\n]*|(?:exit|quit)[ \t]*)(?:\n|$)", re.IGNORECASE)


@dataclass(frozen=True, slots=True)
class Piece:
    """A statement's text without its `;`, the line on which it begins, counted from 1."""

    text: str
    line: int

    def line_at(self, place: int) -> int:
        """Returns the line of a place in the text."""
        return self.line + self.text.count("\n", 0, place)


class Pieces:
    """Collects text until statements are complete."""

    def __init__(self) -> None:
        self._text = ""
        self._line = 1

    @property
    def is_empty(self) -> bool:
        """Whether nothing waits for its end."""
        return _SPACE.fullmatch(self._text) is not None

    def feed(self, text: str) -> list[Piece]:
        """Adds text, and returns the statements that are complete with it."""
        self._text += text
        found: list[Piece] = []
        at = 0
        while True:
            at = self._after_space(at)
            end, after = self._end(at)
            if after is None:
                break
            self._add(at, end, found)
            at = after
        self._drop(at)
        return found

    def finish(self) -> list[Piece]:
        """Returns the rest as a statement, if there is any, at the end of the text."""
        found: list[Piece] = []
        self._add(self._after_space(0), len(self._text), found)
        self.clear()
        return found

    def clear(self) -> None:
        """Forgets what waits for its end."""
        self._drop(len(self._text))

    def _after_space(self, at: int) -> int:
        match = _SPACE.match(self._text, at)
        return match.end() if match else at

    def _end(self, at: int) -> tuple[int, int | None]:
        """Returns where the statement at the place ends, and where the next one may begin."""
        lone = _LONE.match(self._text, at)
        if lone:
            return lone.end(1), lone.end()
        for match in _PARTS.finditer(self._text, at):
            if match.group() == ";":
                return match.start(), match.end()
        return at, None

    def _add(self, at: int, end: int, found: list[Piece]) -> None:
        text = blanked(self._text[at:end]).rstrip()
        if text:
            found.append(Piece(text, self._line + self._text.count("\n", 0, at)))

    def _drop(self, count: int) -> None:
        self._line += self._text.count("\n", 0, count)
        self._text = self._text[count:]


_SPACE = re.compile(r"(?:\s|--[^\n]*)*")
_PARTS = re.compile(r"'(?:[^']|'')*(?:'|$)|--[^\n]*|;")


def blanked(text: str) -> str:
    """Returns the text with spaces in place of comments, so that places stay."""

    def spaces(match: re.Match[str]) -> str:
        part = match.group()
        return " " * len(part) if part.startswith("--") else part

    return _PARTS.sub(spaces, text)
