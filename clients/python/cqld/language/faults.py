"""Faults of query texts: a code, a place, what was found there and what was expected."""

from collections.abc import Iterable, Sequence
from difflib import get_close_matches

from ..faults import CqldError

NAMES = {
    "Q1": "TextTooLong",
    "Q2": "NotAscii",
    "Q3": "BadToken",
    "Q4": "Unexpected",
    "Q5": "NumberRange",
    "Q6": "TooDeep",
    "Q7": "UnknownStream",
    "Q8": "UnknownColumn",
    "Q9": "AmbiguousColumn",
    "Q10": "DuplicateAlias",
    "Q11": "NoJoinKey",
    "Q12": "NotGrouped",
    "Q13": "TooWide",
    "F1": "Unit",
    "F2": "Avg",
    "F3": "Having",
    "F4": "Every",
    "F5": "Type",
    "F6": "Literal",
}
"""The engine's faults of query texts, by code; and from F1 on those of the friendly dialect."""

_PLACED = ("Q3", "Q4", "Q5", "Q6")


class Fault(CqldError, ValueError):
    """A text that cannot be read, or names what is not there.

    `code` and `name` are the engine's, as `Q4` and `Unexpected`. `place` counts the bytes before
    the fault, and is there also where the engine tells none. `found` is the text that stands
    there, `expected` what could stand there instead, and `nearest` the known names most like it.
    `reason` says in a sentence what is wrong. A fault of another language has no `code`.
    """

    def __init__(
        self,
        code: str,
        text: str,
        place: int | None,
        *,
        name: str = "",
        found: str = "",
        expected: Iterable[str] = (),
        nearest: Sequence[str] = (),
        reason: str = "",
    ) -> None:
        self.code = code
        self.name = name or NAMES.get(code, "")
        self.text = text
        self.place = place
        self.found = found
        self.expected = tuple(dict.fromkeys(expected))
        self.nearest = tuple(nearest)
        self.reason = reason
        super().__init__(self.message())

    @property
    def engine(self) -> str:
        """The engine's own text of the fault, as `Q4 Unexpected at 40`."""
        placed = f" at {self.place}" if self.code in _PLACED else ""
        return f"{self.code} {self.name}{placed}"

    def message(self) -> str:
        """Returns what is wrong, in one line, without the text."""
        parts = [self.engine] if self.code else []
        if self.reason:
            parts.append(self.reason)
        elif self.expected:
            shown = f"`{self.found}`" if self.found else "the end"
            parts.append(f"{shown} stands where {listing(self.expected)} could")
        told = ": ".join(parts)
        if self.nearest:
            told += f"; did you mean {listing([f'`{name}`' for name in self.nearest])}?"
        return told

    def caret(self) -> str:
        """Returns the line of the fault, and a caret below its place; nothing without a place."""
        if self.place is None:
            return ""
        start = self.text.rfind("\n", 0, self.place) + 1
        end = self.text.find("\n", self.place)
        line = self.text[start : len(self.text) if end < 0 else end].rstrip("\r")
        before = "".join("\t" if byte == "\t" else " " for byte in line[: self.place - start])
        return f"{line}\n{before}{'^' * max(1, min(len(self.found), len(line) - len(before)))}"

    def shown(self) -> str:
        """Returns the text, the caret and the message, as a person reads them."""
        caret = self.caret()
        return f"{caret}\n{self.message()}" if caret else self.message()

    def moved(self, text: str, by: int) -> "Fault":
        """Returns the same fault of a longer text, in which this one's stands at `by`."""
        place = None if self.place is None else self.place + by
        return self._copy(text, place, self.nearest)

    def with_names(self, word: str, names: Iterable[str]) -> "Fault":
        """Returns the same fault, with the names that are like the word among the nearest."""
        return self._copy(self.text, self.place, (*nearest(word, names), *self.nearest)[:2])

    def _copy(self, text: str, place: int | None, close: Sequence[str]) -> "Fault":
        return Fault(
            self.code,
            text,
            place,
            name=self.name,
            found=self.found,
            expected=self.expected,
            nearest=close,
            reason=self.reason,
        )


def listing(words: Sequence[str]) -> str:
    """Returns the words as a list for people: `a`, `a or b`, `a, b or c`."""
    if len(words) < 2:
        return "".join(words)
    return f"{', '.join(words[:-1])} or {words[-1]}"


def nearest(word: str, names: Iterable[str], most: int = 2) -> list[str]:
    """Returns the names most like the word, the most alike first; letter case costs nothing."""
    known = list(dict.fromkeys(names))
    same = [name for name in known if name.lower() == word.lower()]
    if same:
        return same[:most]
    lower = [name.lower() for name in known]
    close = get_close_matches(word.lower(), lower, n=most, cutoff=0.6)
    return [known[lower.index(name)] for name in close]
