"""Words, names, counts, units and literals, of which the rules of statements are made."""

from datetime import datetime
from fractions import Fraction
from typing import TypeVar

from ..language import UNITS, Fault, Length, Span, Unit, unit_of
from ..language.reader import Reader
from ..language.tokens import Kind, Token, Word, tokens_of
from ..language.types import moment_of, unquoted

Read = TypeVar("Read")


class WordReader(Reader):
    """Goes through the tokens of one statement. Its faults have no code of the engine."""

    unexpected_code = ""

    def __init__(self, text: str) -> None:
        super().__init__(text, tokens_of(text, friendly=True))

    def _check(self) -> None:
        """Lets odd characters stand; the rule that meets one says what it expects."""

    def _unexpected(self) -> Fault:
        if self._token.kind is Kind.BAD and self._token.text == "'":
            return self._fault_at(self._token, "the text in quotes has no end")
        return super()._unexpected()

    def _is_word(self, word: str) -> bool:
        self._expected.append(f"`{word}`")
        token = self._token
        return isinstance(token.kind, Word | Kind) and token.text.lower() == word

    def _maybe_word(self, word: str) -> bool:
        if not self._is_word(word):
            return False
        self._next()
        return True

    def _words(self, *words: str) -> None:
        for word in words:
            if not self._maybe_word(word):
                raise self._unexpected()

    def _name(self, label: str) -> str:
        token = self._token
        self._expected.append(label)
        if token.kind is Kind.NAME:
            return self._next().text
        if isinstance(token.kind, Word):
            reason = f"`{token.text}` is a reserved word, and no name"
            raise Fault("", self.text, token.start, found=token.text, reason=reason)
        raise self._unexpected()

    def _quoted(self, label: str) -> str:
        return unquoted(self._take(Kind.TEXT, label).text)

    def _count(self, label: str) -> int:
        return self._number(1, 1_000_000_000, label)

    def _end(self, statement: Read) -> Read:
        if not self._is(Kind.END):
            raise self._unexpected()
        return statement

    def _rest_from_here(self) -> tuple[str, int]:
        """Takes the rest of the text, and returns it with its place."""
        start = self._token.start
        self._at = len(self._tokens) - 1
        return self.text[start:], start

    def _fault_at(self, token: Token, reason: str) -> Fault:
        return Fault("", self.text, token.start, found=token.text, reason=reason)

    def _length(self) -> Length:
        token = self._token
        label = "a length such as `5 seconds`"
        if not (self._maybe(Kind.NUMBER, label) or self._maybe(Kind.DECIMAL, label)):
            raise self._unexpected()
        amount = Fraction(token.text)
        if amount < 0:
            raise self._fault_at(token, "a length is no less than 0")
        word = self._token
        unit = unit_of(word.text) if word.kind is Kind.NAME else None
        if unit is not None:
            self._next()
        return Length(amount, unit, Span(token.start, self._last_end))

    def _unit(self) -> Unit:
        self._expected.extend(f"`{unit}`" for unit in UNITS)
        unit = unit_of(self._token.text) if self._token.kind is Kind.NAME else None
        if unit is None:
            raise self._unexpected()
        self._next()
        return unit

    def _moment(self) -> datetime:
        token = self._token
        text = self._quoted("a time in `' '`")
        try:
            return moment_of(text)
        except ValueError as error:
            raise self._fault_at(token, f"{token.text} {error}") from None

    def _instant_literal(self) -> str:
        if self._is(Kind.NUMBER, "an instant") or self._is(Kind.TEXT, "a time in `' '`"):
            return self._next().text
        raise self._unexpected()
