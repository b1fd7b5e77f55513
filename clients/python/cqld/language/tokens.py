"""Cuts a text into tokens: words, numbers, symbols.

Spaces, tabs, carriage returns and line feeds may stand between tokens. The first byte that begins
no token ends the list with a token of kind `Kind.BAD`.
"""

import re
from dataclasses import dataclass
from enum import Enum

MAX_NAME = 32
"""The most characters of a name."""


class Kind(Enum):
    """What a token is, apart from reserved words and symbols, which are their own kind."""

    NAME = "a name"
    LONG = "a word of more than 32 characters"
    NUMBER = "a number"
    DECIMAL = "a decimal number"
    TEXT = "a text in quotes"
    END = "the end of the text"
    BAD = "no token"


class Word(Enum):
    """A reserved word, as messages write it."""

    SELECT = "Select"
    DISTINCT = "Distinct"
    ISTREAM = "Istream"
    DSTREAM = "Dstream"
    RSTREAM = "Rstream"
    FROM = "From"
    AS = "As"
    WHERE = "Where"
    GROUP = "Group"
    BY = "By"
    AND = "And"
    OR = "Or"
    NOT = "Not"
    RANGE = "Range"
    ROWS = "Rows"
    PARTITION = "Partition"
    NOW = "Now"
    UNBOUNDED = "Unbounded"
    SLIDE = "Slide"
    COUNT = "Count"
    SUM = "Sum"
    MIN = "Min"
    MAX = "Max"


class Symbol(Enum):
    """A symbol; `!=` is the same one as `<>`."""

    OPEN = "("
    CLOSE = ")"
    LEFT = "["
    RIGHT = "]"
    COMMA = ","
    DOT = "."
    SEMICOLON = ";"
    STAR = "*"
    EQUAL = "="
    UNEQUAL = "<>"
    LESS = "<"
    AT_MOST = "<="
    GREATER = ">"
    AT_LEAST = ">="


AnyKind = Kind | Word | Symbol

_WORDS = {word.value.lower(): word for word in Word}
_SYMBOLS = {symbol.value: symbol for symbol in Symbol} | {"!=": Symbol.UNEQUAL}
_SPACE = re.compile(r"[ \t\r\n]*")
_PLAIN = re.compile(
    r"(?P<word>[A-Za-z_][A-Za-z0-9_]*)|(?P<number>-?[0-9]+)"
    r"|(?P<symbol><=|>=|<>|!=|[()\[\],.;*=<>])"
)
_FRIENDLY = re.compile(
    r"(?P<word>[A-Za-z_][A-Za-z0-9_]*)|(?P<decimal>-?[0-9]+\.[0-9]+)|(?P<number>-?[0-9]+)"
    r"|(?P<text>'(?:[^']|'')*')|(?P<symbol><=|>=|<>|!=|[()\[\],.;*=<>])"
)


@dataclass(frozen=True, slots=True)
class Token:
    """A token, and where it stands: from `start` up to `end`, counted from 0."""

    kind: AnyKind
    text: str
    start: int
    end: int


def is_reserved(word: str) -> bool:
    """Returns whether the engine reserves the word, in any case of letters."""
    return word.lower() in _WORDS


def is_name(word: str) -> bool:
    """Returns whether the word may name a stream, a column or a query."""
    match = re.fullmatch(r"[A-Za-z_][A-Za-z0-9_]*", word)
    return match is not None and len(word) <= MAX_NAME and not is_reserved(word)


def tokens_of(text: str, *, friendly: bool = False) -> list[Token]:
    """Returns the tokens up to the first place that begins none, and one more for that or the end.

    With `friendly` a decimal number and a text in single quotes are tokens too.
    """
    pattern = _FRIENDLY if friendly else _PLAIN
    tokens: list[Token] = []
    at = _skip(text, 0)
    while at < len(text):
        match = pattern.match(text, at)
        if match is None:
            tokens.append(Token(Kind.BAD, text[at], at, at + 1))
            return tokens
        tokens.append(Token(_kind(match), match.group(), at, match.end()))
        at = _skip(text, match.end())
    tokens.append(Token(Kind.END, "", len(text), len(text)))
    return tokens


def _skip(text: str, at: int) -> int:
    match = _SPACE.match(text, at)
    return match.end() if match else at


def _kind(match: re.Match[str]) -> AnyKind:
    text = match.group()
    if match.lastgroup == "symbol":
        return _SYMBOLS[text]
    if match.lastgroup != "word":
        return {"number": Kind.NUMBER, "decimal": Kind.DECIMAL}.get(str(match.lastgroup), Kind.TEXT)
    word = _WORDS.get(text.lower())
    if word is not None:
        return word
    return Kind.NAME if len(text) <= MAX_NAME else Kind.LONG
