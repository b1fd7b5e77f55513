"""Reads query texts as the engine does: each text is accepted where the engine accepts it.

Otherwise the first fault is raised, with the engine's code and place. The next token decides which
rule goes on, so each rule is a function that never goes back.
"""

from collections.abc import Callable, Sequence
from typing import TypeVar

from .faults import Fault, nearest
from .hints import hint
from .query import (
    And,
    Comparison,
    Condition,
    Function,
    Item,
    Literal,
    Not,
    Now,
    Operand,
    Operator,
    Or,
    Partition,
    Query,
    Range,
    Reference,
    Rows,
    Sign,
    Source,
    Span,
    Unbounded,
    Window,
)
from .tokens import AnyKind, Kind, Symbol, Token, Word, tokens_of

MAX_TEXT = 4_096
"""The most bytes of a text."""
MAX_DEPTH = 32
"""The most `(` and `Not` of a condition that are open at once."""
MAX_SOURCES = 4
"""The most sources of a query."""
MAX_INSTANT = 1_099_511_627_776
"""The greatest instant, Range and Slide."""
MAX_ROWS = 65_536
"""The greatest count of a Rows window."""
MAX_VALUE = 1_099_511_627_775
"""The greatest number of a stream or a condition; its negative is the least."""

_CLAUSES = ("Where", "Group", "Having", "Every")

Part = TypeVar("Part")

_OPERATORS = {
    Word.ISTREAM: Operator.ISTREAM,
    Word.DSTREAM: Operator.DSTREAM,
    Word.RSTREAM: Operator.RSTREAM,
}
_FUNCTIONS = {
    Word.COUNT: Function.COUNT,
    Word.SUM: Function.SUM,
    Word.MIN: Function.MIN,
    Word.MAX: Function.MAX,
}
_SIGNS = {
    Symbol.EQUAL: Sign.EQUAL,
    Symbol.UNEQUAL: Sign.UNEQUAL,
    Symbol.LESS: Sign.LESS,
    Symbol.AT_MOST: Sign.AT_MOST,
    Symbol.GREATER: Sign.GREATER,
    Symbol.AT_LEAST: Sign.AT_LEAST,
}


def read(text: str) -> Query:
    """Returns the query that the text names, as the engine reads it.

    Raises `Fault` with the code and the place that the engine answers.
    """
    size = len(text.encode("utf-8", "surrogatepass"))
    if size > MAX_TEXT:
        reason = f"the text has {size:,} bytes, and at most {MAX_TEXT:,} are read"
        raise Fault("Q1", text, None, reason=reason)
    odd = next((at for at, letter in enumerate(text) if ord(letter) > 127), None)
    if odd is not None:
        reason = f"`{text[odd]}` is no ASCII character"
        raise Fault("Q2", text, odd, found=text[odd], reason=reason)
    return Reader(text, tokens_of(text)).query()


class Reader:
    """Goes through the tokens of one text from the left.

    It notes what could stand at the current token, for the fault of one that cannot. A language
    with rules of its own has another `unexpected_code`.
    """

    unexpected_code = "Q4"

    def __init__(self, text: str, tokens: Sequence[Token]) -> None:
        self.text = text
        self._tokens = tokens
        self._at = 0
        self._expected: list[str] = []
        self._depth = 0
        self._alias_end = -1
        self._check()

    # Tokens.

    @property
    def _token(self) -> Token:
        return self._tokens[self._at]

    @property
    def _last_end(self) -> int:
        return self._tokens[self._at - 1].end if self._at else 0

    def _check(self) -> None:
        """Raises where the current token is none."""
        token = self._token
        if token.kind is Kind.BAD:
            raise Fault("Q3", self.text, token.start, found=token.text, reason=_bad(token.text))

    def _is(self, kind: AnyKind, label: str = "") -> bool:
        """Returns whether the current token is of the kind, and notes that it could be."""
        self._expected.append(label or _label(kind))
        return self._token.kind is kind

    def _next(self) -> Token:
        token = self._token
        self._at += 1
        self._expected.clear()
        self._check()
        return token

    def _take(self, kind: AnyKind, label: str = "") -> Token:
        if not self._is(kind, label):
            raise self._unexpected()
        return self._next()

    def _maybe(self, kind: AnyKind, label: str = "") -> bool:
        if not self._is(kind, label):
            return False
        self._next()
        return True

    def _unexpected(self) -> Fault:
        token = self._token
        words = [word for word in self._expected if word.startswith("`")]
        plain = [word.strip("`").split()[0] for word in words if word[1:2].isalpha()]
        close = nearest(token.text, plain, 1) if token.kind is Kind.NAME else []
        reason = "" if close else hint(token.text)
        if not close and not reason and self._alias_end == self._at:
            alias = self._tokens[self._at - 1].text
            close = nearest(alias, _CLAUSES, 1)
            reason = f"`{alias}` before it is read as an alias" if close else ""
        if token.kind is Kind.LONG:
            reason = f"a name has at most 32 characters, and this word {len(token.text)}"
        return Fault(
            self.unexpected_code,
            self.text,
            token.start,
            found=token.text,
            expected=self._expected,
            nearest=close,
            reason=reason,
        )

    def _number(self, least: int, most: int, label: str) -> int:
        """Takes a number of the range, both ends included."""
        if not self._is(Kind.NUMBER, label):
            raise self._unexpected()
        number = int(self._token.text)
        if not least <= number <= most:
            raise self._out_of_range(least, most)
        self._next()
        return number

    def _out_of_range(self, least: int, most: int) -> Fault:
        token = self._token
        reason = f"{token.text} is not in {least:,} to {most:,}"
        code = "Q5" if self.unexpected_code else ""
        return Fault(code, self.text, token.start, found=token.text, reason=reason)

    # A query.

    def query(self) -> Query:
        """Reads the whole text. Raises `Fault`."""
        query = self._form()
        self._tail()
        self._maybe(Symbol.SEMICOLON)
        if not self._is(Kind.END):
            raise self._unexpected()
        return query

    def _form(self) -> Query:
        if self._maybe(Word.SELECT):
            operator = self._operator()
            self._take(Symbol.OPEN)
            distinct, items, span = self._body()
            self._take(Symbol.CLOSE)
            return self._rest(operator, distinct, items, span)
        operator = self._operator()
        self._take(Symbol.OPEN)
        self._take(Word.SELECT)
        distinct, items, span = self._body()
        query = self._rest(operator, distinct, items, span)
        self._take(Symbol.CLOSE)
        return query

    def _operator(self) -> Operator:
        for word, operator in _OPERATORS.items():
            if self._maybe(word):
                return operator
        raise self._unexpected()

    def _body(self) -> tuple[bool, tuple[Item, ...], Span]:
        distinct = self._maybe(Word.DISTINCT)
        start = self._token.start
        if self._maybe(Symbol.STAR):
            return distinct, (), Span(start, self._last_end)
        items = self._listed(self._item)
        return distinct, items, Span(start, self._last_end)

    def _listed(self, part: Callable[[], Part]) -> tuple[Part, ...]:
        parts = [part()]
        while self._maybe(Symbol.COMMA):
            parts.append(part())
        return tuple(parts)

    def _item(self) -> Item:
        start = self._token.start
        function = self._function()
        if function is None:
            column = self._column("a column")
            item = Item(None, column, None, column.span)
        else:
            item = self._aggregate(function, start)
        if not self._maybe(Word.AS):
            return item
        alias = self._take(Kind.NAME, "a name").text
        return Item(item.function, item.column, alias, Span(start, self._last_end))

    def _aggregate(self, function: Function, start: int) -> Item:
        """Takes what follows the name of a function that stands at `start`."""
        column: Reference | None = None
        self._take(Symbol.OPEN)
        if not (function is Function.COUNT and self._maybe(Symbol.STAR)):
            column = self._column("a column")
        self._take(Symbol.CLOSE)
        return Item(function, column, None, Span(start, self._last_end))

    def _function(self) -> Function | None:
        for word, function in _FUNCTIONS.items():
            if self._maybe(word, f"`{word.value}(`"):
                return function
        return None

    def _column(self, label: str) -> Reference:
        token = self._take(Kind.NAME, label)
        if not self._maybe(Symbol.DOT):
            return Reference(None, token.text, Span(token.start, token.end))
        name = self._take(Kind.NAME, f"a column of {token.text}")
        return Reference(token.text, name.text, Span(token.start, name.end))

    def _rest(
        self, operator: Operator, distinct: bool, items: tuple[Item, ...], listed: Span
    ) -> Query:
        start = self._token.start
        self._take(Word.FROM)
        sources = [self._source()]
        while len(sources) < MAX_SOURCES and self._maybe(Symbol.COMMA):
            sources.append(self._source())
        condition = self._either() if self._maybe(Word.WHERE) else None
        group: tuple[Reference, ...] = ()
        if self._maybe(Word.GROUP, "`Group By`"):
            self._take(Word.BY)
            group = self._listed(lambda: self._column("a column"))
        self._tail()
        rest = Span(start, self._last_end)
        return Query(operator, distinct, items, tuple(sources), condition, group, listed, rest)

    def _tail(self) -> None:
        """Reads what may follow Group By: nothing, but a dialect may have more."""

    # Sources.

    def _source(self) -> Source:
        start = self._token
        stream = self._take(Kind.NAME, "a stream").text
        alias: str | None = None
        window = self._window()
        if window is not None:
            alias = self._alias()
        else:
            alias = self._alias()
            if alias is not None:
                window = self._window()
        span = Span(start.start, start.end)
        return Source(stream, Unbounded() if window is None else window, alias, span)

    def _alias(self) -> str | None:
        if self._maybe(Word.AS):
            return self._take(Kind.NAME, "an alias").text
        if not self._is(Kind.NAME, "an alias"):
            return None
        alias = self._next().text
        self._alias_end = self._at
        return alias

    def _window(self) -> Window | None:
        if not self._maybe(Symbol.LEFT, "a window in `[ ]`"):
            return None
        window = self._frame()
        self._take(Symbol.RIGHT)
        return window

    def _frame(self) -> Window:
        if self._maybe(Word.NOW):
            return Now()
        if self._maybe(Word.RANGE):
            if self._maybe(Word.UNBOUNDED):
                return Unbounded()
            last = self._range_size()
            return Range(last, self._slide_size() if self._maybe(Word.SLIDE) else None)
        if self._maybe(Word.ROWS):
            if self._maybe(Word.UNBOUNDED):
                return Unbounded()
            return Rows(self._row_count())
        self._take(Word.PARTITION, "`Partition By`")
        self._take(Word.BY)
        by = self._listed(lambda: self._column("a column"))
        self._take(Word.ROWS)
        return Partition(by, self._row_count())

    def _range_size(self) -> int:
        return self._number(0, MAX_INSTANT, "a number of instants")

    def _slide_size(self) -> int:
        return self._number(1, MAX_INSTANT, "a number of instants")

    def _row_count(self) -> int:
        return self._number(1, MAX_ROWS, "a number of rows")

    # Conditions.

    def _either(self) -> Condition:
        parts = [self._both()]
        while self._maybe(Word.OR):
            parts.append(self._both())
        return parts[0] if len(parts) == 1 else Or(tuple(parts))

    def _both(self) -> Condition:
        parts = [self._single()]
        while self._maybe(Word.AND):
            parts.append(self._single())
        return parts[0] if len(parts) == 1 else And(tuple(parts))

    def _single(self) -> Condition:
        if self._is(Word.NOT):
            self._deeper()
            part = self._single()
            self._depth -= 1
            return Not(part)
        if self._is(Symbol.OPEN):
            self._deeper()
            inner = self._either()
            self._take(Symbol.CLOSE)
            self._depth -= 1
            return inner
        start = self._token.start
        left = self._operand()
        sign = self._sign()
        right = self._operand()
        return Comparison(left, sign, right, Span(start, self._last_end))

    def _deeper(self) -> None:
        token = self._token
        if self._depth >= MAX_DEPTH:
            reason = f"at most {MAX_DEPTH} `(` and `Not` of a condition are open at once"
            raise Fault("Q6", self.text, token.start, found=token.text, reason=reason)
        self._depth += 1
        self._next()

    def _sign(self) -> Sign:
        for symbol, sign in _SIGNS.items():
            if self._maybe(symbol):
                return sign
        raise self._unexpected()

    def _operand(self) -> Operand:
        if self._is(Kind.NUMBER, "a number"):
            token = self._token
            value = self._number(-MAX_VALUE, MAX_VALUE, "a number")
            return Literal(value, token.text, Span(token.start, token.end))
        return self._column("a column")


def _label(kind: AnyKind) -> str:
    return kind.value if isinstance(kind, Kind) else f"`{kind.value}`"


def _bad(letter: str) -> str:
    if letter in "'\"":
        return "a condition has numbers and no texts; a text goes in by its number"
    if letter == "-":
        return "a minus belongs to the digit right after it; there is no arithmetic"
    if letter in "+/%":
        return "there is no arithmetic"
    return f"`{letter}` begins no word, number or symbol"
