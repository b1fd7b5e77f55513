"""Reads `create stream` and `create query`."""

from dataclasses import replace

from ..columns import EPOCH
from ..language import BOOL, INT, TEXT, Declared, Type, Unit
from ..language.tokens import Kind, Symbol
from ..language.types import Kind as Holds
from ..language.types import clock, decimal, time
from .statements import CreateQuery, CreateStream, Statement
from .wording import WordReader

MAX_COLUMNS = 8
"""The most columns of a stream."""
MAX_PLACES = 12
"""The most decimal places of a column."""

_TYPES = {
    "text": TEXT,
    "string": TEXT,
    "varchar": TEXT,
    "int": INT,
    "integer": INT,
    "bigint": INT,
    "bool": BOOL,
    "boolean": BOOL,
    "time": time(None),
    "timestamp": time(None),
}
_NOT_TYPES = {
    "float": "numbers are exact here; write decimal(2), or as many places as there are",
    "double": "numbers are exact here; write decimal(2), or as many places as there are",
    "real": "numbers are exact here; write decimal(2), or as many places as there are",
    "date": "write `time`",
    "datetime": "write `time`",
    "json": "a column holds one number, text, bool or time",
}

class CreationReader(WordReader):
    """Has the rules of what is created."""

    def _create(self) -> Statement:
        if self._maybe_word("stream"):
            return self._create_stream()
        self._words("query")
        if_not_exists = self._if_not_exists()
        name = self._name("a name for the query")
        self._words("as")
        if self._token.kind is Kind.END:
            self._expected = ["`Select`", "`Istream`", "`Dstream`", "`Rstream`"]
            raise self._unexpected()
        text, place = self._rest_from_here()
        return CreateQuery(name, text, place, if_not_exists)

    def _if_not_exists(self) -> bool:
        if not self._maybe_word("if"):
            return False
        self._words("not", "exists")
        return True

    def _create_stream(self) -> Statement:
        if_not_exists = self._if_not_exists()
        stream = self._name("a name for the stream")
        self._take(Symbol.OPEN)
        columns: dict[str, Type] = {}
        headers: dict[str, str] = {}
        while True:
            name = self._column_into(columns)
            if self._maybe_word("from"):
                headers[name] = self._quoted("the name of the column in files, in `' '`")
            if not self._maybe(Symbol.COMMA):
                break
        self._take(Symbol.CLOSE)
        unit: Unit | None = None
        since = EPOCH
        if self._maybe_word("unit"):
            unit = self._unit()
            if self._maybe_word("since"):
                since = self._moment()
        start = self._instant_literal() if self._maybe_word("start") else None
        timed = clock(unit, since)
        for column, type_ in columns.items():
            if type_.kind is Holds.TIME:
                columns[column] = replace(type_, clock=timed)
        declared = Declared(columns, unit, since)
        return self._end(CreateStream(stream, declared, headers, start, if_not_exists))

    def _column_into(self, columns: dict[str, Type]) -> str:
        token = self._token
        name = self._name("a name for a column")
        if name in columns:
            raise self._fault_at(token, f"two columns are named `{name}`")
        if len(columns) == MAX_COLUMNS:
            raise self._fault_at(token, f"a stream has at most {MAX_COLUMNS} columns")
        columns[name] = self._type()
        return name

    def _type(self) -> Type:
        token = self._token
        if self._maybe_word("decimal") or self._maybe_word("numeric"):
            self._take(Symbol.OPEN)
            places = self._number(0, MAX_PLACES, "a number of decimal places")
            self._take(Symbol.CLOSE)
            return decimal(places)
        for word in ("text", "int", "bool", "time"):
            self._expected.append(f"`{word}`")
        word = token.text.lower()
        if word in _NOT_TYPES:
            raise self._fault_at(token, f"there is no type `{word}`: {_NOT_TYPES[word]}")
        if token.kind is not Kind.NAME or word not in _TYPES:
            raise self._unexpected()
        self._next()
        return _TYPES[word]
