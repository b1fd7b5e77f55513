"""Rows of a stream with types, and answers of a query with types. Nothing here is sent."""

from __future__ import annotations

import keyword
import re
from collections import Counter, namedtuple
from collections.abc import Callable, Iterable, Mapping, Sequence
from datetime import datetime, timedelta, timezone
from typing import Any

from .columns import Bool, Clock, Column, Decimal, Int, Text, Time
from .faults import BadValue, MissingPackage
from .language.answers import AnswerColumn
from .language.names import resolve
from .language.query import Function
from .language.reader import read
from .language.rewrite import rewrite
from .language.types import BOOL, INT, TEXT, Declared, Type, decimal, time
from .language.units import Unit
from .wire import Row

Instant = datetime | int


_tuples: Callable[[str, Sequence[str]], Callable[..., Any]] = namedtuple


class Schema:
    """Has the columns of a stream with their types, and its clock.

    Without a clock its instants are whole numbers.
    """

    def __init__(self, columns: Mapping[str, Column], clock: Clock | None = None) -> None:
        """Takes the columns in their order."""
        self.columns = dict(columns)
        self.clock = clock
        self._fields = ("instant", *self.columns)

    @property
    def names(self) -> tuple[str, ...]:
        """Returns the names of the columns."""
        return tuple(self.columns)

    def instant(self, at: Instant) -> int:
        """Returns the instant of a time, or of a whole number. Raises `BadValue`."""
        if self.clock is None and isinstance(at, datetime):
            raise BadValue(at, "the stream has no clock, so its instants are whole numbers")
        return (self.clock or Clock()).instant(at)

    def time(self, instant: int) -> Instant:
        """Returns the time at which an instant begins; without a clock the instant."""
        return instant if self.clock is None else self.clock.time(instant)

    def encode(self, row: Any) -> Row:
        """Returns the numbers of a row: a tuple, a list, or a mapping from names to values.

        A tuple has the instant first. A mapping has it as `instant`, and has every column. Raises
        `BadValue` with its `position`, and `DictionaryFault`.
        """
        parts = self._parts(row)
        numbers: Row = []
        try:
            numbers.append(self.instant(parts[0]))
            for column, value in zip(self.columns.values(), parts[1:]):
                numbers.append(column.number(value))
        except BadValue as error:
            error.position = len(numbers)
            raise
        return numbers

    def prepare(self, rows: Sequence[Any]) -> None:
        """Prepares to encode rows, so that a dictionary is asked once for all of them."""
        for place, name in enumerate(self._fields):
            column = self.columns.get(name) if place else None
            if isinstance(column, Text):
                column.prepare(_part(row, place, name) for row in rows)

    def declared(self) -> Declared:
        """Returns the columns as the language of queries knows them."""
        types = {name: _type(column) for name, column in self.columns.items()}
        if self.clock is None:
            return Declared(types)
        clock = _zoned(self.clock)
        return Declared(types, _unit(clock.unit), clock.start)

    def _parts(self, row: Any) -> Sequence[Any]:
        if isinstance(row, Mapping):
            for name in self._fields:
                if name not in row:
                    raise BadValue(dict(row), f"it has no {name}")
            for name in row:
                if name not in self._fields:
                    raise BadValue(dict(row), f"the stream has no column {name}")
            return [row[name] for name in self._fields]
        parts = None if isinstance(row, (str, bytes)) else _listed(row)
        if parts is None:
            raise BadValue(row, "a row is an instant and its values")
        if len(parts) != len(self._fields):
            reason = f"{len(parts) - 1} values, and the stream has {len(self.columns)} columns"
            raise BadValue(row, reason, "E7 BadWidth")
        return parts


class Answers:
    """Says what the answers of a query are: named tuples of decoded values.

    The text may be of the friendly dialect, with units of time, texts in quotes, decimals, `Avg`,
    `Having` and `Every`. `text` is what the engine is asked.

    The fields of an answer are `instant`, and a field for each item of the list: the alias, the
    name of the column, or `sum_amount` of `Sum(amount)` and `count` of `Count(*)`. A mean is a
    float. `streams` are the names of the streams that it reads.
    """

    def __init__(self, name: str, text: str, streams: Mapping[str, Schema]) -> None:
        """Reads the text over the streams. Raises `cqld.language.Fault`, and `BadValue`."""
        declared = {it: schema.declared() for it, schema in streams.items()}
        self._rewritten = rewrite(text, declared, _numbering(streams.values()))
        self.text = self._rewritten.text
        self.streams = tuple(self._rewritten.streams)
        self._clock = _common_clock([streams[it] for it in self.streams])
        items = _item_types(self.text, streams)
        columns = self._rewritten.columns
        self._columns = [(it, items[it.place]) for it in columns]
        self.fields = ("instant", *_fields([it.name for it in columns]))
        self.kind = _tuples(_identifier(name), self.fields)

    def instant(self, at: Instant) -> int:
        """Returns the number of an instant. Raises `BadValue`."""
        if self._clock is None and isinstance(at, datetime):
            raise BadValue(at, "the streams have no clock, so their instants are whole numbers")
        return (self._clock or Clock()).instant(at)

    def decode(self, row: Row) -> Any:
        """Returns the answer of a row, or None where `Having` or `Every` leaves it out.

        Raises `DictionaryFault`, `BadValue`, and `SumOutOfRange` of the language.
        """
        if not self._rewritten.keeps(row):
            return None
        instant = row[0] or 0
        values = [_decoded(column, kind, row) for column, kind in self._columns]
        return self.kind(instant if self._clock is None else self._clock.time(instant), *values)

    def decode_all(self, rows: Sequence[Row]) -> list[Any]:
        """Returns the answers of rows. A dictionary is asked once for all. Raises as `decode`."""
        self.prepare(rows)
        answers = [self.decode(row) for row in rows]
        return [it for it in answers if it is not None]

    def prepare(self, rows: Sequence[Row]) -> None:
        """Prepares to decode rows, so that a dictionary is asked once for all of them."""
        for column, kind in self._columns:
            if isinstance(kind, Text):
                kind.prepare_numbers(row[1 + column.place] for row in rows)

    def frame(self, answers: Iterable[Any]) -> Any:
        """Returns answers as a DataFrame. Raises `MissingPackage` where pandas is not there."""
        try:
            import pandas
        except ImportError:
            raise MissingPackage("pandas") from None
        return pandas.DataFrame.from_records(list(answers), columns=self.fields)


def _decoded(column: AnswerColumn, kind: Column, row: Row) -> Any:
    """Returns a value of an answer."""
    if not column.is_mean:
        return kind.value(row[1 + column.place])
    mean = column.scaled(row)
    return None if mean is None else float(mean)


def _item_types(text: str, streams: Mapping[str, Schema]) -> list[Column]:
    """Returns the types of the values that the engine answers."""
    query = read(text)
    found = resolve(query, {name: schema.names for name, schema in streams.items()}, text)
    kinds: list[Column] = []
    for item in found.items:
        function = item.item.function
        if item.column is None or function is Function.COUNT:
            kinds.append(Int())
            continue
        source = streams[query.sources[item.column.source].stream]
        kind = list(source.columns.values())[item.column.place]
        kinds.append(kind.summed() if function is Function.SUM else kind)
    return kinds


def _numbering(schemas: Iterable[Schema]) -> Callable[[str], int]:
    """Returns what numbers the texts of a query, by the dictionary of the streams' texts."""
    columns = [it for schema in schemas for it in schema.columns.values() if isinstance(it, Text)]

    def numbered(text: str) -> int:
        if any(it.dictionary is not columns[0].dictionary for it in columns):
            raise BadValue(text, "the texts of the streams have several dictionaries")
        return columns[0].encode(text)

    return numbered


def _common_clock(schemas: Sequence[Schema]) -> Clock | None:
    """Returns the clock of the streams. Raises `BadValue` where they have several."""
    for schema in schemas:
        if schema.clock != schemas[0].clock:
            raise BadValue(schema.clock, "the streams of the query have different clocks")
    return schemas[0].clock


def _type(column: Column) -> Type:
    """Returns the type by which the language of queries knows a column."""
    if isinstance(column, Text):
        return TEXT
    if isinstance(column, Bool):
        return BOOL
    if isinstance(column, Decimal):
        return decimal(column.places)
    if isinstance(column, Time):
        return time(_zoned(column.clock))
    return INT


def _zoned(clock: Clock) -> Clock:
    """Returns a clock whose start has a time zone, UTC where it had none."""
    if clock.start.tzinfo is not None:
        return clock
    return Clock(clock.unit, clock.start.replace(tzinfo=timezone.utc))


def _unit(length: timedelta) -> Unit | None:
    """Returns the unit of a length, or None."""
    return next((it for it in Unit if timedelta(milliseconds=it.value) == length), None)


def _fields(names: Sequence[str]) -> list[str]:
    """Returns a name of a field for each name of an answer."""
    count = Counter(_identifier(it.rpartition(".")[2]) for it in names if "(" not in it)
    fields: list[str] = []
    for name in names:
        short = name.rpartition(".")[2]
        lone = "(" not in name and count[_identifier(short)] == 1
        field = base = _identifier(short if lone else name)
        again = 1
        while field in fields or field == "instant":
            again += 1
            field = f"{base}_{again}"
        fields.append(field)
    return fields


def _identifier(name: str) -> str:
    """Returns a name that a field may have, as `sum_amount` for `Sum(amount)`."""
    function, bracket, inner = name.partition("(")
    if bracket:
        name = f"{function.lower()}_{inner}"
    name = re.sub(r"\W+", "_", name, flags=re.ASCII).strip("_") or "column"
    return name + "_" if keyword.iskeyword(name) else name


def _listed(row: Any) -> list[Any] | None:
    try:
        return [*row]
    except TypeError:
        return None


def _part(row: Any, place: int, name: str) -> Any:
    """Returns a part of a row, or None where it has none."""
    try:
        return row[name] if isinstance(row, Mapping) else row[place]
    except (LookupError, TypeError):
        return None
