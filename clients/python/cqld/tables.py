"""Rows of a CSV file for a stream with types."""

from __future__ import annotations

import csv
from collections.abc import Iterable, Iterator, Mapping, Sequence
from typing import Any

from .columns import Column, Text
from .faults import BadValue
from .schema import Instant, Schema
from .wire import Row

_MORE = "\0more"  # the key of fields past the last column


class Record(dict[str, "str | None"]):
    """Is a line of a CSV file: its fields by the names of the first line. `line` is its number."""

    line: int = 0


def records(lines: Iterable[str], delimiter: str = ",") -> Iterator[Record]:
    """Yields the lines of a CSV file after its first one, which has the names of the columns.

    A short line has None in place of the fields that it lacks. Raises `BadValue` where the text is
    no CSV.
    """
    reader = csv.DictReader(lines, restkey=_MORE, delimiter=delimiter, strict=True)
    try:
        for fields in reader:
            record = Record(fields)
            record.line = reader.line_num
            yield record
    except csv.Error as error:
        raise BadValue(f"line {reader.line_num}", str(error)) from error


class TableSchema:
    """Turns records into the numbers of a stream's rows.

    An empty field is null. The columns of the file that the stream does not have are passed over.
    """

    def __init__(self, schema: Schema, instant: str) -> None:
        """Takes the types of the stream, and the name of the column with the instant."""
        self.schema = schema
        self._instant = instant

    @property
    def names(self) -> tuple[str, ...]:
        """Returns the names of the stream's columns."""
        return self.schema.names

    def prepare(self, rows: Sequence[Any]) -> None:
        """Prepares to encode records, so that a dictionary is asked once for all of them."""
        for name, column in self.schema.columns.items():
            if isinstance(column, Text):
                column.prepare((row.get(name) or "").strip() or None for row in rows)

    def encode(self, row: Any) -> Row:
        """Returns the numbers of a record.

        Raises `BadValue` with its `position`, at a field that is missing, at fields past the last
        column, and at a text that is no value of its column. Raises `DictionaryFault`.
        """
        if _MORE in row:
            raise BadValue(row[_MORE], f"line {row.line} has more fields than the first line")
        numbers: Row = []
        try:
            text = _field(row, self._instant)
            if text == "":
                raise BadValue(text, "an instant is missing")
            numbers.append(self.schema.instant(self._parsed(text)))
            for name, column in self.schema.columns.items():
                numbers.append(_number(column, _field(row, name)))
        except BadValue as error:
            error.position = len(numbers)
            raise
        return numbers

    def _parsed(self, text: str) -> Instant:
        """Returns an instant: a whole number, or a time where the stream has a clock."""
        if self.schema.clock is None or text.isdecimal():
            if not (text.isascii() and text.isdecimal()):
                raise BadValue(text, "this text is no instant")
            return int(text[:30])
        return self.schema.clock.parse(text)


def _field(row: Mapping[str, str | None], name: str) -> str:
    if name not in row:
        raise BadValue(name, "the file has no column of this name")
    text = row[name]
    if text is None:
        raise BadValue(None, "the line is too short")
    return text.strip()


def _number(column: Column, text: str) -> int | None:
    return None if text == "" else column.encode(column.parse(text))
