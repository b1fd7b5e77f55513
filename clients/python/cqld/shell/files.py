"""Reads rows of a CSV file, or of JSON lines, as texts by the names of columns.

A row that cannot be read is a `BadRecord` with its line, and the rows after it are read on.
"""

import csv
import json
import os
import stat
import sys
from collections.abc import Iterator, Sequence
from dataclasses import dataclass
from pathlib import Path
from typing import BinaryIO

from ..language import nearest
from .errors import ShellError

JSON_SUFFIXES = (".jsonl", ".ndjson")
"""What the names of files end in that have a JSON object a line."""


@dataclass(frozen=True, slots=True)
class Record:
    """A row: the line on which it begins, and its fields in the order that was asked for."""

    line: int
    fields: list[str]


@dataclass(frozen=True, slots=True)
class BadRecord:
    """A row that cannot be read, and why."""

    line: int
    reason: str


class RowFile:
    """A file of rows. Use it in a `with`.

    `size` is its size in bytes, None of a pipe, and `read` how many of them were read.
    """

    def __init__(self, path: str, delimiter: str | None = None) -> None:
        """Opens the file; `-` is standard input. Raises `ShellError`."""
        self.path = "<stdin>" if path == "-" else path
        self.read = 0
        self.size: int | None = None
        self._is_json = path.endswith(JSON_SUFFIXES)
        self._delimiter = delimiter or ("\t" if path.endswith(".tsv") else ",")
        try:
            self._file: BinaryIO = _standard_input() if path == "-" else _opened(path)
            status = os.fstat(self._file.fileno())
        except (OSError, ValueError) as error:
            reason = getattr(error, "strerror", None) or str(error)
            raise ShellError(f"{self.path}: {reason}{_alike(path)}") from None
        if stat.S_ISREG(status.st_mode):
            self.size = status.st_size

    def __enter__(self) -> "RowFile":
        return self

    def __exit__(self, *_: object) -> None:
        self._file.close()

    def rewind(self) -> None:
        """Goes back to the start of a file with a size."""
        self._file.seek(0)
        self.read = 0

    def records(self, names: Sequence[str], first: int = 1) -> Iterator[Record | BadRecord]:
        """Yields the rows that begin at line `first` or later, with the fields of these names.

        Raises `ShellError` where the header lacks a name, or a read fails.
        """
        records = self._json(names) if self._is_json else self._csv(names)
        try:
            yield from (
                records if first <= 2 else (record for record in records if record.line >= first)
            )
        except OSError as error:
            raise ShellError(f"{self.path}: {error.strerror}") from None

    def _lines(self) -> Iterator[str]:
        first = True
        for line in self._file:
            self.read += len(line)
            text = line.decode("utf-8", "surrogateescape")
            yield text.removeprefix("\ufeff") if first else text
            first = False

    def _csv(self, names: Sequence[str]) -> Iterator[Record | BadRecord]:
        reader = csv.reader(self._lines(), delimiter=self._delimiter, strict=True)
        try:
            header = [name.strip() for name in next(reader, [])]
        except csv.Error as error:
            raise ShellError(f"{self.path}:1: the header cannot be read: {error}") from None
        places = [self._place(name, header) for name in names]
        width = len(header)
        while True:
            line = reader.line_num + 1
            try:
                row = next(reader)
            except StopIteration:
                return
            except csv.Error as error:
                yield BadRecord(line, str(error))
                continue
            if len(row) == width:
                yield Record(line, [row[place] for place in places])
            elif row:
                fields = "1 field" if len(row) == 1 else f"{len(row)} fields"
                yield BadRecord(line, f"{fields}, and the header has {width}")

    def _place(self, name: str, header: Sequence[str]) -> int:
        if name in header:
            return header.index(name)
        alike = [place for place, other in enumerate(header) if other.lower() == name.lower()]
        if len(alike) == 1:
            return alike[0]
        close = nearest(name, header, 1)
        told = f"; did you mean `{close[0]}`?" if close else f" (it has {', '.join(header)})"
        raise ShellError(f"{self.path}:1: the header has no column `{name}`{told}")

    def _json(self, names: Sequence[str]) -> Iterator[Record | BadRecord]:
        for line, text in enumerate(self._lines(), 1):
            if not text.strip():
                continue
            try:
                value = json.loads(text, parse_int=str, parse_float=str)
            except (ValueError, RecursionError) as error:
                yield BadRecord(line, f"it is no JSON: {error}")
                continue
            if not isinstance(value, dict):
                yield BadRecord(line, "it is no JSON object")
                continue
            fields = [_field(value.get(name)) for name in names]
            wrong = [name for name, field in zip(names, fields) if field is None]
            if wrong:
                yield BadRecord(line, f"`{wrong[0]}` is a list or an object")
            else:
                yield Record(line, [field or "" for field in fields])


def _alike(path: str) -> str:
    """Returns the name of a file that is there and is most like one that is not."""
    missing = Path(path).expanduser()
    if path == "-" or missing.exists() or not missing.parent.is_dir():
        return ""
    close = nearest(missing.name, [each.name for each in missing.parent.iterdir()], 1)
    return f"; did you mean `{close[0]}`?" if close else ""


def _opened(path: str) -> BinaryIO:
    return Path(path).expanduser().open("rb")


def _standard_input() -> BinaryIO:
    return os.fdopen(os.dup(sys.stdin.fileno()), "rb")


def _field(value: object) -> str | None:
    """Returns the text of a JSON value, None of a list or an object."""
    if value is None:
        return ""
    if isinstance(value, bool):
        return "true" if value else "false"
    return value if isinstance(value, str) else None
