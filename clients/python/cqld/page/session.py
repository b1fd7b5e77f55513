"""Reads from statements of the shell what the page is told."""
from __future__ import annotations

from collections.abc import Callable, Sequence
from pathlib import Path

from ..dictionary import Dictionary
from ..language import Declared, Fault, Kind, Rewritten, SumOutOfRange, rewrite
from ..shell.pieces import Pieces
from ..shell.reading import read_statement
from ..shell.statements import CreateQuery, CreateStream
from ..shell.values import Shower
from .errors import BadSession
from .known import Cells, Column, Known, QueryShape, StreamShape, Values


def read_session(path: str, dictionary: Dictionary, taken: Sequence[str] = ()) -> Known:
    """Returns what the statements `create stream` and `create query` of a file say.

    Other statements are passed over: the shell runs them. Raises `BadSession`.
    """
    try:
        text = Path(path).read_text("utf-8")
    except (OSError, UnicodeDecodeError) as error:
        raise BadSession(path, 0, getattr(error, "strerror", None) or str(error)) from error
    declared: dict[str, Declared] = {}
    queries: dict[str, QueryShape] = {}
    pieces = Pieces()
    for piece in [*pieces.feed(text), *pieces.finish()]:
        try:
            statement = read_statement(piece.text)
            if isinstance(statement, CreateStream):
                declared[statement.name] = statement.declared
            elif isinstance(statement, CreateQuery):
                rewritten = rewrite(statement.text, declared, dictionary.number)
                queries[statement.name] = _shape(rewritten, declared, dictionary)
        except Fault as fault:
            raise BadSession(path, piece.line_at(fault.place or 0), fault.shown()) from fault
    streams = {name: StreamShape(tuple(stream.columns), stream.clock)
               for name, stream in declared.items()}
    return Known(streams, queries, tuple(taken))


def _shape(rewritten: Rewritten, declared: dict[str, Declared],
           dictionary: Dictionary) -> QueryShape:
    columns = tuple(Column(column.name, column.is_mean or column.type.kind in
                           (Kind.INT, Kind.DECIMAL)) for column in rewritten.columns)
    clock = declared[rewritten.streams[0]].clock
    return QueryShape(" ".join(rewritten.source.split()), columns, clock,
                      _cells(rewritten, Shower(dictionary)))


def _cells(rewritten: Rewritten, shower: Shower) -> Callable[[Values], Cells | None]:
    def cells(answer: Values) -> Cells | None:
        try:
            if not rewritten.keeps(list(answer)):
                return None
            numbers = rewritten.values(list(answer))
        except SumOutOfRange:
            return ["overflow" for _ in rewritten.columns]
        except IndexError:
            return [None if value is None else str(value)
                    for value in answer[1:1 + len(rewritten.columns)]]
        return [None if number is None else shower.text(column, number)
                for column, number in zip(rewritten.columns, numbers)]
    return cells
