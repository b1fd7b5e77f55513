"""Turns texts of files and literals of statements into numbers, and answers into texts.

A text of a file is null where it is empty. A literal of a statement may be `null`.
"""

import decimal
import json
from collections.abc import Callable
from datetime import datetime, timezone
from fractions import Fraction

from ..columns import Bool, Clock, Column, Decimal, Int, Text, Time
from ..dictionary import Dictionary
from ..faults import BadValue, UnknownNumber
from ..language import AnswerColumn, Declared, Kind, Type
from ..language.types import TRUTHS, moment_of, unquoted
from ..wire import LAST, VALUE

Parse = Callable[[str], int | None]
"""Returns the number of a text, None of an empty one. Raises `BadValue`."""

_TRUTHS = TRUTHS | {"f": 0, "t": 1, "no": 0, "yes": 1, "0": 0, "1": 1}
_MEAN_PLACES = 6
_CONTEXT = decimal.Context(prec=60)


def column_of(type_: Type, dictionary: Dictionary) -> Column:
    """Returns the package's column of a type."""
    if type_.kind is Kind.TEXT:
        return Text(dictionary)
    if type_.kind is Kind.DECIMAL:
        return Decimal(type_.places)
    if type_.kind is Kind.BOOL:
        return Bool()
    if type_.kind is Kind.TIME and type_.clock is not None:
        return Time(type_.clock)
    return Int()


def parser_of(type_: Type, dictionary: Dictionary) -> Parse:
    """Returns the function that turns texts of a file into numbers of a column."""
    if type_.kind is Kind.TEXT:
        return lambda text: dictionary.number(text) if text else None
    if type_.kind is Kind.DECIMAL:
        return _decimal_parser(type_.places)
    if type_.kind is Kind.BOOL:
        return _truth
    if type_.kind is Kind.TIME:
        parse_instant = instant_parser(type_.clock)
        return lambda text: parse_instant(text) if text else None
    return _whole


def instant_parser(clock: Clock | None) -> Callable[[str], int]:
    """Returns the function that turns texts into instants. It raises `BadValue`.

    A number is an instant itself, and its fraction is dropped. A time is that of the clock.
    """

    def parse(text: str) -> int:
        try:
            instant = int(text)
        except ValueError:
            instant = _instant(text, clock)
        if not 0 <= instant <= LAST:
            hint = "; count from a later time by `since`" if instant > LAST else ""
            raise BadValue(text, f"instant {instant} is none from 0 to {LAST:,}{hint}")
        return instant

    return parse


def _instant(text: str, clock: Clock | None) -> int:
    if not text:
        raise BadValue(text, "an instant is missing")
    try:
        number = decimal.Decimal(text)
        if number.is_finite() and number.adjusted() < 18:
            return int(number.to_integral_value(decimal.ROUND_FLOOR))
    except decimal.InvalidOperation:
        pass
    if clock is None:
        raise BadValue(text, "it is no instant; times need a stream with a unit")
    try:
        return (moment_of(text) - clock.start) // clock.unit
    except ValueError as error:
        raise BadValue(text, f"it {error}") from None


def literal_number(literal: str, type_: Type, dictionary: Dictionary) -> int | None:
    """Returns the number of a literal of a statement for a column. Raises `BadValue`."""
    if literal == "null":
        return None
    quoted = literal.startswith("'")
    if type_.kind is Kind.TEXT:
        if not quoted:
            raise BadValue(literal, "it is no text; write it in quotes")
        return dictionary.number(unquoted(literal))
    if quoted and type_.kind is not Kind.TIME:
        raise BadValue(literal, f"it is a text, and no {type_}")
    return parser_of(type_, dictionary)(unquoted(literal) if quoted else literal)


def literal_instant(literal: str, clock: Clock | None) -> int:
    """Returns the instant of a literal: a number, a time in quotes, or `now`.

    Raises `BadValue`.
    """
    if literal == "now":
        if clock is None:
            raise BadValue(literal, "instants without a unit have no `now`")
        return clock.instant(datetime.now(timezone.utc))
    text = unquoted(literal) if literal.startswith("'") else literal
    return instant_parser(clock)(text)


def _whole(text: str) -> int | None:
    if not text:
        return None
    try:
        number = int(text)
    except ValueError:
        raise BadValue(text, "it is no whole number") from None
    if abs(number) > VALUE:
        raise BadValue(text, f"it is over {VALUE:,}, signed")
    return number


def _decimal_parser(places: int) -> Parse:
    column = Decimal(places)

    def parse(text: str) -> int | None:
        if not text:
            return None
        whole, _, part = text.removeprefix("-").partition(".")
        if len(part) <= places and len(whole) < 13 and whole.isdecimal() and text.isascii():
            if not part or part.isdecimal():
                number = int(whole + part.ljust(places, "0"))
                if number <= VALUE:
                    return -number if text[0] == "-" else number
        return precisely(text)

    def precisely(text: str) -> int:
        try:
            number = decimal.Decimal(text)
        except decimal.InvalidOperation:
            raise BadValue(text, "it is no decimal number") from None
        try:
            return column.encode(number)
        except BadValue as error:
            raise BadValue(text, error.reason) from None

    return parse


def _truth(text: str) -> int | None:
    if not text:
        return None
    truth = _TRUTHS.get(text.strip().lower())
    if truth is None:
        raise BadValue(text, "it is no bool; write true or false")
    return truth


class Shower:
    """Turns the numbers of an answer into what people read, or into JSON."""

    def __init__(self, dictionary: Dictionary) -> None:
        self._dictionary = dictionary

    def text(self, column: AnswerColumn, number: int | Fraction | None) -> str:
        """Returns the text of a number of a column; that of null is empty."""
        if number is None:
            return ""
        type_ = column.type
        if column.is_mean:
            return mean_text(Fraction(number), type_.places)
        whole = int(number)
        if type_.kind is Kind.TEXT:
            try:
                return self._dictionary.text(whole)
            except UnknownNumber:
                return f"#{whole}"
        if type_.kind is Kind.BOOL:
            return {0: "false", 1: "true"}.get(whole, str(whole))
        if type_.kind is Kind.TIME:
            return time_text(whole, type_.clock)
        if type_.kind is Kind.DECIMAL and type_.places:
            return str(decimal.Decimal(whole).scaleb(-type_.places, _CONTEXT))
        return str(whole)

    def json(self, column: AnswerColumn, number: int | Fraction | None) -> str:
        """Returns the JSON of a number of a column."""
        if number is None:
            return "null"
        text = self.text(column, number)
        if column.type.kind in (Kind.TEXT, Kind.TIME) and not column.is_mean:
            is_number = column.type.kind is Kind.TIME and column.type.clock is None
            return text if is_number else json.dumps(text, ensure_ascii=False)
        return text


def mean_text(mean: Fraction, places: int) -> str:
    """Returns a mean of numbers with so many places, with at most six places more, rounded."""
    digits = places + _MEAN_PLACES
    scaled = round(mean * 10**_MEAN_PLACES)
    text = str(decimal.Decimal(scaled).scaleb(-digits, _CONTEXT)) if digits else str(scaled)
    text = f"{decimal.Decimal(text):f}"
    whole, _, part = text.partition(".")
    part = part.rstrip("0").ljust(places, "0")
    return f"{whole}.{part}" if part else whole


def time_text(instant: int, clock: Clock | None) -> str:
    """Returns the time of an instant, as `2026-11-27 14:32:50`; its number without a clock."""
    if clock is None:
        return str(instant)
    try:
        moment = clock.time(instant)
    except BadValue:
        return str(instant)
    text = moment.strftime("%Y-%m-%d %H:%M:%S")
    return f"{text}.{moment.microsecond // 1000:03d}" if clock.unit.microseconds else text


def declared_parsers(
    declared: Declared, dictionary: Dictionary, null: str | None
) -> dict[str, Parse]:
    """Returns the functions that turn texts of a file into numbers, for each column.

    The text `null` is null too, if it is given.
    """
    parsers = {name: parser_of(type_, dictionary) for name, type_ in declared.columns.items()}
    if null is None:
        return parsers
    return {name: _or_null(parse, null) for name, parse in parsers.items()}


def _or_null(parse: Parse, null: str) -> Parse:
    return lambda text: None if text == null else parse(text)
