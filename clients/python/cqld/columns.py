"""Types of columns: what a program has on its side, and the whole number that the engine keeps."""

from __future__ import annotations

import decimal
import re
from abc import ABC, abstractmethod
from collections.abc import Iterable
from dataclasses import dataclass
from datetime import datetime, timedelta, timezone
from typing import TYPE_CHECKING, Any

from .faults import BadValue
from .wire import LAST, VALUE, Value

if TYPE_CHECKING:
    from .dictionary import Dictionary

EPOCH = datetime(1970, 1, 1, tzinfo=timezone.utc)

_TRUTHS = {"true": True, "1": True, "false": False, "0": False}
_WHOLE = re.compile(r"[+-]?[0-9]{1,30}")
_POINTED = re.compile(r"[+-]?([0-9]{1,30}(\.[0-9]{0,30})?|\.[0-9]{1,30})")
_TICK = timedelta(microseconds=1)
_EXACT = decimal.Context(prec=60, Emin=-200, Emax=200)


@dataclass(frozen=True)
class Clock:
    """Says what an instant of a stream is: so many units since a start.

    An instant is the whole unit in which a time lies: at a unit of a second, 12:00:00.7 is
    12:00:00. A start with a time zone takes times with a zone, and gives back UTC. A start without
    one takes times without one.
    """

    unit: timedelta = timedelta(seconds=1)
    start: datetime = EPOCH

    def __post_init__(self) -> None:
        if self.unit < _TICK:
            raise BadValue(self.unit, "a unit of a clock is at least a microsecond")

    @classmethod
    def seconds(cls, start: datetime = EPOCH) -> "Clock":
        """Returns a clock of seconds since its start."""
        return cls(timedelta(seconds=1), start)

    @classmethod
    def milliseconds(cls, start: datetime) -> "Clock":
        """Returns a clock of milliseconds since its start. It goes on for 34 years."""
        return cls(timedelta(milliseconds=1), start)

    def instant(self, time: datetime | int) -> int:
        """Returns the instant in which a time lies. A whole number is an instant already.

        Raises `BadValue` at anything else, at a time outside 0 to 1,099,511,627,776 units from the
        start, and at a time with a zone where the start has none, or the other way round.
        """
        if isinstance(time, datetime):
            try:
                instant = (time - self.start) // self.unit
            except TypeError:
                zone = "no time zone" if time.tzinfo is None else "a time zone"
                raise BadValue(time, f"it has {zone}, unlike the start of the clock") from None
            if not isinstance(instant, int):  # pandas.NaT is a datetime too
                raise BadValue(time, "it is no time")
        else:
            instant = _whole(time)
        if not 0 <= instant <= LAST:
            reason = f"its instant {instant} is none from 0 to {LAST:,}"
            raise BadValue(time, reason, "E9 InstantRange")
        return instant

    def parse(self, text: str) -> datetime:
        """Returns the time of a text as `2026-11-27 14:32:50`. Raises `BadValue`.

        Without an offset it is UTC, unless the start of the clock has no time zone either.
        """
        try:
            time = datetime.fromisoformat(text)
        except ValueError:
            raise BadValue(text, "this text is no time; write 2026-11-27 14:32:50") from None
        if time.tzinfo is None and self.start.tzinfo is not None:
            return time.replace(tzinfo=timezone.utc)
        return time

    def time(self, instant: int) -> datetime:
        """Returns the time at which an instant begins. Raises `BadValue` past the year 9999."""
        try:
            time = self.start + instant * self.unit
        except OverflowError:
            raise BadValue(instant, "this instant is past the years of datetime") from None
        return time if time.tzinfo is None else time.astimezone(timezone.utc)


class Column(ABC):
    """Is a type of a column. None is null in each."""

    @abstractmethod
    def encode(self, value: Any) -> int:
        """Returns the number of a value that is not None. Raises `BadValue`."""

    @abstractmethod
    def decode(self, number: int) -> Any:
        """Returns the value of a number. Raises `BadValue`, or `DictionaryFault` of a text."""

    @abstractmethod
    def parse(self, text: str) -> Any:
        """Returns the value that a text of a file means. Raises `BadValue`."""

    def summed(self) -> "Column":
        """Returns the type of a sum of such values."""
        return Int()

    def prepare(self, values: Iterable[Any]) -> None:
        """Prepares to encode the values, so that a dictionary is asked once for all."""

    def prepare_numbers(self, numbers: Iterable[Value]) -> None:
        """Prepares to decode the numbers, so that a dictionary is asked once for all."""

    def number(self, value: Any) -> Value:
        """Returns the number of a value, null of None. Raises `BadValue`."""
        return None if value is None else self.encode(value)

    def value(self, number: Value) -> Any:
        """Returns the value of a number, None of null. Raises as `decode`."""
        return None if number is None else self.decode(number)


@dataclass(frozen=True)
class Int(Column):
    """Is a column of whole numbers, from -1,099,511,627,775 to 1,099,511,627,775."""

    def encode(self, value: Any) -> int:
        """Returns the number itself."""
        return _in_range(_whole(value), value)

    def parse(self, text: str) -> int:
        """Returns a whole number in decimal digits."""
        if not _WHOLE.fullmatch(text):
            raise BadValue(text, "this text is no whole number")
        return int(text)

    def decode(self, number: int) -> int:
        """Returns the number itself."""
        return number


@dataclass(frozen=True)
class Bool(Column):
    """Is a column of False and True, which are 0 and 1."""

    def encode(self, value: Any) -> int:
        """Returns 0 or 1."""
        value = _plain(value)
        if not isinstance(value, bool):
            raise BadValue(value, f"{_kind(value)} is no bool")
        return int(value)

    def parse(self, text: str) -> bool:
        """Returns the bool of `true`, `false`, `1` or `0`, in any case of letters."""
        found = _TRUTHS.get(text.lower())
        if found is None:
            raise BadValue(text, "this text is no bool; write true or false")
        return found

    def decode(self, number: int) -> bool:
        """Returns False or True."""
        if number not in (0, 1):
            raise BadValue(number, "it is no number of a bool")
        return bool(number)


@dataclass(frozen=True)
class Decimal(Column):
    """Is a column of numbers with at most `places` decimal places, as prices. They stay exact."""

    places: int

    def __post_init__(self) -> None:
        if not 0 <= self.places <= 12:
            raise BadValue(self.places, "a decimal has 0 to 12 places")

    def encode(self, value: Any) -> int:
        """Returns the number of a decimal, a whole number, or a float that is shown as one.

        Nothing is rounded: a value with more places is a `BadValue`.
        """
        value = _plain(value)
        if isinstance(value, bool) or not isinstance(value, (int, float, decimal.Decimal)):
            raise BadValue(value, f"{_kind(value)} is no decimal")
        exact = decimal.Decimal(repr(value)) if isinstance(value, float) else decimal.Decimal(value)
        if not exact.is_finite():
            raise BadValue(value, "it is no number")
        if exact.adjusted() > 12:
            reason = f"it is over {VALUE:,} units of {self.places} decimal places"
            raise BadValue(value, reason, "E8 ValueRange")
        scaled = exact.scaleb(self.places, _EXACT)
        whole = int(scaled)
        if whole != scaled:
            raise BadValue(value, f"it has more than {self.places} decimal places")
        return _in_range(whole, value)

    def parse(self, text: str) -> decimal.Decimal:
        """Returns a number in decimal digits, perhaps with a point."""
        if not _POINTED.fullmatch(text):
            raise BadValue(text, "this text is no decimal")
        return decimal.Decimal(text)

    def decode(self, number: int) -> decimal.Decimal:
        """Returns the decimal."""
        return decimal.Decimal(number).scaleb(-self.places, _EXACT)

    def summed(self) -> Column:
        """Returns the same type: a sum of prices is one."""
        return self


@dataclass(frozen=True)
class Text(Column):
    """Is a column of texts, which the engine knows by their numbers in a dictionary.

    The order of the numbers is not that of the texts: compare texts by = and <> only.
    """

    dictionary: "Dictionary"

    def encode(self, value: Any) -> int:
        """Returns the number of a text. Raises `BadValue`, or `DictionaryFault`."""
        if not isinstance(value, str):
            raise BadValue(value, f"{_kind(value)} is no text")
        return _in_range(self.dictionary.number(value), value)

    def parse(self, text: str) -> str:
        """Returns the text itself."""
        return text

    def decode(self, number: int) -> str:
        """Returns the text. Raises `UnknownNumber` or another `DictionaryFault`."""
        return self.dictionary.text(number)

    def prepare(self, values: Iterable[Any]) -> None:
        """Asks the dictionary for all texts at once."""
        self.dictionary.numbers([it for it in values if isinstance(it, str)])

    def prepare_numbers(self, numbers: Iterable[Value]) -> None:
        """Asks the dictionary for all numbers at once."""
        self.dictionary.texts([it for it in numbers if it is not None])


@dataclass(frozen=True)
class Time(Column):
    """Is a column of times, as instants of a clock."""

    clock: Clock = Clock()

    def encode(self, value: Any) -> int:
        """Returns the instant of a datetime."""
        if not isinstance(value, datetime):
            raise BadValue(value, f"{_kind(value)} is no datetime")
        return _in_range(self.clock.instant(value), value)

    def parse(self, text: str) -> datetime:
        """Returns a time as `2026-11-27 14:32:50`, with an offset or in UTC."""
        return self.clock.parse(text)

    def decode(self, number: int) -> datetime:
        """Returns the time at which the instant begins."""
        return self.clock.time(number)


def _plain(value: Any) -> Any:
    """Returns the value of Python that a scalar of numpy has."""
    if type(value).__module__ == "numpy" and hasattr(value, "item"):
        return value.item()
    return value


def _whole(value: Any) -> int:
    """Returns a whole number. Raises `BadValue` at anything else."""
    value = _plain(value)
    if isinstance(value, bool) or not isinstance(value, int):
        raise BadValue(value, f"{_kind(value)} is no whole number")
    return int(value)


def _in_range(number: int, value: Any) -> int:
    """Returns a number that a stream may hold. Raises `BadValue`."""
    if not -VALUE <= number <= VALUE:
        raise BadValue(value, f"its number {number} is over {VALUE:,}, signed", "E8 ValueRange")
    return number


def _kind(value: object | None) -> str:
    return type(value).__name__
