"""What the numbers of a column mean, as far as the rewriting of a query needs to know."""

from collections.abc import Callable, Mapping
from dataclasses import dataclass
from datetime import datetime, timedelta, timezone
from enum import Enum
from fractions import Fraction

from ..columns import EPOCH, Clock
from .units import Unit

Numbered = Callable[[str], int]
"""Returns the number of a text, and gives it one where it has none."""


class Kind(Enum):
    """What a column holds."""

    INT = "int"
    DECIMAL = "decimal"
    TEXT = "text"
    TIME = "time"
    BOOL = "bool"


@dataclass(frozen=True, slots=True)
class Type:
    """A column's type. `places` are the decimal places of a decimal, `clock` that of a time."""

    kind: Kind
    places: int = 0
    clock: Clock | None = None

    def __str__(self) -> str:
        return f"decimal({self.places})" if self.kind is Kind.DECIMAL else str(self.kind.value)

    @property
    def scale(self) -> int:
        """How many of the engine's units are 1: 100 for a decimal(2)."""
        return int(10**self.places)

    @property
    def is_ordered(self) -> bool:
        """Whether its values have an order that the engine keeps."""
        return self.kind is not Kind.TEXT

    @property
    def is_summed(self) -> bool:
        """Whether a sum of its values means something."""
        return self.kind in (Kind.INT, Kind.DECIMAL, Kind.BOOL)

    def number(self, literal: str, numbered: Numbered) -> Fraction:
        """Returns the number by which the engine knows a literal, perhaps no whole one.

        A literal is a number, or a text in single quotes. Raises `ValueError` that says why not.
        """
        quoted = literal.startswith("'")
        if self.kind is Kind.TEXT:
            if not quoted:
                raise ValueError(f"is no text; write '{literal}' in quotes")
            return Fraction(numbered(unquoted(literal)))
        if self.kind is Kind.TIME and quoted:
            return instants_of(unquoted(literal), self.clock)
        truth = TRUTHS.get(literal.lower())
        if quoted or (truth is None) is (self.kind is Kind.BOOL):
            raise ValueError(f"is no {self}")
        return Fraction(literal if truth is None else truth) * self.scale


INT = Type(Kind.INT)
"""Whole numbers."""
TEXT = Type(Kind.TEXT)
"""Texts, by their numbers in a dictionary."""
BOOL = Type(Kind.BOOL)
"""False and true, as 0 and 1."""
TRUTHS = {"false": 0, "true": 1}
"""The numbers of false and true."""


def decimal(places: int) -> Type:
    """Returns the type of numbers with so many decimal places."""
    return Type(Kind.DECIMAL, places)


def time(clock: Clock | None) -> Type:
    """Returns the type of times as instants of a clock."""
    return Type(Kind.TIME, 0, clock)


@dataclass(frozen=True, slots=True)
class Declared:
    """A declared stream: its columns and their types.

    An instant is so many of the `unit` after `since`; without a unit it is a plain number.
    """

    columns: Mapping[str, Type]
    unit: Unit | None = None
    since: datetime = EPOCH

    @property
    def clock(self) -> Clock | None:
        """The clock of its instants, if they have a unit."""
        return clock(self.unit, self.since)


def clock(unit: Unit | None, since: datetime = EPOCH) -> Clock | None:
    """Returns the clock of so many units after a time; none without a unit."""
    return None if unit is None else Clock(timedelta(milliseconds=unit.value), since)


def unquoted(literal: str) -> str:
    """Returns the text of a literal in single quotes; a doubled quote in it is one."""
    return literal[1:-1].replace("''", "'")


def moment_of(text: str) -> datetime:
    """Returns a time, as `2026-11-27 14:32:50`, that is UTC where it has no offset.

    Raises `ValueError` where the text is no time.
    """
    try:
        moment = datetime.fromisoformat(text.strip())
    except ValueError:
        raise ValueError("is no time; write one as 2026-11-27 14:32:50") from None
    return moment if moment.tzinfo is not None else moment.replace(tzinfo=timezone.utc)


def instants_of(text: str, clock: Clock | None) -> Fraction:
    """Returns how many of a clock's units lie between its start and a time, perhaps no whole one.

    Raises `ValueError` where the text is no time, or where there is no clock.
    """
    if clock is None:
        raise ValueError("is a time, and the instants have no unit")
    passed = moment_of(text) - clock.start
    tick = timedelta(microseconds=1)
    return Fraction(passed // tick, clock.unit // tick)
