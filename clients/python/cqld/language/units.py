"""Units of time: how many of a stream's instants a length such as `10 seconds` has."""

from dataclasses import dataclass
from enum import Enum
from fractions import Fraction

from .query import Span


class Unit(Enum):
    """A unit of time. Its value is its length in milliseconds."""

    MILLISECOND = 1
    SECOND = 1_000
    MINUTE = 60_000
    HOUR = 3_600_000
    DAY = 86_400_000
    WEEK = 604_800_000

    def __str__(self) -> str:
        return self.name.lower()


UNITS = tuple(str(unit) for unit in Unit)
"""The units' names."""

_SHORT = {
    "ms": Unit.MILLISECOND,
    "s": Unit.SECOND,
    "sec": Unit.SECOND,
    "min": Unit.MINUTE,
    "h": Unit.HOUR,
    "d": Unit.DAY,
}
_NAMED = {name: unit for unit in Unit for name in (str(unit), f"{unit}s")} | _SHORT


def unit_of(word: str) -> Unit | None:
    """Returns the unit of a word, as `second`, `Seconds` or `s`; None where it is no unit."""
    return _NAMED.get(word.lower())


@dataclass(frozen=True, slots=True)
class Length:
    """A length of time as a text says it; without a unit it counts instants."""

    amount: Fraction
    unit: Unit | None
    span: Span

    def __str__(self) -> str:
        amount = str(self.amount) if self.amount.denominator == 1 else f"{float(self.amount):g}"
        if self.unit is None:
            return amount
        return f"{amount} {self.unit}" + ("" if self.amount == 1 else "s")

    def instants(self, unit: Unit | None) -> Fraction:
        """Returns how many instants of the unit it has, perhaps no whole number.

        Raises `ValueError` where the length has a unit and the instants have none.
        """
        if self.unit is None:
            return self.amount
        if unit is None:
            raise ValueError(f"the instants have no unit, so `{self}` is no number of them")
        return self.amount * self.unit.value / unit.value
