"""Lengths of time of a query, as numbers of instants."""

from .dialect import Measure, Measured
from .draft import Draft
from .query import Operator
from .reader import MAX_INSTANT
from .units import Length, Unit


def rewrite_lengths(draft: Draft) -> None:
    """Puts numbers of instants in place of lengths with a unit. Raises `Fault`."""
    unit = _unit(draft)
    for measured in draft.friendly.lengths:
        _rewrite(draft, measured, unit)


def every(draft: Draft) -> int | None:
    """Returns the instants of Every, if the query has it. Raises `Fault`."""
    length = draft.friendly.every
    if length is None:
        return None
    operator = draft.query.operator
    if operator is not Operator.RSTREAM:
        reason = (
            f"Every goes with Rstream only: {operator.value} answers changes, and those between "
            "two instants of Every would be lost"
        )
        raise draft.fault("F4", length.span, reason)
    count = _instants(draft, length, _unit(draft))
    draft.note(f"cql keeps the answers at multiples of {count:,} instants ({length})")
    return count


def _unit(draft: Draft) -> Unit | None:
    """Returns the unit of the sources' instants, which is to be one."""
    sources = draft.query.sources
    units = [draft.streams[source.stream].unit for source in sources]
    since = [draft.streams[source.stream].since for source in sources]
    for place, source in enumerate(sources):
        if units[place] is not units[0]:
            shown = [f"{unit}s" if unit else "instants without a unit" for unit in units]
            reason = (
                f"{source.stream} counts {shown[place]} and {sources[0].stream} {shown[0]}; they "
                "cannot meet"
            )
            raise draft.fault("F1", source.span, reason)
        if since[place] != since[0]:
            reason = (
                f"{source.stream} counts since {since[place]:%Y-%m-%d %H:%M:%S} and "
                f"{sources[0].stream} since {since[0]:%Y-%m-%d %H:%M:%S}; they cannot meet"
            )
            raise draft.fault("F1", source.span, reason)
    return units[0]


def _rewrite(draft: Draft, measured: Measured, unit: Unit | None) -> None:
    length = measured.length
    count = _instants(draft, length, unit)
    if measured.measure is Measure.RANGE:
        draft.edit(length.span, str(count - 1))
        draft.note(
            f"Range {length} is [Range {count - 1}]: the instant and the {count - 1:,} before it, "
            f"so {count:,} in all, each a {unit} long"
        )
    else:
        draft.edit(length.span, str(count))
        draft.note(f"Slide {length} is Slide {count}, a number of {unit}s")


def _instants(draft: Draft, length: Length, unit: Unit | None) -> int:
    try:
        count = length.instants(unit)
    except ValueError as error:
        reason = f"{error}; declare the stream with one, as `unit second`"
        raise draft.fault("F1", length.span, reason) from None
    if count.denominator != 1:
        reason = f"`{length}` is no whole number of {unit}s, which the instants count"
        raise draft.fault("F1", length.span, reason)
    if not 1 <= count <= MAX_INSTANT:
        reason = f"`{length}` is {count} instants, and 1 to {MAX_INSTANT:,} may be"
        raise draft.fault("Q5", length.span, reason)
    return int(count)
