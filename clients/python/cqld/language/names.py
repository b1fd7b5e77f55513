"""Looks up what the names of a query mean over declared streams.

The tests are the engine's, in its order, each over the whole query. The places are told here too,
where the engine tells a code only.
"""

from collections.abc import Iterable, Mapping, Sequence
from dataclasses import dataclass

from .faults import Fault, nearest
from .hints import hint
from .query import (
    Comparison,
    Condition,
    Item,
    Partition,
    Query,
    Reference,
    Sign,
    Source,
    Span,
    conjuncts,
    references,
)

MAX_WIDTH = 32
"""The most items of a list, and columns of Group By and of Partition By."""

Streams = Mapping[str, Sequence[str]]
"""Declared streams: each name, and the names of its columns in order."""


@dataclass(frozen=True, slots=True)
class Column:
    """A column of a query: the number of its source, and its place among that stream's columns."""

    source: int
    place: int


@dataclass(frozen=True, slots=True)
class JoinKey:
    """An equality that joins a source to one before it."""

    earlier: Column
    column: Column


@dataclass(frozen=True, slots=True)
class ResolvedItem:
    """An item of the list, and the column that it names; none for `Count(*)`."""

    item: Item
    column: Column | None


@dataclass(frozen=True, slots=True)
class ResolvedQuery:
    """A query whose names are looked up.

    `items` has the columns of a `*` one by one. `columns` has each reference of the query that
    stands outside of Partition By, and `partitions` the columns of each source's Partition By.
    `keys` has the join keys of each source; those of the first are none.
    """

    query: Query
    items: tuple[ResolvedItem, ...]
    group: tuple[Column, ...]
    columns: Mapping[Reference, Column]
    partitions: tuple[tuple[Column, ...], ...]
    keys: tuple[tuple[JoinKey, ...], ...]

    def column(self, reference: Reference) -> Column:
        """Returns the column that a reference of the list, Where or Group By names."""
        return self.columns[reference]


def resolve(query: Query, streams: Streams, text: str = "") -> ResolvedQuery:
    """Returns the query with its names looked up in the declared streams.

    Raises `Fault` with the engine's code, Q7 to Q13; `text` is the query's, for the caret.
    """
    return _Resolver(query, streams, text).resolved()


def find(query: Query, streams: Streams, reference: Reference, text: str = "") -> Column:
    """Returns the column that a further reference names among the sources of a query.

    Raises `Fault` with the code Q8 or Q9. The streams are to have those of the query.
    """
    return _Resolver(query, streams, text).found(reference)


class _Resolver:
    def __init__(self, query: Query, streams: Streams, text: str) -> None:
        self._query = query
        self._streams = streams
        self._text = text

    def resolved(self) -> ResolvedQuery:
        query = self._query
        self._test_streams()
        listed = [item.column for item in query.items if item.column is not None]
        general = [*listed, *references(query.condition), *query.group]
        matches = [(reference, self._matches(reference)) for reference in general]
        parts = [
            [(reference, self._matches_in(number, reference)) for reference in _partition(source)]
            for number, source in enumerate(query.sources)
        ]
        everything = [*(pair for part in parts for pair in part), *matches]
        self._test_unknown(everything)
        self._test_ambiguous(everything)
        self._test_aliases()
        columns = {reference: found[0] for reference, found in matches}
        keys = self._keys(columns)
        self._test_keys(keys)
        group = tuple(columns[reference] for reference in query.group)
        self._test_grouped(columns, group)
        self._test_width()
        return ResolvedQuery(
            query,
            self._items(columns),
            group,
            columns,
            tuple(tuple(found[0] for _, found in part) for part in parts),
            keys,
        )

    def _fault(self, code: str, span: Span, reason: str, close: Sequence[str] = ()) -> Fault:
        place = span.start if self._text else None
        found = self._text[span.start : span.end]
        return Fault(code, self._text, place, found=found, nearest=close, reason=reason)

    def _columns_of(self, source: Source) -> Sequence[str]:
        return self._streams[source.stream]

    def _matches_in(self, number: int, reference: Reference) -> list[Column]:
        source = self._query.sources[number]
        if reference.qualifier is not None and reference.qualifier != source.name:
            return []
        names = self._columns_of(source)
        return [Column(number, at) for at, name in enumerate(names) if name == reference.name]

    def _matches(self, reference: Reference) -> list[Column]:
        numbers = range(len(self._query.sources))
        return [column for number in numbers for column in self._matches_in(number, reference)]

    def found(self, reference: Reference) -> Column:
        pair = (reference, self._matches(reference))
        self._test_unknown([pair])
        self._test_ambiguous([pair])
        return pair[1][0]

    # The tests, in the engine's order.

    def _test_streams(self) -> None:
        for source in self._query.sources:
            if source.stream not in self._streams:
                close = nearest(source.stream, self._streams)
                known = ", ".join(self._streams) or "none"
                reason = f"no stream `{source.stream}` is declared"
                if not close:
                    reason += f" (there is {known})"
                raise self._fault("Q7", source.span, reason, close)

    def _test_unknown(self, found: Iterable[tuple[Reference, list[Column]]]) -> None:
        missing = [reference for reference, columns in found if not columns]
        if missing:
            raise self._unknown(min(missing, key=lambda reference: reference.span.start))

    def _unknown(self, reference: Reference) -> Fault:
        sources = self._query.sources
        named = [source for source in sources if source.name == reference.qualifier]
        if reference.qualifier is not None and not named:
            aliased = [source for source in sources if source.stream == reference.qualifier]
            if aliased:
                reason = f"`{aliased[0].stream}` goes by its alias `{aliased[0].name}` here"
                return self._fault("Q8", reference.span, reason)
            close = [
                f"{name}.{reference.name}"
                for name in nearest(reference.qualifier, [source.name for source in sources])
            ]
            reason = f"no source is named `{reference.qualifier}`"
            return self._fault("Q8", reference.span, reason, close)
        among = named or sources
        names = [name for source in among for name in self._columns_of(source)]
        close = nearest(reference.name, names)
        where = ", ".join(dict.fromkeys(source.stream for source in among))
        reason = f"no column `{reference.name}` in {where}"
        if not close:
            told = hint(reference.name) if reference.qualifier is None else ""
            shown = ", ".join(dict.fromkeys(names))
            reason += f"; {told}" if told else f" (there are {shown})"
        elif named:
            close = [f"{named[0].name}.{name}" for name in close]
        return self._fault("Q8", reference.span, reason, close)

    def _test_ambiguous(self, found: Iterable[tuple[Reference, list[Column]]]) -> None:
        many = [(reference, columns) for reference, columns in found if len(columns) > 1]
        if not many:
            return
        reference, columns = min(many, key=lambda pair: pair[0].span.start)
        names = [self._query.sources[column.source].name for column in columns]
        qualified = [f"{name}.{reference.name}" for name in dict.fromkeys(names)]
        reason = f"`{reference}` is a column of {' and of '.join(names)}"
        distinct = qualified if len(qualified) > 1 else []
        raise self._fault("Q9", reference.span, reason, distinct)

    def _test_aliases(self) -> None:
        seen: set[str] = set()
        for source in self._query.sources:
            if source.name in seen:
                reason = f"two sources are named `{source.name}`; give one an alias"
                raise self._fault("Q10", source.span, reason)
            seen.add(source.name)

    def _keys(self, columns: Mapping[Reference, Column]) -> tuple[tuple[JoinKey, ...], ...]:
        keys: list[list[JoinKey]] = [[] for _ in self._query.sources]
        for part in conjuncts(self._query.condition):
            key = _key(part, columns)
            if key is not None:
                keys[key.column.source].append(key)
        return tuple(tuple(some) for some in keys)

    def _test_keys(self, keys: Sequence[Sequence[JoinKey]]) -> None:
        for source, some in zip(self._query.sources[1:], keys[1:]):
            if not some:
                names = [each.name for each in self._query.sources]
                earlier = ", ".join(names[: names.index(source.name)])
                reason = (
                    f"`{source.name}` needs an equality in Where, under And only, of a column of "
                    f"it and one of {earlier}"
                )
                raise self._fault("Q11", source.span, reason)

    def _test_grouped(
        self, columns: Mapping[Reference, Column], group: Sequence[Column]
    ) -> None:
        query = self._query
        if not query.is_grouped:
            return
        if query.is_all:
            reason = "a query with Group By lists its columns and aggregates, not `*`"
            raise self._fault("Q12", query.list_span, reason)
        for item in query.items:
            if item.function is None and item.column is not None:
                if columns[item.column] not in group:
                    reason = f"`{item.column}` is in no Group By; list it there, or aggregate it"
                    raise self._fault("Q12", item.column.span, reason)

    def _test_width(self) -> None:
        query = self._query
        lists: list[tuple[str, Sequence[Span]]] = [
            ("items", [item.span for item in query.items]),
            ("columns of Group By", [column.span for column in query.group]),
        ]
        for source in query.sources:
            by = [column.span for column in _partition(source)]
            lists.append(("columns of Partition By", by))
        for what, spans in lists:
            if len(spans) > MAX_WIDTH:
                reason = f"{len(spans)} {what}, and at most {MAX_WIDTH} may be"
                raise self._fault("Q13", spans[MAX_WIDTH], reason)

    def _items(self, columns: Mapping[Reference, Column]) -> tuple[ResolvedItem, ...]:
        if not self._query.is_all:
            return tuple(
                ResolvedItem(item, None if item.column is None else columns[item.column])
                for item in self._query.items
            )
        several = len(self._query.sources) > 1
        return tuple(
            ResolvedItem(
                Item(None, Reference(source.name if several else None, name)),
                Column(number, place),
            )
            for number, source in enumerate(self._query.sources)
            for place, name in enumerate(self._columns_of(source))
        )


def _partition(source: Source) -> tuple[Reference, ...]:
    return source.window.by if isinstance(source.window, Partition) else ()


def _key(part: Condition, columns: Mapping[Reference, Column]) -> JoinKey | None:
    if not isinstance(part, Comparison) or part.sign is not Sign.EQUAL:
        return None
    if not isinstance(part.left, Reference) or not isinstance(part.right, Reference):
        return None
    first, second = columns[part.left], columns[part.right]
    if first.source == second.source:
        return None
    earlier, later = sorted((first, second), key=lambda column: column.source)
    return JoinKey(earlier, later)
