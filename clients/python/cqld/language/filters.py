"""The condition of Having, as a filter on the answers of the engine."""

from .answers import AnswerColumn
from .draft import Draft
from .faults import Fault
from .having import Filter, Joined, Negated, Reading, Test
from .listed import Listed
from .names import Column, find
from .query import And, Comparison, Condition, Item, Literal, Not, Operand, Reference
from .query import Listed as ListedItem
from .types import Type


class Filters:
    """Makes filters over the columns of a list, to which it may add."""

    def __init__(self, draft: Draft, listed: Listed) -> None:
        self._draft = draft
        self._listed = listed

    def having(self) -> Filter | None:
        """Returns the filter of the query's Having, if it has one. Raises `Fault`."""
        condition = self._draft.friendly.having
        if condition is None:
            return None
        found = self._filter(condition)
        cut = self._draft.friendly.cuts[0]
        words = self._draft.text[cut.start : cut.end].split()[1:]
        self._draft.note(f"cql keeps the answers at which this is true: {' '.join(words)}")
        return found

    def _filter(self, condition: Condition) -> Filter:
        if isinstance(condition, Not):
            return Negated(self._filter(condition.part))
        if not isinstance(condition, Comparison):
            parts = tuple(self._filter(part) for part in condition.parts)
            return Joined(parts, decisive=not isinstance(condition, And))
        left, right = self._answer(condition.left), self._answer(condition.right)
        types = [None if side is None else side.type for side in (left, right)]
        self._draft.comparisons.check(condition, types[0], types[1], scaled=True)
        return Test(
            self._reading(condition.left, left, types[1]),
            condition.sign,
            self._reading(condition.right, right, types[0]),
        )

    def _reading(
        self, operand: Operand, column: AnswerColumn | None, other: Type | None
    ) -> Reading:
        if column is not None:
            return column.scaled
        assert isinstance(operand, Literal)
        value = self._draft.comparisons.scaled(operand, other)
        return lambda row: value

    def _answer(self, operand: Operand) -> AnswerColumn | None:
        """Returns the column of the answers that an operand means; None of a literal."""
        if isinstance(operand, Literal):
            return None
        if isinstance(operand, Reference):
            return self._aliased(operand) or self._plain(operand)
        return self._aggregate(operand)

    def _aliased(self, reference: Reference) -> AnswerColumn | None:
        if reference.qualifier is not None:
            return None
        aliased = [
            column
            for column, found in zip(self._listed.columns, self._listed.items)
            if found.item.alias == reference.name
        ]
        if len(aliased) > 1:
            reason = f"{len(aliased)} items of the list are named `{reference.name}`"
            raise self._draft.fault("F3", reference.span, reason)
        return aliased[0] if aliased else None

    def _plain(self, reference: Reference) -> AnswerColumn:
        column = self._find(reference)
        item = Item(None, reference)
        answer = self._listed.find(item, column)
        if answer is not None:
            return answer
        if self._draft.query.is_grouped and column not in self._draft.resolved.group:
            reason = f"`{reference}` is in no Group By, so an answer has many values of it"
            raise self._draft.fault("F3", reference.span, reason)
        return self._listed.add(item, column, reference.span)

    def _aggregate(self, operand: ListedItem) -> AnswerColumn:
        item = operand.item
        column = None if item.column is None else self._find(item.column)
        answer = self._listed.find(item, column)
        if answer is not None:
            return answer
        if not self._draft.query.is_grouped:
            reason = "the query has no Group By and no aggregate, so there is nothing to aggregate"
            raise self._draft.fault("F3", operand.span, reason)
        return self._listed.add(item, column, operand.span)

    def _find(self, reference: Reference) -> Column:
        draft = self._draft
        aliases = [item.alias for item in draft.query.items if item.alias is not None]
        try:
            return find(draft.query, draft.names, reference, draft.text)
        except Fault as fault:
            raise fault.with_names(reference.name, aliases) from None
