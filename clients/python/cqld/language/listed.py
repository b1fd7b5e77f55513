"""The list of a query: what the engine is asked for, and the columns of the answers."""

from .answers import AnswerColumn
from .draft import Draft
from .names import Column, ResolvedItem
from .query import Function, Item, Operator, Span
from .types import INT, Kind, Type


class Listed:
    """The list as the engine has it: the query's items, then those that the client adds."""

    def __init__(self, draft: Draft) -> None:
        """Rewrites each Avg. Raises `Fault` for what cannot be aggregated."""
        self._draft = draft
        self._added: list[ResolvedItem] = []
        self.items = draft.resolved.items
        self.columns = tuple(
            self._column(found, place) for place, found in enumerate(self.items)
        )

    def find(self, item: Item, column: Column | None) -> AnswerColumn | None:
        """Returns the column of an item of the query's list; None where it has none such."""
        for answer, found in zip(self.columns, self.items):
            if found.item.function is item.function and found.column == column:
                return answer
        return None

    def add(self, item: Item, column: Column | None, span: Span) -> AnswerColumn:
        """Returns a column that the engine is to answer for the client only.

        Raises `Fault` where it would change which rows are answered.
        """
        query = self._draft.query
        if query.operator is not Operator.RSTREAM or query.distinct:
            word = "Distinct" if query.distinct else query.operator.value
            reason = (
                f"it is not in the list, and with {word} one item more would change which rows "
                "are answered; add it to the list"
            )
            raise self._draft.fault("F3", span, reason)
        found = ResolvedItem(item, column)
        self._check(found)
        if item.function is Function.AVG and column is not None:
            place = self._place_of(Item(Function.SUM, item.column), column)
            answer = self._mean(found, place, item.expression())
        else:
            place = self._place_of(item, column)
            answer = AnswerColumn(item.expression(), self._type(found), place)
        self._draft.note(f"{item.expression()} is asked for Having and not shown")
        return answer

    def finish(self) -> None:
        """Adds to the text what the client adds to the list."""
        if self._added:
            end = self._draft.query.list_span.end
            text = "".join(f", {found.item.expression()}" for found in self._added)
            self._draft.edit(Span(end, end), text)

    def _column(self, found: ResolvedItem, place: int) -> AnswerColumn:
        item = found.item
        name = item.alias or item.expression()
        self._check(found)
        if item.function is not Function.AVG:
            return AnswerColumn(name, self._type(found), place)
        self._test_mean(item)
        self._draft.edit(item.span, f"Sum({item.column})")
        self._draft.note(
            f"{name} is Sum({item.column}) divided by Count({item.column}), which cql does"
        )
        return self._mean(found, place, name)

    def _test_mean(self, item: Item) -> None:
        query = self._draft.query
        if query.distinct:
            reason = (
                "Distinct takes each row once, and two sums and counts may have one mean; leave "
                "Distinct out, or list Sum and Count"
            )
            raise self._draft.fault("F2", item.span, reason)
        if query.operator is not Operator.RSTREAM:
            reason = (
                f"{query.operator.value} answers changes, and Sum and Count may change where the "
                "mean does not, so an equal mean would be answered again; use Rstream, or list "
                "Sum and Count"
            )
            raise self._draft.fault("F2", item.span, reason)

    def _mean(self, found: ResolvedItem, place: int, name: str) -> AnswerColumn:
        assert found.column is not None
        count = self._place_of(Item(Function.COUNT, found.item.column), found.column)
        type_ = self._draft.type_of(found.column)
        return AnswerColumn(name, INT if type_.kind is Kind.BOOL else type_, place, count)

    def _place_of(self, item: Item, column: Column | None) -> int:
        """Returns the place of an item among the engine's; it is added where there is none."""
        everything = [*self.items, *self._added]
        for place, found in enumerate(everything):
            if found.item.function is item.function and found.column == column:
                return place
        self._added.append(ResolvedItem(item, column))
        return len(everything)

    def _check(self, found: ResolvedItem) -> None:
        """Raises where a column has no such aggregate."""
        item, column = found.item, found.column
        function = item.function
        if column is None or function is None or function is Function.COUNT:
            return
        type_ = self._draft.type_of(column)
        is_summed = function in (Function.SUM, Function.AVG)
        if type_.is_summed or (type_.is_ordered and not is_summed):
            return
        reason = f"`{item.column}` is {type_}, which has no {function.value}"
        if type_.kind is Kind.TEXT:
            reason = (
                f"`{item.column}` is text, which the engine knows by numbers of a dictionary; "
                f"they have no {function.value}"
            )
        raise self._draft.fault("F5", item.span, reason)

    def _type(self, found: ResolvedItem) -> Type:
        if found.column is None or found.item.function is Function.COUNT:
            return INT
        type_ = self._draft.type_of(found.column)
        is_count = found.item.function is Function.SUM and type_.kind is Kind.BOOL
        return INT if is_count else type_
