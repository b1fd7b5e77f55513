"""Rewrites a query of the friendly dialect as one that the engine runs.

    rewritten = rewrite(
        "Select Rstream(symbol, Avg(price) As mean) From Trades [Range 1 minute] Group By symbol",
        {"Trades": Declared({"symbol": TEXT, "price": decimal(2)}, Unit.SECOND)},
        numbered,
    )

Here `rewritten.text` is `Select Rstream(symbol, Sum(price), Count(price)) From Trades [Range 59]
Group By symbol`, and `rewritten` divides the two for each answer.
"""

from collections.abc import Mapping

from .answers import Rewritten
from .dialect import read_friendly
from .draft import Draft
from .filters import Filters
from .lengths import every, rewrite_lengths
from .listed import Listed
from .query import Comparison, Condition, Literal, Not, Operand, Reference
from .types import Declared, Numbered, Type


def rewrite(text: str, streams: Mapping[str, Declared], numbered: Numbered) -> Rewritten:
    """Returns the query that a text of the dialect means over declared streams.

    `numbered` gives the numbers of the texts that the query compares. Raises `Fault`, with a place
    in the text, for what cannot be read, is not there, or cannot be said.
    """
    draft = Draft(read_friendly(text), streams, numbered)
    rewrite_lengths(draft)
    _rewrite_literals(draft, draft.query.condition)
    listed = Listed(draft)
    having = Filters(draft, listed).having()
    kept = every(draft)
    listed.finish()
    for cut in draft.friendly.cuts:
        draft.edit(cut, "")
    names = tuple(dict.fromkeys(source.stream for source in draft.query.sources))
    engine = draft.engine_text()
    return Rewritten(text, engine, listed.columns, names, having, kept, tuple(draft.notes))


def _rewrite_literals(draft: Draft, condition: Condition | None) -> None:
    """Puts the engine's numbers in place of the literals of a condition."""
    if condition is None:
        return
    if isinstance(condition, Comparison):
        _rewrite_comparison(draft, condition)
        return
    parts = (condition.part,) if isinstance(condition, Not) else condition.parts
    for part in parts:
        _rewrite_literals(draft, part)


def _rewrite_comparison(draft: Draft, test: Comparison) -> None:
    left, right = _type(draft, test.left), _type(draft, test.right)
    draft.comparisons.check(test, left, right, scaled=False)
    for side, other in ((test.left, right), (test.right, left)):
        if isinstance(side, Literal):
            number = draft.comparisons.whole(side, other)
            if str(number) != side.text:
                draft.edit(side.span, str(number))
                draft.note(f"{side.text} is the number {number} of {_a(other)} column")


def _type(draft: Draft, operand: Operand) -> Type | None:
    """Returns the type of a column, none of a literal."""
    if isinstance(operand, Reference):
        return draft.type_of(draft.resolved.column(operand))
    return None


def _a(type_: Type | None) -> str:
    if type_ is None:
        return "a"
    return f"an {type_}" if str(type_)[0] in "aeiou" else f"a {type_}"
