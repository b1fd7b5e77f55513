"""Writes a query as a text that the engine reads."""

from .query import (
    And,
    Comparison,
    Condition,
    Item,
    Listed,
    Literal,
    Not,
    Now,
    Operand,
    Partition,
    Query,
    Range,
    Rows,
    Source,
    Window,
)


def write(query: Query) -> str:
    """Returns a text of the query, in one line; reading it gives an equal query."""
    listed = "*" if query.is_all else ", ".join(_item(item) for item in query.items)
    distinct = "Distinct " if query.distinct else ""
    sources = ", ".join(_source(source) for source in query.sources)
    text = f"Select {query.operator.value}({distinct}{listed}) From {sources}"
    if query.condition is not None:
        text += f" Where {write_condition(query.condition)}"
    if query.group:
        text += f" Group By {', '.join(map(str, query.group))}"
    return text


def write_window(window: Window) -> str:
    """Returns the text of a window, with its brackets."""
    if isinstance(window, Now):
        return "[Now]"
    if isinstance(window, Range):
        slide = "" if window.slide is None else f" Slide {window.slide}"
        return f"[Range {window.last}{slide}]"
    if isinstance(window, Rows):
        return f"[Rows {window.count}]"
    if isinstance(window, Partition):
        return f"[Partition By {', '.join(map(str, window.by))} Rows {window.count}]"
    return "[Range Unbounded]"


def write_condition(condition: Condition) -> str:
    """Returns the text of a condition, with parentheses round each And and Or inside of it."""
    if isinstance(condition, Comparison):
        sides = (_operand(condition.left), _operand(condition.right))
        return f" {condition.sign.value} ".join(sides)
    if isinstance(condition, Not):
        return f"Not {_inner(condition.part)}"
    word = " And " if isinstance(condition, And) else " Or "
    return word.join(_inner(part) for part in condition.parts)


def _inner(condition: Condition) -> str:
    text = write_condition(condition)
    return text if isinstance(condition, (Comparison, Not)) else f"({text})"


def _operand(operand: Operand) -> str:
    if isinstance(operand, Literal):
        return str(operand.value)
    return operand.item.expression() if isinstance(operand, Listed) else str(operand)


def _item(item: Item) -> str:
    return item.expression() + ("" if item.alias is None else f" As {item.alias}")


def _source(source: Source) -> str:
    alias = "" if source.alias is None else f" {source.alias}"
    return f"{source.stream} {write_window(source.window)}{alias}"
