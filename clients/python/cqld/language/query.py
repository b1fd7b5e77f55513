"""The syntax of a query: what its text says, before its names are looked up.

Spans say where a part stands in the text. They take no part in comparisons of queries.
"""

from collections.abc import Callable
from dataclasses import dataclass, field, replace
from enum import Enum


@dataclass(frozen=True, slots=True)
class Span:
    """A piece of a text: from `start` up to `end`, counted from 0."""

    start: int
    end: int


NOWHERE = Span(0, 0)


class Operator(Enum):
    """Which stream a query makes of its relation."""

    ISTREAM = "Istream"
    DSTREAM = "Dstream"
    RSTREAM = "Rstream"


class Function(Enum):
    """An aggregate. `AVG` is read in the friendly dialect only."""

    COUNT = "Count"
    SUM = "Sum"
    MIN = "Min"
    MAX = "Max"
    AVG = "Avg"


class Sign(Enum):
    """How two operands are compared."""

    EQUAL = "="
    UNEQUAL = "<>"
    LESS = "<"
    AT_MOST = "<="
    GREATER = ">"
    AT_LEAST = ">="


@dataclass(frozen=True, slots=True)
class Reference:
    """A column as the text names it: perhaps a source's name, then the column's own."""

    qualifier: str | None
    name: str
    span: Span = field(default=NOWHERE, compare=False)

    def __str__(self) -> str:
        return self.name if self.qualifier is None else f"{self.qualifier}.{self.name}"


@dataclass(frozen=True, slots=True)
class Item:
    """An item of the list: a column (`function` is None), `Count(*)` (`column` is None), or both.

    The engine gives an alias no effect; it names the column of the answers for people.
    """

    function: Function | None
    column: Reference | None
    alias: str | None = None
    span: Span = field(default=NOWHERE, compare=False)

    def expression(self) -> str:
        """Returns the item without its alias, as `Sum(T.amount)`."""
        inner = "*" if self.column is None else str(self.column)
        return inner if self.function is None else f"{self.function.value}({inner})"


@dataclass(frozen=True, slots=True)
class Now:
    """The rows of the instant itself."""


@dataclass(frozen=True, slots=True)
class Range:
    """The rows of the instant and of the `last` instants before it.

    With a `slide` it moves at the multiples of that only.
    """

    last: int
    slide: int | None = None


@dataclass(frozen=True, slots=True)
class Unbounded:
    """All rows so far."""


@dataclass(frozen=True, slots=True)
class Rows:
    """The last `count` rows."""

    count: int


@dataclass(frozen=True, slots=True)
class Partition:
    """The last `count` rows of each group of rows that are equal in the columns `by`."""

    by: tuple[Reference, ...]
    count: int


Window = Now | Range | Unbounded | Rows | Partition


@dataclass(frozen=True, slots=True)
class Source:
    """A stream, its window, and perhaps an alias."""

    stream: str
    window: Window
    alias: str | None = None
    span: Span = field(default=NOWHERE, compare=False)

    @property
    def name(self) -> str:
        """The source's name in the query: its alias, or else its stream's name."""
        return self.stream if self.alias is None else self.alias


@dataclass(frozen=True, slots=True)
class Literal:
    """A number of a condition, as it is written in `text`.

    In the friendly dialect that may be a decimal, a text in quotes, `true` or `false` too. These
    have the `value` 0.
    """

    value: int
    text: str = field(default="", compare=False)
    span: Span = field(default=NOWHERE, compare=False)

    @property
    def is_whole(self) -> bool:
        """Whether it is a whole number, which the engine reads too."""
        return self.text.removeprefix("-").isdecimal()


@dataclass(frozen=True, slots=True)
class Listed:
    """An item of the list that a Having compares, as `volume` or `Sum(amount)`."""

    item: Item
    span: Span = field(default=NOWHERE, compare=False)


Operand = Reference | Literal | Listed


@dataclass(frozen=True, slots=True)
class Comparison:
    """Two operands compared."""

    left: Operand
    sign: Sign
    right: Operand
    span: Span = field(default=NOWHERE, compare=False)


@dataclass(frozen=True, slots=True)
class Not:
    """True where the part is false."""

    part: "Condition"


@dataclass(frozen=True, slots=True)
class And:
    """True where all parts are. It has two parts at least."""

    parts: tuple["Condition", ...]


@dataclass(frozen=True, slots=True)
class Or:
    """True where some part is. It has two parts at least."""

    parts: tuple["Condition", ...]


Condition = Comparison | Not | And | Or


@dataclass(frozen=True, slots=True)
class Query:
    """A query. No `items` mean `*`, no `group` no Group By, and `condition` is that of Where.

    `list_span` is the list without Distinct, `rest_span` the text from From to its last token.
    """

    operator: Operator
    distinct: bool
    items: tuple[Item, ...]
    sources: tuple[Source, ...]
    condition: Condition | None = None
    group: tuple[Reference, ...] = ()
    list_span: Span = field(default=NOWHERE, compare=False)
    rest_span: Span = field(default=NOWHERE, compare=False)

    @property
    def is_all(self) -> bool:
        """Whether the list is `*`."""
        return not self.items

    @property
    def is_grouped(self) -> bool:
        """Whether it has a Group By or an aggregate."""
        return bool(self.group) or any(item.function is not None for item in self.items)


def conjuncts(condition: Condition | None) -> list[Condition]:
    """Returns the parts that the whole condition needs: those joined by And at its top."""
    if condition is None:
        return []
    if isinstance(condition, And):
        return [inner for part in condition.parts for inner in conjuncts(part)]
    return [condition]


def references(condition: Condition | None) -> list[Reference]:
    """Returns the columns that a condition names, from the left, repeats too."""
    if condition is None:
        return []
    if isinstance(condition, Comparison):
        sides = (condition.left, condition.right)
        return [side for side in sides if isinstance(side, Reference)]
    parts = (condition.part,) if isinstance(condition, Not) else condition.parts
    return [found for part in parts for found in references(part)]


def mapped(condition: Condition | None, turned: Callable[[Operand], Operand]) -> Condition | None:
    """Returns a condition with each operand turned into another."""
    return None if condition is None else _mapped(condition, turned)


def _mapped(condition: Condition, turned: Callable[[Operand], Operand]) -> Condition:
    if isinstance(condition, Comparison):
        return replace(condition, left=turned(condition.left), right=turned(condition.right))
    if isinstance(condition, Not):
        return Not(_mapped(condition.part, turned))
    parts = tuple(_mapped(part, turned) for part in condition.parts)
    return And(parts) if isinstance(condition, And) else Or(parts)
