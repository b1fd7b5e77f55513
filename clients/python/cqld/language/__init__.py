"""Query texts: a reader with the engine's faults, what names mean, and a friendly dialect.

    from cqld.language import Fault, read, resolve

    text = "Select Rstream(symbol) From Trades [Now] Where prise > 100"
    try:
        resolve(read(text), {"Trades": ["symbol", "price"]}, text)
    except Fault as fault:
        print(fault.shown())

`rewrite` makes a query of the engine from one with units, Avg, Having and Every.
"""

from .answers import AnswerColumn, Rewritten, SumOutOfRange
from .dialect import FriendlyQuery, read_friendly
from .faults import Fault, nearest
from .names import Column, JoinKey, ResolvedItem, ResolvedQuery, Streams, resolve
from .query import (
    And,
    Comparison,
    Condition,
    Function,
    Item,
    Literal,
    Not,
    Now,
    Operand,
    Operator,
    Or,
    Partition,
    Query,
    Range,
    Reference,
    Rows,
    Sign,
    Source,
    Span,
    Unbounded,
    Window,
    conjuncts,
    references,
)
from .reader import read
from .rewrite import rewrite
from .tokens import is_name, is_reserved
from .types import BOOL, INT, TEXT, Declared, Kind, Type
from .units import UNITS, Length, Unit, unit_of
from .writer import write, write_condition, write_window

__all__ = [
    "BOOL",
    "INT",
    "TEXT",
    "UNITS",
    "And",
    "AnswerColumn",
    "Column",
    "Comparison",
    "Condition",
    "Declared",
    "Fault",
    "FriendlyQuery",
    "Function",
    "Item",
    "JoinKey",
    "Kind",
    "Length",
    "Literal",
    "Not",
    "Now",
    "Operand",
    "Operator",
    "Or",
    "Partition",
    "Query",
    "Range",
    "Reference",
    "ResolvedItem",
    "ResolvedQuery",
    "Rewritten",
    "Rows",
    "Sign",
    "Source",
    "Span",
    "Streams",
    "SumOutOfRange",
    "Type",
    "Unbounded",
    "Unit",
    "Window",
    "conjuncts",
    "is_name",
    "is_reserved",
    "nearest",
    "read",
    "read_friendly",
    "references",
    "resolve",
    "rewrite",
    "unit_of",
    "write",
    "write_condition",
    "write_window",
]
