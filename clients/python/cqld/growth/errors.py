"""What the modules of growth raise, besides what the rest of the package does."""

from ..faults import CqldError


class GrowthError(CqldError):
    """The base of the errors of growth."""


class BadLine(GrowthError):
    """A line is no request and no reply. Nothing was done with it."""


class LogFault(GrowthError):
    """A log or its replies cannot be read or written as they should; the text says where."""


class UnknownName(GrowthError):
    """A request names a stream, a query or a column that is not there."""
