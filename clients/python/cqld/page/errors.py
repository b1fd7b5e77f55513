"""The errors of the page."""
from ..faults import CqldError


class PageError(CqldError):
    """Is the base of what the page raises."""


class PagePortTaken(PageError):
    """Says that another program listens on the port that the page was to have."""

    def __init__(self, host: str, port: int) -> None:
        super().__init__(host, port)
        self.host = host
        self.port = port

    def __str__(self) -> str:
        return f"port {self.port} of {self.host} is taken: choose another one by --port"


class BadOption(PageError):
    """Says that an option of the command cannot be used."""


class BadSession(PageError):
    """Says that the statements of a file do not describe a session. `line` is 0 or from 1."""

    def __init__(self, path: str, line: int, reason: str) -> None:
        super().__init__(path, line, reason)
        self.path = path
        self.line = line
        self.reason = reason

    def __str__(self) -> str:
        return f"{self.path}{f':{self.line}' if self.line else ''}: {self.reason}"


class Away(PageError):
    """Says that the server cannot be reached, or that it closed the connection."""


class Refusal(PageError):
    """Says that the server refused a request. `fault` is its text, as `E6 UnknownQuery`."""

    def __init__(self, fault: str) -> None:
        super().__init__(fault)
        self.fault = fault
