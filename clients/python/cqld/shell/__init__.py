"""`cql`, the interactive shell, over a cqlrun of its own or a running cqld."""

from .program import main

__all__ = ["main"]
