"""Reads statements of the shell.

Faults have no code of the engine. Their place is in the statement's text, as is that of a query.
"""

import re
from collections.abc import Callable
from dataclasses import replace

from ..language import Fault
from ..language.tokens import Kind, Symbol, Word
from .creating import CreationReader
from .statements import (
    Close,
    Connect,
    Copy,
    Describe,
    Drain,
    Drop,
    Explain,
    ExplainText,
    Forget,
    Help,
    Insert,
    Mode,
    Output,
    Policy,
    Quit,
    Run,
    Show,
    ShowQueries,
    ShowStatus,
    ShowStreams,
    Statement,
    Watch,
)

_DOTTED = {
    "quit": "quit",
    "q": "quit",
    "exit": "quit",
    "help": "help",
    "?": "help",
    "h": "help",
    "mode": "output",
    "streams": "show streams",
    "tables": "show streams",
    "queries": "show queries",
    "read": "source",
    "i": "source",
    "c": "connect",
    "open": "connect",
    "status": "status",
    "l": "status",
}


def read_statement(text: str) -> Statement:
    """Returns the statement of a text without its `;`. Raises `Fault`."""
    if text[:1] in (".", "\\"):
        return _dotted(text)
    return _StatementReader(text).statement()


def _dotted(text: str) -> Statement:
    words = text[1:].split()
    name, rest = (words[0].lower(), words[1:]) if words else ("", [])
    if name in ("d", "dt", "schema"):
        return Describe(rest[0]) if rest else Describe("")
    meant = _DOTTED.get(name)
    if meant is None:
        reason = "no such command; `help;` lists all statements"
        raise Fault("", text, 0, found=text[:1] + name, reason=reason)
    if meant == "source" and rest and not rest[0].startswith("'"):
        rest = [f"'{' '.join(rest)}'"]
    return read_statement(" ".join([meant, *rest]))


class _StatementReader(CreationReader):
    def __init__(self, text: str) -> None:
        self._rules: dict[str, Callable[[], Statement]] = {
            "create": self._create,
            "insert": self._insert,
            "copy": self._copy,
            "close": self._close,
            "heartbeat": self._heartbeat,
            "show": self._show,
            "describe": self._describe,
            "watch": self._watch,
            "explain": self._explain,
            "drop": self._drop,
            "drain": self._drain,
            "forget": self._forget,
            "status": self._status,
            "connect": self._connect,
            "source": self._source_file,
            "output": self._output,
            "help": self._help,
            "quit": self._quit,
            "exit": self._quit,
        }
        super().__init__(text)

    def statement(self) -> Statement:
        """Reads the whole text. Raises `Fault`."""
        for word, rule in self._rules.items():
            if self._maybe_word(word):
                return rule()
        for word in ("select", "istream", "dstream", "rstream"):
            if self._token.text.lower() == word:
                reason = "a query has a name: write `create query NAME as` before it"
                token = self._token
                raise Fault("", self.text, token.start, found=token.text, reason=reason)
        fault = self._unexpected()
        close = fault.nearest
        reason = "no statement begins so" + ("" if close else "; `help;` lists them")
        raise Fault("", self.text, 0, found=fault.found, nearest=close, reason=reason)

    def _drop(self) -> Statement:
        self._words("query")
        return self._end(Drop(self._name("a query")))

    def _describe(self) -> Statement:
        return self._end(Describe(self._name("a stream or a query")))

    # Rows.

    def _insert(self) -> Statement:
        self._words("into")
        stream = self._name("a stream")
        self._words("values")
        rows = [self._values()]
        while self._maybe(Symbol.COMMA):
            rows.append(self._values())
        return self._end(Insert(stream, tuple(rows)))

    def _values(self) -> tuple[str, ...]:
        self._take(Symbol.OPEN)
        values = [self._value()]
        while self._maybe(Symbol.COMMA):
            values.append(self._value())
        self._take(Symbol.CLOSE)
        return tuple(values)

    def _value(self) -> str:
        token = self._token
        for kind in (Kind.NUMBER, Kind.DECIMAL, Kind.TEXT):
            if self._maybe(kind):
                return token.text
        for word in ("null", "true", "false", "now"):
            if self._maybe_word(word):
                return word
        raise self._unexpected()

    def _copy(self) -> Statement:
        stream = self._name("a stream")
        self._words("from")
        path = "-" if self._maybe_word("stdin") else self._quoted("a path in `' '`")
        copy = Copy(stream, path, "")
        if self._maybe_word("by"):
            token = self._token
            delimiter = self._quoted("a character in `' '`").replace("\\t", "\t")
            if len(delimiter) != 1:
                raise self._fault_at(token, "fields have one character between them")
            copy = replace(copy, delimiter=delimiter)
        self._words("time")
        token = self._token
        if token.kind is Kind.TEXT:
            copy = replace(copy, time=self._quoted(""))
        else:
            copy = replace(copy, time=self._name("the column of the instants"))
        return self._end(self._copy_options(copy))

    def _copy_options(self, copy: Copy) -> Copy:
        while True:
            if self._maybe_word("late"):
                copy = replace(copy, late=self._length())
            elif self._maybe_word("on"):
                if self._maybe_word("late"):
                    copy = replace(copy, on_late=self._policy())
                else:
                    self._words("bad")
                    copy = replace(copy, on_bad=self._policy())
            elif self._is_word("from"):
                self._next()
                self._words("line")
                copy = replace(copy, line=self._count("the number of a line"))
            elif self._maybe_word("null"):
                copy = replace(copy, null=self._quoted("a text in `' '`"))
            elif self._maybe_word("keep"):
                self._words("open")
                copy = replace(copy, stays_open=True)
            else:
                return copy

    def _policy(self) -> Policy:
        for policy in Policy:
            if self._maybe_word(policy.value):
                return policy
        raise self._unexpected()

    def _close(self) -> Statement:
        stream = self._name("a stream")
        self._words("to")
        return self._end(Close(stream, self._instant_literal()))

    def _heartbeat(self) -> Statement:
        stream = self._name("a stream")
        self._words("at")
        return self._end(Close(stream, self._instant_literal()))

    # Answers.

    def _show(self) -> Statement:
        if self._maybe_word("streams"):
            return self._end(ShowStreams())
        if self._maybe_word("queries"):
            return self._end(ShowQueries())
        show = Show(self._name("a query"))
        if self._maybe_word("first"):
            show = replace(show, first=self._count("a number of answers"))
        elif self._maybe_word("last"):
            show = replace(show, last=self._count("a number of answers"))
        elif self._maybe_word("all"):
            show = replace(show, everything=True)
        return self._end(show)

    def _watch(self) -> Statement:
        watch = Watch(self._name("a query"))
        if self._maybe_word("for"):
            token = self._token
            if self._maybe(Kind.DECIMAL, "a number of seconds or rows"):
                amount = float(token.text)
            else:
                amount = float(self._count("a number of seconds or rows"))
            if self._maybe_word("rows") or self._maybe_word("row"):
                watch = replace(watch, rows=max(1, int(amount)))
            else:
                if not (self._maybe_word("seconds") or self._maybe_word("second")):
                    raise self._unexpected()
                watch = replace(watch, seconds=amount)
        return self._end(watch)

    def _explain(self) -> Statement:
        if self._token.kind in (Word.SELECT, Word.ISTREAM, Word.DSTREAM, Word.RSTREAM):
            return ExplainText(*self._rest_from_here())
        return self._end(Explain(self._name("a query, or its text")))

    def _status(self) -> Statement:
        return self._end(ShowStatus())

    def _drain(self) -> Statement:
        return self._end(Drain())

    def _forget(self) -> Statement:
        return self._end(Forget())

    # The shell.

    def _connect(self) -> Statement:
        start = self._token.start
        rest, _ = self._rest_from_here()
        rest = rest.strip().strip("'")
        if not rest or rest.lower() == "own":
            return Connect()
        match = re.fullmatch(r"(?:(?P<host>[^\s:]+|\[[^\s\]]+\]):)?(?P<port>[0-9]{1,5})", rest)
        if match is None or int(match["port"]) > 65_535:
            reason = "a server is HOST:PORT or PORT, as 127.0.0.1:7711; `own` is a cqlrun of cql's"
            raise Fault("", self.text, start, found=rest, reason=reason)
        return Connect((match["host"] or "127.0.0.1").strip("[]"), int(match["port"]))

    def _source_file(self) -> Statement:
        return self._end(Run(self._quoted("a path in `' '`")))

    def _output(self) -> Statement:
        for mode in Mode:
            if self._maybe_word(mode.value):
                return self._end(Output(mode))
        raise self._unexpected()

    def _help(self) -> Statement:
        rest, _ = self._rest_from_here()
        return Help(" ".join(rest.lower().split()))

    def _quit(self) -> Statement:
        return self._end(Quit())


