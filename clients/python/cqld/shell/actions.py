"""What each statement does, with a shell's session and output."""

from __future__ import annotations

import time
from collections.abc import Callable, Mapping, Sequence
from typing import TYPE_CHECKING, Any

from ..language import Fault, nearest
from ..wire import Row
from . import shown
from .copies import copy_file
from .errors import ShellError
from .helping import help_lines
from .statements import (
    Close,
    Connect,
    Copy,
    CreateQuery,
    CreateStream,
    Describe,
    Drain,
    Drop,
    Explain,
    ExplainText,
    Forget,
    Help,
    Insert,
    Mode,
    Output,
    Quit,
    Run,
    Show,
    ShowQueries,
    ShowStatus,
    ShowStreams,
    Statement,
    Watch,
)
from .tables import Layout
from .values import time_text

if TYPE_CHECKING:
    from .commands import Shell

PAUSE = 0.1
"""Seconds between two looks of `watch`."""
NO_MORE = "nothing more comes while you watch: no other client feeds this cqlrun"


def carry_out(shell: Shell, statement: Statement) -> None:
    """Does what a statement says. Raises `CqldError`."""
    _RULES[type(statement)](shell, statement)


def _create_stream(shell: Shell, statement: CreateStream) -> None:
    state = shell.session.create_stream(statement)
    if state.declared.unit is None and any(
        str(type_) == "time" for type_ in state.declared.columns.values()
    ):
        shell.output.say("without a unit, the columns of type time hold plain numbers")


def _create_query(shell: Shell, statement: CreateQuery) -> None:
    try:
        shell.session.create_query(statement)
    except Fault as fault:
        raise fault.moved(shell.text, statement.place) from None


def _drop(shell: Shell, statement: Drop) -> None:
    shell.session.drop(statement.query)


# Rows.


def _insert(shell: Shell, statement: Insert) -> None:
    count = shell.session.insert(statement)
    shell.output.say("1 row" if count == 1 else f"{count:,} rows")


def _copy(shell: Shell, statement: Copy) -> None:
    if statement.path == "-" and not shell.may_copy_input:
        raise ShellError("standard input has the statements; give them by -c or in a file")
    copy_file(shell.session, shell.dictionary, shell.output, statement)


def _close(shell: Shell, statement: Close) -> None:
    at = shell.session.close(statement)
    state = shell.session.stream(statement.stream)
    shell.output.say(f"{state.name} is closed up to {time_text(at, state.clock)}")


def _drain(shell: Shell, statement: Drain) -> None:
    shell.session.drain()


def _forget(shell: Shell, statement: Forget) -> None:
    shell.session.connection.forget()


# Answers.


def _show(shell: Shell, statement: Show) -> None:
    session = shell.session
    query = session.query(statement.query)
    session.refresh(query)
    rows = list(query.kept)
    everything = statement.everything
    if statement.first is not None:
        rows, everything = rows[: statement.first], True
    elif statement.last is not None:
        rows, everything = rows[-statement.last :], True
    answers = shown.Answers(session, query, shell.output)
    answers.show(rows, query.count, everything=everything, name=query.name)
    query.watched = query.count
    _test_known(answers)
    if not query.is_registered:
        names = ", ".join(query.rewritten.streams)
        shell.output.say(f"no rows yet: the query begins with the first rows of {names}")


def _watch(shell: Shell, statement: Watch) -> None:
    session = shell.session
    query = session.query(statement.query)
    answers = shown.Answers(session, query, shell.output)
    until = None if statement.seconds is None else time.monotonic() + statement.seconds
    left = statement.rows
    layout = shell.output.layout(answers.names, answers.right)
    is_first = True
    try:
        while True:
            session.refresh(query)
            rows = query.unwatched(left)
            if rows or is_first:
                _show_more(shell, answers, rows, layout, is_first)
                is_first = False
            if left is not None:
                left -= len(rows)
            if left == 0 or (until is not None and time.monotonic() >= until):
                break
            if session.is_own:
                shell.output.say(NO_MORE)
                break
            shell.pause(PAUSE)
    except KeyboardInterrupt:
        shell.output.say("")
    _test_known(answers)


def _show_more(
    shell: Shell, answers: shown.Answers, rows: Sequence[Row], layout: Layout, is_first: bool
) -> None:
    output = shell.output
    if output.mode is not Mode.TABLE:
        output.lines(answers.data(rows, header=is_first))
        return
    texts = [answers.texts(row) for row in rows]
    layout.fit(texts)
    output.lines([*(layout.head() if is_first else []), *map(layout.row, texts)])


def _test_known(answers: shown.Answers) -> None:
    """Raises where a mean was not known."""
    if answers.unknown:
        raise ShellError(
            f"{answers.unknown} means are not known, since their sums left the range of answers; "
            f"each is shown as `{shown.UNKNOWN}`"
        )


def _explain(shell: Shell, statement: Explain) -> None:
    session = shell.session
    query = session.query(statement.query)
    shown.explain(shell.output, query.rewritten, session.plan(query.name))


def _explain_text(shell: Shell, statement: ExplainText) -> None:
    try:
        rewritten = shell.session.rewritten(statement.text)
    except Fault as fault:
        raise fault.moved(shell.text, statement.place) from None
    shown.explain(shell.output, rewritten, [])


# What there is.


def _show_streams(shell: Shell, statement: ShowStreams) -> None:
    shown.streams(shell.output, shell.session.streams.values())


def _show_queries(shell: Shell, statement: ShowQueries) -> None:
    shown.queries(shell.output, shell.session.queries.values())


def _show_both(shell: Shell) -> None:
    _show_streams(shell, ShowStreams())
    _show_queries(shell, ShowQueries())


def _describe(shell: Shell, statement: Describe) -> None:
    session, name = shell.session, statement.name
    if not name:
        _show_both(shell)
    elif name in session.queries:
        _explain(shell, Explain(name))
    elif name in session.streams:
        shown.describe_stream(shell.output, session.streams[name])
    else:
        close = nearest(name, [*session.streams, *session.queries], 1)
        told = f"; did you mean `{close[0]}`?" if close else ""
        raise ShellError(f"no stream and no query is named `{name}`{told}")


def _status(shell: Shell, statement: ShowStatus) -> None:
    told = shell.session.status()
    if told is not None:
        shown.status(shell.output, told, shell.session)
        return
    _show_both(shell)
    shell.output.say(f"as cql knows it: {shell.where} has no request for its status")


# The shell.


def _help(shell: Shell, statement: Help) -> None:
    for line in help_lines(statement.topic):
        shell.output.say(line)


def _source(shell: Shell, statement: Run) -> None:
    shell.run_file(statement.path)


def _connect(shell: Shell, statement: Connect) -> None:
    shell.connect(statement)


def _output(shell: Shell, statement: Output) -> None:
    shell.output.mode = statement.mode


def _quit(shell: Shell, statement: Quit) -> None:
    shell.is_over = True


_RULES: Mapping[type, Callable[[Shell, Any], None]] = {
    CreateStream: _create_stream,
    CreateQuery: _create_query,
    Drop: _drop,
    Insert: _insert,
    Copy: _copy,
    Close: _close,
    Drain: _drain,
    Forget: _forget,
    Show: _show,
    Watch: _watch,
    Explain: _explain,
    ExplainText: _explain_text,
    ShowStreams: _show_streams,
    ShowQueries: _show_queries,
    Describe: _describe,
    ShowStatus: _status,
    Help: _help,
    Run: _source,
    Connect: _connect,
    Output: _output,
    Quit: _quit,
}
