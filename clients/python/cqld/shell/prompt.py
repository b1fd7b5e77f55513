"""The prompt: lines with history and completion, by prompt_toolkit where it is, else readline."""

import os
from collections.abc import Callable, Iterable
from pathlib import Path

from .commands import Shell
from .completion import completions, word_at_end
from .pieces import Pieces

PROMPT = "cql> "
MORE = "  -> "
GREETING = "A statement ends with `;`. `help;` lists them, Ctrl-D ends."

Ask = Callable[[bool], str]
"""Asks for text; a bool says whether it goes on with a statement. Raises `EOFError` at the end."""


def converse(shell: Shell) -> None:
    """Asks for statements and runs them, until `quit` or the end of the input."""
    ask = _prompt_toolkit(shell) or _readline(shell)
    shell.output.say(GREETING)
    pieces = Pieces()
    while not shell.is_over:
        try:
            for piece in pieces.feed(ask(not pieces.is_empty) + "\n"):
                shell.run(piece)
                if shell.is_over:
                    return
        except KeyboardInterrupt:
            pieces.clear()
        except EOFError:
            shell.output.say("")
            return


def history_path() -> Path:
    """Returns the file of the history: what CQL_HISTORY says, else one in the home folder."""
    said = os.environ.get("CQL_HISTORY")
    return Path(said) if said else Path.home() / ".cql_history"


def is_complete(text: str) -> bool:
    """Returns whether a text ends with a whole statement, or has none."""
    pieces = Pieces()
    pieces.feed(text + "\n")
    return pieces.is_empty


def _prompt_toolkit(shell: Shell) -> Ask | None:
    """Returns the better prompt; None where it is not there, or the terminal is too plain."""
    if os.environ.get("TERM", "dumb") == "dumb":
        return None
    try:
        from prompt_toolkit import PromptSession
        from prompt_toolkit.application import get_app
        from prompt_toolkit.completion import CompleteEvent, Completer, Completion
        from prompt_toolkit.document import Document
        from prompt_toolkit.filters import Condition
        from prompt_toolkit.history import FileHistory, History, InMemoryHistory
    except ImportError:
        return None

    class Names(Completer):
        def get_completions(
            self, document: Document, complete_event: CompleteEvent
        ) -> Iterable[Completion]:
            text = document.text_before_cursor
            length = len(word_at_end(text))
            for each in completions(text, shell.known):
                yield Completion(each, start_position=-length)

    history: History = InMemoryHistory()
    path = history_path()
    if _may_write(path):
        history = FileHistory(str(path))
    goes_on = Condition(lambda: not is_complete(get_app().current_buffer.text))
    session: PromptSession[str] = PromptSession(
        history=history,
        completer=Names(),
        complete_while_typing=False,
        multiline=goes_on,
        prompt_continuation=lambda width, line, wrapped: MORE,
        enable_history_search=True,
    )
    return lambda is_more: session.prompt(MORE if is_more else PROMPT)


def _may_write(path: Path) -> bool:
    try:
        with path.open("a", encoding="utf-8"):
            return True
    except OSError:
        return False


def _readline(shell: Shell) -> Ask:
    try:
        import readline
    except ImportError:
        return lambda is_more: input(MORE if is_more else PROMPT)
    path = history_path()
    try:
        readline.read_history_file(path)
    except OSError:
        pass
    readline.set_completer_delims(" \t\n,();=<>'")
    readline.parse_and_bind("tab: complete")
    found: list[str] = []

    def complete(word: str, number: int) -> str | None:
        if number == 0:
            text = readline.get_line_buffer()[: readline.get_endidx()]
            found[:] = completions(text, shell.known)
        return found[number] if number < len(found) else None

    readline.set_completer(complete)

    def ask(is_more: bool) -> str:
        text = input(MORE if is_more else PROMPT)
        if _may_write(path):
            try:
                readline.append_history_file(1, path)
            except OSError:
                pass
        return text

    return ask
