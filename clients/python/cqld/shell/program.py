"""The program `cql`: its command line, scripts from files and pipes, and the prompt."""

import argparse
import os
import sys
from collections.abc import Sequence
from io import TextIOWrapper
from pathlib import Path

from .. import __version__
from ..dictionary import Dictionary, FileDictionary, MemoryDictionary
from ..faults import CqldError
from .commands import Shell
from .errors import ShellError
from .output import Output
from .prompt import converse
from .reading import read_statement
from .statements import Connect, Mode

EPILOG = """\
Without FILE and -c, statements come from the terminal, or from a pipe. The status is 1 where a
statement of a file, a pipe or -c failed, 2 where the command line is wrong, and else 0.
`cql page --help` shows a server on a live page.
"""


def main(words: Sequence[str] | None = None) -> int:
    """Runs the shell with the words of a command line. Returns the status for the system."""
    words = sys.argv[1:] if words is None else list(words)
    if words[:1] == ["page"]:
        from ..page.command import main as page

        return page(words[1:])
    parser = _parser()
    args = parser.parse_args(words)
    try:
        connect = _connect(args.connect)
        dictionary = _dictionary(args.dictionary)
    except CqldError as error:
        parser.error(str(error))
    for stream in (sys.stdout, sys.stderr):
        if isinstance(stream, TextIOWrapper):
            stream.reconfigure(errors="backslashreplace")
    mode = Mode.CSV if args.csv else Mode.JSON if args.json else Mode.TABLE
    output = Output(sys.stdout, sys.stderr, mode, args.width)
    timeout = args.timeout or None
    shell = Shell(output, dictionary, connect=connect, timeout=timeout, stops=args.stop)
    shell.may_copy_input = bool(args.files or args.command)
    try:
        return _run(shell, args.files, args.command)
    except BrokenPipeError:
        _forget_output()
        return 1
    finally:
        shell.close()


def _run(shell: Shell, files: Sequence[str], commands: Sequence[str]) -> int:
    for number, command in enumerate(commands, 1):
        shell.run_text(command, "-c" if len(commands) == 1 else f"-c {number}")
        if shell.is_over or shell.is_stopped:
            return _status(shell)
    for path in files:
        try:
            shell.run_file(path)
        except ShellError as error:
            shell.failed += 1
            shell.output.warn(str(error))
        if shell.is_over or shell.is_stopped:
            return _status(shell)
    if not files and not commands:
        if sys.stdin.isatty():
            converse(shell)
            return 0
        _run_input(shell)
    return _status(shell)


def _run_input(shell: Shell) -> None:
    """Runs the statements of a pipe."""
    try:
        text = sys.stdin.read()
    except UnicodeDecodeError as error:
        shell.failed += 1
        shell.output.warn(f"<stdin>: {error}")
    else:
        shell.run_text(text, "<stdin>")


def _status(shell: Shell) -> int:
    return 1 if shell.failed else 0


def _forget_output() -> None:
    """Lets nothing be written to an output that nobody reads any longer."""
    nowhere = os.open(os.devnull, os.O_WRONLY)
    os.dup2(nowhere, sys.stdout.fileno())
    os.close(nowhere)


def _parser() -> argparse.ArgumentParser:
    parser = argparse.ArgumentParser(
        prog="cql",
        description="Asks a continuous query engine, over a cqlrun of its own or a running cqld.",
        epilog=EPILOG,
    )
    parser.add_argument("files", metavar="FILE", nargs="*", help="run the statements of files")
    parser.add_argument(
        "-c", "--command", metavar="TEXT", action="append", default=[], help="run statements first"
    )
    parser.add_argument("--connect", metavar="HOST:PORT", help="begin over a running cqld")
    parser.add_argument(
        "--timeout",
        type=float,
        default=60,
        metavar="SECONDS",
        help="how long a server may take for a reply, 60 by default; 0 is for ever",
    )
    parser.add_argument(
        "--dictionary", metavar="FILE", help="keep the numbers of texts in a file, to share them"
    )
    shown = parser.add_mutually_exclusive_group()
    shown.add_argument("--csv", action="store_true", help="show answers as CSV")
    shown.add_argument("--json", action="store_true", help="show answers as JSON lines")
    parser.add_argument("--width", type=int, metavar="N", help="the width of tables, in places")
    parser.add_argument("--stop", action="store_true", help="end a script at its first fault")
    parser.add_argument("--version", action="version", version=f"cql {__version__}")
    return parser


def _connect(text: str | None) -> Connect:
    if text is None:
        return Connect()
    statement = read_statement(f"connect {text}")
    if not isinstance(statement, Connect):
        raise ShellError(f"{text} is no server")
    return statement


def _dictionary(path: str | None) -> Dictionary:
    return MemoryDictionary() if path is None else FileDictionary(Path(path))
