"""The programs that bench/server runs: servers, cqlrun over two pipes, and the load."""

import subprocess
from pathlib import Path
from types import TracebackType
from typing import IO, NamedTuple


class MeasureError(Exception):
    """A program did not do what is measured."""


class Said(NamedTuple):
    """What the load says on standard error: lines of a key and a text."""
    lines: list[tuple[str, str]]

    def number(self, key: str) -> float:
        """Returns the number of a key that comes once."""
        return next(float(text) for name, text in self.lines if name == key)

    def numbers(self, key: str) -> list[float]:
        """Returns the numbers of a key, in their order."""
        return [float(text) for name, text in self.lines if name == key]

    def text(self, key: str) -> str:
        """Returns the text of a key, or none."""
        return next((text for name, text in self.lines if name == key), "")


class Timed(NamedTuple):
    """A run of the load: how long it took, and what it cost the program beside it."""
    seconds: float  # of one cycle or take
    p50: float
    p99: float
    processor: float  # seconds of one cycle or take

    @staticmethod
    def of(said: Said, processor: float) -> "Timed":
        """Reads it from what the load said. The processor's time is that of untimed ones too."""
        count = max(1.0, said.number("count"))
        return Timed(said.number("seconds") / count, said.number("p50"), said.number("p99"),
                     processor / float(said.text("all") or count))


class Program:
    """A program that the load is played against, while a `with` lasts."""

    def __init__(self, words: list[str], has_port: bool) -> None:
        """Starts it: a server, which says its port, or a program of two pipes."""
        pipe = subprocess.PIPE
        self.process = subprocess.Popen(words, stdin=pipe, stdout=pipe)
        self.port = 0
        if has_port:
            line = stream_of(self.process.stdout).readline().decode()
            if "listening on 127.0.0.1:" not in line:
                raise MeasureError(f"{words[0]} said {line!r}")
            self.port = int(line.rsplit(":", 1)[1])

    def __enter__(self) -> "Program":
        return self

    def __exit__(self, kind: type[BaseException] | None, error: BaseException | None,
                 trace: TracebackType | None) -> None:
        if self.process.poll() is None:
            self.process.kill()
        self.process.wait()
        stream_of(self.process.stdin).close()
        stream_of(self.process.stdout).close()

    def processor(self) -> float:
        """Returns the processor seconds that its threads took so far."""
        tasks = Path(f"/proc/{self.process.pid}/task").iterdir()
        return sum(int((task / "schedstat").read_text().split()[0]) for task in tasks) / 1e9

    def play(self, load: Path, *words: str | int | float) -> Said:
        """Plays the load against it. `WHERE` in the words is its port or its pipes."""
        place = str(self.port) if self.port else "pipes"
        given = [place if word == "WHERE" else str(word) for word in words]
        source: int | IO[bytes] = subprocess.DEVNULL
        sink: int | IO[bytes] = subprocess.DEVNULL
        if not self.port:
            source, sink = stream_of(self.process.stdout), stream_of(self.process.stdin)
        done = subprocess.run([str(load), *given], stdin=source, stdout=sink,
                              stderr=subprocess.PIPE, text=True)
        pairs = [line.partition(" ") for line in done.stderr.splitlines()]
        said = Said([(key, text) for key, _, text in pairs])
        if done.returncode != 0:
            raise MeasureError(f"load {' '.join(given)}: {said.text('failed') or done.stderr}")
        return said

    def time(self, load: Path, *words: str | int | float) -> Timed:
        """Plays the load, and returns what a cycle or a take took."""
        before = self.processor()
        said = self.play(load, *words)
        return Timed.of(said, self.processor() - before)


def stream_of(stream: IO[bytes] | None) -> IO[bytes]:
    """Returns a stream that was asked for by PIPE."""
    assert stream is not None
    return stream
