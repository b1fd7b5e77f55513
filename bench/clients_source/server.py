"""Starts a cqld on a port of its own."""

import subprocess


class Server:
    """A cqld of so many workers and clients, for so many connections. Use it in a `with`.

    It forgets by itself after so many values, if a number is given.
    """

    def __init__(self, program: str, workers: int, clients: int, serve: int | None = None,
                 forget: int | None = None) -> None:
        words = [program, "--port=0", f"--workers={workers}", f"--clients={clients}"]
        if serve is not None:
            words.append(f"--serve={serve}")
        if forget is not None:
            words.append(f"--forget={forget}")
        pipe = subprocess.PIPE
        self.process = subprocess.Popen(words, stdout=pipe, stderr=pipe, text=True)
        assert self.process.stdout is not None
        line = self.process.stdout.readline()
        assert line.startswith("cqld: listening on 127.0.0.1:"), line
        self.port = int(line.rsplit(":", 1)[1])

    def __enter__(self) -> "Server":
        return self

    def __exit__(self, kind: object, error: object, trace: object) -> None:
        if self.process.poll() is None:
            self.process.kill()
        self.process.communicate()

    def ended(self, seconds: float = 60) -> tuple[int, str]:
        """Returns its status and its errors, once it has served all its connections."""
        _, errors = self.process.communicate(timeout=seconds)
        return self.process.returncode, errors
