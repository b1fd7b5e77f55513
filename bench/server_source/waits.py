"""Times the appends of one client while another one drains."""

import json
import socket
import threading
import time

from programs import MeasureError


class Client:
    """A connection to a server, which answers line by line."""

    def __init__(self, port: int) -> None:
        self.socket = socket.create_connection(("127.0.0.1", port))
        self.socket.setsockopt(socket.IPPROTO_TCP, socket.TCP_NODELAY, 1)
        self.replies = self.socket.makefile("rb")

    def ask(self, **request: object) -> None:
        """Sends a request. Raises `MeasureError` unless the reply is `ok`."""
        self.socket.sendall(json.dumps(request).encode() + b"\n")
        reply = self.replies.readline()
        if not reply.startswith(b'{"ok":true'):
            raise MeasureError(f"{str(request)[:80]}: {reply[:200]!r}")

    def close(self) -> None:
        """Closes the connection."""
        self.replies.close()
        self.socket.close()


class WaitedAppends:
    """A client that drains what was appended, and one that appends meanwhile."""

    def __init__(self, port: int, texts: list[str], appends: int, rows: int, one_key: bool) -> None:
        self.drainer, self.other = Client(port), Client(port)
        self.is_done = threading.Event()
        self.drainer.ask(op="stream", name="S", columns=["k", "v"], **{"from": 0})
        self.drainer.ask(op="stream", name="T", columns=["a"], **{"from": 0})
        for number, text in enumerate(texts):
            self.drainer.ask(op="query", name=f"q{number}", text=text)
        last = 0
        for number in range(appends):
            places = range(number * rows, (number + 1) * rows)
            last = 0 if one_key else places[-1] // 8
            self.drainer.ask(op="append", stream="S", rows=[
                [0 if one_key else place // 8, 0 if one_key else place * 7 % 64, place * 389 % 2000]
                for place in places])
        self.drainer.ask(op="heartbeat", stream="S", at=last)

    def measure(self) -> tuple[float, list[float]]:
        """Returns how many seconds the drain took, and those of each append meanwhile, in order."""
        times: list[float] = []
        thread = threading.Thread(target=self.append, args=[times])
        begun = time.perf_counter()
        thread.start()
        try:
            self.drainer.ask(op="drain")
            seconds = time.perf_counter() - begun
        finally:
            self.is_done.set()
            thread.join()
            self.drainer.close()
            self.other.close()
        return seconds, sorted(times)

    def append(self, times: list[float]) -> None:
        """Appends a row to the other stream, again and again, until the drain is done."""
        while not times or not self.is_done.is_set():
            begun = time.perf_counter()
            self.other.ask(op="append", stream="T", rows=[[0, 1]])
            times.append(time.perf_counter() - begun)
