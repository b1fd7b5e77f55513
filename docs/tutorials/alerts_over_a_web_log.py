#!/usr/bin/env python3
"""Alerts over the log of an nginx, while it is written.

    /usr/bin/python3 docs/tutorials/alerts_over_a_web_log.py [FOLDER]

It starts nginx, loads it with six minutes of requests, and follows its log. It prints
alerts-over-a-web-log.txt and draws alerts-over-a-web-log.svg, by default beside itself.
"""
from __future__ import annotations

import http.client
import socket
import subprocess
import sys
import tempfile
import threading
import time
from collections.abc import Iterator
from contextlib import contextmanager
from datetime import datetime, timedelta, timezone
from pathlib import Path
from typing import NamedTuple, TextIO

HERE = Path(__file__).resolve().parent
sys.path[:0] = [str(HERE), str(HERE.parents[1] / "clients" / "python")]

from picture import BLUE, GREEN, ORANGE, RED, Plot  # noqa: E402

from cqld import Clock, Int, MemoryDictionary, Process, Query, Stream, Text  # noqa: E402

START = datetime(2026, 11, 27, 12, 0, tzinfo=timezone.utc)
SECONDS = 360
PATIENCE = 60.0  # seconds that nginx may need to start, or to write its log

ERRORS = """
    Select Rstream(ip, Count(*) As errors) From Log [Range 1 minute]
    Where status >= 400 Group By ip Having errors >= 10
"""
ALERTS = "Select Istream(Distinct ip) From Alarms [Range 1 minute]"
BROKEN_IN = """
    Select Rstream(Distinct ok.ip) From Log [Now] ok, Log [Range 1 minute] bad
    Where ok.ip = bad.ip And ok.path = '/login' And bad.path = '/login'
      And ok.status = 200 And bad.status = 401
"""
TRAFFIC = """
    Select Rstream(Count(*) As requests, Sum(bytes) As bytes)
    From Log [Range 10 seconds Slide 10 seconds] Every 10 seconds
"""
FAILURES = """
    Select Rstream(Count(*) As failures)
    From Log [Range 10 seconds Slide 10 seconds] Where status >= 500 Every 10 seconds
"""


class Alert(NamedTuple):
    """A time, an address, and what it did."""

    instant: datetime
    ip: str
    what: str


class Rules:
    """The queries over the log. `read` takes lines of it, `look` returns what is new."""

    def __init__(self, engine: Process) -> None:
        words = MemoryDictionary()
        clock = Clock.seconds()
        self.log = Stream(engine, "Log", {
            "ip": Text(words), "status": Int(), "bytes": Int(), "path": Text(words)}, clock)
        self.alarms = Stream(engine, "Alarms", {"ip": Text(words)}, clock)
        self.log.declare(START)
        self.alarms.declare(START)
        self.errors = Query(engine, "errors", ERRORS, [self.log])
        self.broken_in = Query(engine, "broken_in", BROKEN_IN, [self.log])
        self.traffic = Query(engine, "traffic", TRAFFIC, [self.log])
        self.failures = Query(engine, "failures", FAILURES, [self.log])
        self.alerts = Query(engine, "alerts", ALERTS, [self.alarms])
        for query in (self.errors, self.broken_in, self.traffic, self.failures, self.alerts):
            query.register()

    def read(self, line: str) -> datetime:
        """Appends a line of the log, and returns its time."""
        at, ip, status, size, path = line.split(" ", 4)
        instant = datetime.fromisoformat(at)
        self.log.append([(instant, ip, int(status), int(size), path)])
        return instant

    def look(self, closed: datetime) -> list[Alert]:
        """Closes the log up to a time, and returns the alerts up to it."""
        self.log.heartbeat(closed)
        found = [Alert(each.instant, each.ip, "logged in after failures")
                 for each in self.broken_in.answers()]
        self.alarms.append((each.instant, each.ip) for each in self.errors.answers())
        self.alarms.heartbeat(closed)
        found += [Alert(each.instant, each.ip, "has 10 errors in a minute")
                  for each in self.alerts.answers()]
        return sorted(found)


def requests() -> Iterator[tuple[int, str, str]]:
    """Yields the load: a second, the last part of an address, and a path."""
    for second in range(SECONDS):
        for host in ("2", "3", "4"):
            if (second * int(host)) % 5 < 3:
                yield second, host, "/"
        if second in (40, 200, 300):
            yield second, "2", "/lost"  # now and then anybody errs
        if 90 <= second < 96 or second == 97:
            yield second, "66", f"/login?word={'right' if second == 97 else 'wrong'}"
        if 150 <= second < 170:
            yield second, "5", "/report"
        if 240 <= second < 243:
            for page in range(5):
                yield second, "7", f"/admin{page}"


def load(port: int) -> None:
    """Sends the load to a server, each address by a connection of its own."""
    hosts: dict[str, http.client.HTTPConnection] = {}
    for second, host, path in requests():
        if host not in hosts:
            hosts[host] = http.client.HTTPConnection(
                "127.0.0.1", port, timeout=PATIENCE, source_address=(f"127.0.0.{host}", 0))
        at = (START + timedelta(seconds=second)).isoformat()
        hosts[host].request("GET", path, headers={"X-Time": at})
        hosts[host].getresponse().read()
    for connection in hosts.values():
        connection.close()


@contextmanager
def nginx(folder: Path) -> Iterator[int]:
    """Runs nginx in a folder, and gives the port on which it answers."""
    template = (HERE / "web-log.conf").read_text()
    for _ in range(10):  # another program may take the port before nginx does
        with socket.socket() as free:
            free.bind(("127.0.0.1", 0))
            port = free.getsockname()[1]
        (folder / "nginx.conf").write_text(template.replace("PORT", str(port)))
        (folder / "access.log").write_text("")
        words = ["/usr/sbin/nginx", "-p", str(folder), "-c", "nginx.conf", "-e", "nginx.err"]
        server = subprocess.Popen(words, stderr=subprocess.DEVNULL)
        try:
            if answers(server, port):
                yield port
                return
        finally:
            server.terminate()
            server.wait()
    raise RuntimeError("nginx does not start: " + (folder / "nginx.err").read_text())


def answers(server: "subprocess.Popen[bytes]", port: int) -> bool:
    """Waits until a server answers, and returns whether it does: it may have ended."""
    until = time.monotonic() + PATIENCE
    while time.monotonic() < until and server.poll() is None:
        try:
            socket.create_connection(("127.0.0.1", port), PATIENCE).close()
            return server.poll() is None
        except OSError:
            time.sleep(0.02)
    return False


def lines_of(path: Path, count: int) -> Iterator[str]:
    """Follows a file as it is written, and yields its lines until there were so many."""
    until = time.monotonic() + PATIENCE
    with path.open() as file:
        held = ""
        while count and time.monotonic() < until:
            held += file.readline()
            if held.endswith("\n"):
                yield held.rstrip("\n")
                held, count = "", count - 1
                until = time.monotonic() + PATIENCE
            else:
                time.sleep(0.01)
    if count:
        raise RuntimeError(f"{count} lines of the log are missing")


def draw(rules: Rules, alerts: list[Alert], path: Path) -> list[tuple[datetime, int, int]]:
    """Draws requests and failures by ten seconds, with the alerts. Returns the failures' share."""
    def second(instant: datetime) -> float:
        return (instant - START).total_seconds()

    traffic = [each for each in rules.traffic.answers() if each.instant > START]
    failures = {each.instant: each.failures for each in rules.failures.answers()}
    plot = Plot("Requests by ten seconds, server errors, and alerts", (0, SECONDS), (0, 40))
    plot.axes(range(0, SECONDS + 1, 60), range(0, 41, 10),
              lambda at: (START + timedelta(seconds=at)).strftime("%H:%M"))
    plot.bars("requests", [(second(each.instant), each.requests) for each in traffic], "#c9d8d2",
              10)
    plot.bars("server errors", [(second(at), count) for at, count in failures.items() if count],
              ORANGE, 10)
    for place, alert in enumerate(alerts):
        color = RED if "errors" in alert.what else BLUE
        plot.mark(second(alert.instant), 31 + 2.5 * (place % 3), color, False)
        plot.note(second(alert.instant) + 5, 30.4 + 2.5 * (place % 3),
                  f"{alert.ip} {alert.what}", color, "start" if place < 3 else "end")
    plot.write(path)
    return [(each.instant, failures[each.instant], each.requests) for each in traffic
            if failures[each.instant]]


def tutorial(out: TextIO, folder: Path) -> None:
    """Writes what the tutorial shows, and draws its picture."""
    count = sum(1 for _ in requests())
    with tempfile.TemporaryDirectory() as place, nginx(Path(place)) as port, Process() as engine:
        rules = Rules(engine)
        loading = threading.Thread(target=load, args=(port,), daemon=True)
        loading.start()
        newest, alerts = START, list[Alert]()
        for line in lines_of(Path(place, "access.log"), count):
            instant = rules.read(line)
            if instant > newest:  # the log goes on in order, so the second before is over
                alerts += rules.look(instant - timedelta(seconds=1))
                newest = instant
        loading.join()
        alerts += rules.look(START + timedelta(seconds=SECONDS))  # the load is over
        print(f"{count} requests", file=out)
        for alert in alerts:
            print(f"{alert.instant:%H:%M:%S}  {alert.ip:10}  {alert.what}", file=out)
        print("\nserver errors by ten seconds:", file=out)
        for at, failures, asked in draw(rules, alerts, folder / "alerts-over-a-web-log.svg"):
            print(f"{at:%H:%M:%S}  {failures} of {asked} requests, {failures / asked:.0%}",
                  file=out)


def main() -> None:
    """Writes the output and the picture into a folder."""
    folder = Path(sys.argv[1]) if len(sys.argv) > 1 else HERE
    with (folder / "alerts-over-a-web-log.txt").open("w") as out:
        tutorial(out, folder)
    print((folder / "alerts-over-a-web-log.txt").read_text(), end="")


if __name__ == "__main__":
    main()
