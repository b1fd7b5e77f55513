#!/usr/bin/env python3
"""A server, two producers, a follower, and a restart.

    /usr/bin/python3 docs/tutorials/a_service.py [FOLDER]

It prints a-service.txt and draws a-service.svg, by default beside itself. As
`a_service.py produce Orders PORT JOURNAL` it is a producer, a process of its own.
"""
from __future__ import annotations

import csv
import random
import subprocess
import sys
import tempfile
import time
from collections.abc import Iterator
from pathlib import Path
from typing import Any, NoReturn, TextIO

HERE = Path(__file__).resolve().parent
sys.path[:0] = [str(HERE), str(HERE.parents[1] / "clients" / "python")]

from picture import GREEN, Plot  # noqa: E402

from cqld import (  # noqa: E402
    CannotConnect, Client, Connection, ConnectionLost, Decimal, Int, PortTaken, Process, Query,
    Refused, Server, Stream)

MINUTES = 12
BROKEN_AFTER = 5  # minutes that the follower has seen when the server is killed
SECONDS = 60 * MINUTES
PATIENCE = 60.0  # seconds that anything may take on a busy machine

PAID = """
    Select Rstream(Count(*) As orders, Sum(Orders.amount) As amount)
    From Payments [Range 59 Slide 60], Orders [Range 599]
    Where Payments.number = Orders.number Every 60
"""


class Shop:
    """The streams and the query, over a connection."""

    def __init__(self, connection: Connection) -> None:
        self.orders = Stream(connection, "Orders", {"number": Int(), "amount": Decimal(2)})
        self.payments = Stream(connection, "Payments", {"number": Int()})
        self.paid = Query(connection, "paid", PAID, [self.orders, self.payments])

    def declare(self) -> None:
        """Declares the streams and registers the query."""
        self.orders.declare()
        self.payments.declare()
        self.paid.register()

    def stream(self, name: str) -> Stream:
        """Returns the stream of a name."""
        return self.orders if name == "Orders" else self.payments


def events() -> tuple[list[Any], list[Any]]:
    """Returns the orders and the payments: rows of an instant, a number and perhaps an amount."""
    chance = random.Random(3)
    orders, payments = [], []
    for number in range(SECONDS // 3):
        second = chance.randrange(SECONDS)
        orders.append((second, number, chance.randrange(500, 20_000) / 100))
        if chance.random() < 0.8:  # some are never paid
            payments.append((second + chance.randrange(5, 240), number))
    return sorted(orders), sorted(row for row in payments if row[0] < SECONDS)


def produce(name: str, port: int, journal: Path) -> NoReturn:
    """Writes each row into a journal and then sends it. A new server gets the whole journal.

    After each simulated second it promises that no more rows of it come. It goes on for good.
    """
    rows = events()[0 if name == "Orders" else 1]
    by_second: list[list[Any]] = [[] for _ in range(SECONDS + 1)]
    for row in rows:
        by_second[row[0]].append(row)
    done = 0  # the seconds that are in the journal
    while True:
        try:
            with Client(port, timeout=PATIENCE) as client:
                client.plan("paid")  # a query sees the rows that come after it, so it goes first
                stream = Shop(client).stream(name)
                replay(stream, journal, done - 1)
                while done <= SECONDS:
                    keep(journal, by_second[done])
                    done += 1
                    stream.append(by_second[done - 1])
                    stream.heartbeat(done - 1)
                    time.sleep(0.002)
                while True:  # the day is over; the journal is sent again if the server goes
                    client.plan("paid")
                    time.sleep(0.05)
        except (CannotConnect, ConnectionLost):
            time.sleep(0.05)  # the server is away
        except Refused as refused:
            if refused.code != "E6":
                raise
            time.sleep(0.05)  # it is back, and the query is not there yet


def keep(journal: Path, rows: list[Any]) -> None:
    """Adds rows to a journal."""
    with journal.open("a", newline="") as file:
        csv.writer(file).writerows(rows)


def journal_of(path: Path) -> Iterator[list[Any]]:
    """Yields the rows of a journal."""
    with path.open(newline="") as file:
        for instant, number, *amount in csv.reader(file):
            yield [int(instant), int(number), *map(float, amount)]


def replay(stream: Stream, journal: Path, closed: int) -> None:
    """Sends a journal, and the promise that went with it."""
    if closed >= 0:
        stream.append(journal_of(journal))
        stream.heartbeat(closed)


def follow(port: int, handled: list[Any]) -> Iterator[Any]:
    """Yields the minutes that were not handled yet, until the connection is lost or all came.

    A new server answers anew from the first minute, and answers the same: so the follower passes
    over as many as it has handled.
    """
    with Client(port, timeout=PATIENCE) as client:
        skip = len(handled)
        # One at a time, so that this tutorial prints the same at each run.
        for minute in Shop(client).paid.follow(0.01, deadline=PATIENCE, limit=1):
            if skip > 0:
                skip -= 1
                continue
            yield minute
            if minute.instant == SECONDS:
                return


def start(port: int = 0) -> Server:
    """Starts a server, and declares what it is to answer. Its port may be in use for a while."""
    until = time.monotonic() + 2 * PATIENCE
    while True:
        try:
            server = Server(port, timeout=PATIENCE)
            break
        except PortTaken:
            if time.monotonic() > until:
                raise
            time.sleep(0.1)
    with Client(server.port, timeout=PATIENCE) as client:
        Shop(client).declare()
    return server


def serve(out: TextIO, folder: Path) -> list[Any]:
    """Runs the server, the producers and the follower. Returns the minutes that were handled."""
    handled: list[Any] = []
    server = start()
    print("the server runs, and two producers send", file=out)
    producers = [
        subprocess.Popen([sys.executable, __file__, "produce", name, str(server.port),
                          str(folder / f"{name}.csv")]) for name in ("Orders", "Payments")]
    until = time.monotonic() + 4 * PATIENCE
    try:
        while not handled or handled[-1].instant < SECONDS:
            if time.monotonic() > until or any(each.poll() is not None for each in producers):
                raise RuntimeError("a producer failed, or is too slow")
            try:
                for minute in follow(server.port, handled):
                    handled.append(minute)
                    print(f"minute {minute.instant // 60:2}  {minute.orders:2} orders paid  "
                          f"{minute.amount or 0:8.2f}", file=out)
                    if len(handled) == BROKEN_AFTER + 1:
                        server.close()  # as a power cut would: nothing of it is left
            except ConnectionLost:
                print("the server was killed, and starts again; the producers send their journals",
                      file=out)
                server = start(server.port)
    finally:
        for producer in producers:
            producer.kill()
            producer.wait()
        server.close()
    return handled


def in_one_run(folder: Path) -> list[Any]:
    """Returns what cqlrun answers to the two journals, without any restart."""
    with Process(timeout=PATIENCE) as engine:
        shop = Shop(engine)
        shop.declare()
        for stream in (shop.orders, shop.payments):
            replay(stream, folder / f"{stream.name}.csv", SECONDS)
        return list(shop.paid.answers())


def draw(minutes: list[Any], path: Path) -> None:
    """Draws what was paid by the minute, and where the server was killed."""
    plot = Plot("Paid by the minute, over a server that was killed once", (0, MINUTES), (0, 3_000))
    plot.axes(range(0, MINUTES + 1, 2), range(0, 3_001, 500), lambda at: f"minute {at:g}")
    paid = [(each.instant / 60, float(each.amount or 0)) for each in minutes[1:]]
    plot.bars("paid", paid, GREEN, 1)
    plot.moment(BROKEN_AFTER, "killed, and started again")
    plot.write(path)


def tutorial(out: TextIO, folder: Path) -> None:
    """Writes what the tutorial shows, and draws its picture."""
    with tempfile.TemporaryDirectory() as journals:
        handled = serve(out, Path(journals))
        same = handled == in_one_run(Path(journals))
        print(f"each minute came once, and as without a restart: {same}", file=out)
    draw(handled, folder / "a-service.svg")


def main() -> None:
    """Writes the output and the picture into a folder, or produces."""
    if sys.argv[1:2] == ["produce"]:
        produce(sys.argv[2], int(sys.argv[3]), Path(sys.argv[4]))
        return
    folder = Path(sys.argv[1]) if len(sys.argv) > 1 else HERE
    with (folder / "a-service.txt").open("w") as out:
        tutorial(out, folder)
    print((folder / "a-service.txt").read_text(), end="")


if __name__ == "__main__":
    main()
