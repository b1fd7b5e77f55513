"""Tries the client in Python over a cqld, and cqld by a bare socket as nc does."""

import json
import os
import pathlib
import random
import re
import socket
import subprocess
import sys
import threading

ROOT = pathlib.Path(__file__).parents[2]
sys.path.insert(0, str(ROOT / "clients" / "python"))

from cqld import Client, Refused
from server import Server

TEXT = "Select Istream(symbol) From Trades [Now] Where price > 100"


def first_query(program):
    """The lines of the client's own page."""
    with Server(program, 2, 1, 1) as server:
        with Client(server.port) as client:
            client.stream("Trades", ["symbol", "price"])
            client.query("high", TEXT)
            assert client.append("Trades", [(0, 7, 120), (1, 8, 99), (2, 7, 101)]) == 3
            client.heartbeat("Trades", 2)
            rows = []
            while len(rows) < 2:
                rows += client.answers("high")
            assert rows == [[0, 7], [2, 7]], rows
            try:
                client.append("Trades", [(2, 8, 150)])
                raise AssertionError("a late row was accepted")
            except Refused as refused:
                assert refused.fault == "E10 Late", refused.fault
            kinds = [kind for kind, _ in client.plan("high")]
            assert kinds == ["Window", "Select", "Project", "ToStream"]
            client.drop("high")
        assert server.ended() == (0, "")
    print("first query: two answers, and a late row is refused")


def many_rows(program, count=10_000):
    """Rows of a generator, with long numbers, so that they need many appends and lines."""
    draw = random.Random(1)
    rows = [(n, *(draw.randrange(10**12) for _ in range(8))) for n in range(count)]
    with Server(program, 2, 1, 1) as server:
        with Client(server.port) as client:
            client.stream("S", [f"c{n}" for n in range(8)])
            client.query("q", "Select Istream(*) From S [Now]")
            assert client.append("S", (row for row in rows)) == count
            client.heartbeat("S", count - 1)
            taken = []
            while len(taken) < count:
                taken += client.answers("q")
            assert taken == [list(row) for row in rows]
        assert server.ended() == (0, "")
    print(f"many rows: {count} of a generator come back in order")


def two_terminals(program):
    """One client appends, another one that came before waits for the answers."""
    with Server(program, 1, 2, 2) as server:
        with Client(server.port) as reader, Client(server.port) as writer:
            reader.stream("S", ["a"])
            reader.query("q", "Select Istream(*) From S [Now]")
            taken = []

            def read():
                for row in reader.follow("q", 0.001):
                    taken.append(row)
                    if len(taken) == 3:
                        return

            thread = threading.Thread(target=read)
            thread.start()
            for instant in range(3):
                writer.append("S", [(instant, 10 * instant)])
                writer.heartbeat("S", instant)
            thread.join(60)
            assert taken == [[0, 0], [1, 10], [2, 20]], taken
        assert server.ended() == (0, "")
    print("two clients: one appends, the other one takes what is answered")


def bare(program):
    """Lines by a bare socket, the last one without its line feed."""
    with Server(program, 1, 1, 1) as server:
        with socket.create_connection(("127.0.0.1", server.port)) as connection:
            connection.sendall(
                b'{"op":"stream","name":"S","columns":["a"],"from":0}\n{"op":"drain"')
            connection.shutdown(socket.SHUT_WR)
            with connection.makefile("rb") as lines:
                assert lines.read() == b'{"ok":true}\n{"error":"N1 NotJson"}\n'
        assert server.ended() == (0, "")
    print("a bare socket: two lines are answered")


def own_address(program):
    """It listens on 127.0.0.1 only: the same port of another address of the machine is refused."""
    with Server(program, 1, 1, 1) as server:
        try:
            socket.create_connection(("127.0.0.2", server.port), 60).close()
        except ConnectionRefusedError:
            pass
        else:
            raise AssertionError("a connection to 127.0.0.2 was taken")
        # the one that it serves, which says nothing
        socket.create_connection(("127.0.0.1", server.port), 60).close()
        assert server.ended() == (0, "")
    print("127.0.0.2 at the server's port: refused")


def ways_to_end(program):
    """Wrong words, a port that is taken, and no connection to serve."""
    def run(*words):
        done = subprocess.run([program, *words], capture_output=True, text=True, timeout=60)
        return done.returncode, done.stdout, done.stderr

    common = ("--workers=1", "--clients=1")
    status, out, errors = run("--port=0", *common, "--serve=0")
    assert status == 0 and out.startswith("cqld: listening on 127.0.0.1:") and errors == ""
    status, out, errors = run("--port=65536", *common)
    assert status == 2 and out == "" and errors != ""
    status, out, errors = run(*common)
    assert status == 2 and out == "" and errors != ""
    status, out, errors = run("--help")
    assert status == 0 and out != "" and errors == ""
    with socket.socket() as taken:
        taken.bind(("127.0.0.1", 0))
        taken.listen()
        status, out, errors = run(f"--port={taken.getsockname()[1]}", *common)
    assert (status, out, errors) == (1, "", "cqld: bind failed\n")
    print("ways to end: statuses 0, 1 and 2, with their lines")


def page():
    """The part of docs/use.md on the server."""
    text = (ROOT / "docs" / "use.md").read_text()
    return re.search(r"(?ms)^## A server$(.*?)^## ", text)[1]


def from_nc(program):
    """The terminals of docs/use.md: each reply is the one there, once the workers are done."""
    blocks = [re.findall(r"(?m)^    (.*)$", it) for it in page().split("\n\n")]
    blocks = [it for it in blocks if it and ("nc " in it[0] or it[0].startswith("{"))]
    assert len(blocks) == 3, blocks
    tried = 0
    with Server(program, 2, 8, 2) as server:
        terminals = []
        for block in blocks:
            if "nc " in block[0]:
                connection = socket.create_connection(("127.0.0.1", server.port))
                terminals.append(connection.makefile("rw"))
            lines = terminals[-1] if "nc " in block[0] else terminals[0]
            told = [it for it in block if it.startswith("{")]
            for request, wanted in zip(told[::2], told[1::2], strict=True):
                reply = None
                while reply is None or reply == '{"ok":true,"rows":[]}':
                    print(request, file=lines, flush=True)
                    reply = lines.readline().rstrip("\n")
                assert json.loads(request)["op"] and reply == wanted, (request, reply, wanted)
                tried += 1
            connection.close()
        for lines in terminals:
            lines.close()
        assert server.ended() == (0, "")
    assert tried == 5, tried
    print("docs/use.md from nc: five replies are those that stand there")


def from_python(program):
    """The dozen lines of Python of docs/use.md print what stands behind them."""
    (lines, wanted), = re.findall(r"(?ms)^```python\n(.*?)^```\n\n```text\n(.*?)^```$", page())
    path = f"{pathlib.Path(program).parent}{os.pathsep}{os.environ['PATH']}"
    done = subprocess.run([sys.executable, "-c", lines], capture_output=True, text=True, timeout=60,
                          env={**os.environ, "PATH": path})
    assert (done.returncode, done.stdout) == (0, wanted), done
    print("docs/use.md from Python: it prints what stands there")


def main(program):
    ways_to_end(program)
    own_address(program)
    bare(program)
    from_nc(program)
    from_python(program)
    first_query(program)
    two_terminals(program)
    many_rows(program)


main(sys.argv[1])
