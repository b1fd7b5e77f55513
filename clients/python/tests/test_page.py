"""The live page, in a headless Chromium and by its events."""
from __future__ import annotations

import http.client
import io
import json
import re
import signal
import socket
import subprocess
import sys
import tempfile
import time
import unittest
from contextlib import redirect_stderr
from pathlib import Path
from typing import Any, Callable, Iterator, Mapping

HERE = Path(__file__).resolve().parent
PACKAGE = HERE.parent
sys.path[:0] = [str(PACKAGE), str(HERE)]

from browser import Browser, program as browser_program  # noqa: E402
from standin import Fake, Standin  # noqa: E402
from support import PATIENCE, environment  # noqa: E402

from cqld import Client, PortTaken, Server, shell  # noqa: E402
from cqld.page.history import History  # noqa: E402

MEAN = "Select Rstream(room, Count(*), Sum(degrees)) From Temp [Range 9] Group By room"
HOT = "Select Rstream(room, degrees) From Temp [Now] Where degrees > 215"
LINES = "document.querySelectorAll('#plot path.trace').length"
LINE = "document.querySelector('#plot path.trace').getAttribute('d')"
SESSION = """
create stream Trades (symbol text, price decimal(2)) unit second;
create query means as
  Select Rstream(symbol, Avg(price) As mean, Count(*) As n) From Trades [Range 1 minute]
  Group By symbol Having mean > 100;
insert into Trades values ('2026-11-27 12:00:00', '<b>ACME</b>', 101.50),
  ('2026-11-27 12:00:01', '<b>ACME</b>', 102), ('2026-11-27 12:00:01', 'BOLT', 99.99);
"""
HOSTILE = "<img src=x onerror=\"document.body.dataset.hurt='1'\">"


class Page:
    """The command, running in a process of its own. Use it in a `with`."""

    def __init__(self, server: int, *words: str, port: int = 0) -> None:
        self._words = [sys.executable, "-m", "cqld.page", "--server", f"127.0.0.1:{server}",
                       "--every", "0.2", *words]
        if not self._start(port):
            raise AssertionError("the page does not start")

    def _start(self, port: int) -> bool:
        self.process = subprocess.Popen(
            [*self._words, "--port", str(port)], stdout=subprocess.PIPE, text=True,
            env=environment())
        assert self.process.stdout is not None
        line = self.process.stdout.readline()
        found = re.fullmatch(r"cql page: (http://127\.0\.0\.1:(\d+)/)\n", line)
        if found is None:
            self.process.wait(PATIENCE)
            self.process.stdout.close()
            return False
        self.address, self.port = found[1], int(found[2])
        return True

    def end(self, number: signal.Signals = signal.SIGTERM) -> int:
        """Ends it by a signal, and returns its status."""
        self.process.send_signal(number)
        status = self.process.wait(PATIENCE)
        assert self.process.stdout is not None
        self.process.stdout.close()
        return status

    def again(self) -> None:
        """Starts it anew on the same port, which another program may have for a while."""
        wait(lambda: self._start(self.port))

    def __enter__(self) -> Page:
        return self

    def __exit__(self, *_: object) -> None:
        if self.process.poll() is None:
            self.end()

    def get(self, path: str, host: str | None = None) -> tuple[int, dict[str, str], bytes]:
        """Returns the status, the headers and the body of a path."""
        connection = http.client.HTTPConnection("127.0.0.1", self.port, timeout=PATIENCE)
        try:
            connection.request("GET", path, headers={} if host is None else {"Host": host})
            reply = connection.getresponse()
            return reply.status, {key.lower(): value for key, value in reply.getheaders()}, \
                reply.read()
        finally:
            connection.close()

    def state(self) -> dict[str, Any]:
        """Returns what the page knows."""
        state: dict[str, Any] = json.loads(self.get("/state")[2])
        return state


def wait(fact: Callable[[], Any]) -> Any:
    """Waits until a fact holds, and returns it."""
    until = time.monotonic() + PATIENCE
    while True:
        found = fact()
        if found:
            return found
        if time.monotonic() > until:
            raise AssertionError("it never came to hold")
        time.sleep(0.05)


def declare(client: Client) -> None:
    """Declares two streams and two queries."""
    client.stream("Temp", ["room", "degrees"])
    client.stream("Doors", ["room", "open"])
    client.query("mean", MEAN)
    client.query("hot", HOT)


def feed(client: Client, begin: int, end: int) -> None:
    """Appends rows of three rooms, and closes Temp to the last instant, Doors to 3 before it."""
    rows = [(at, room, 200 + 7 * room + at % 9) for at in range(begin, end) for room in range(3)]
    client.append("Temp", rows)
    client.heartbeat("Temp", end - 1)
    client.heartbeat("Doors", end - 4)
    client.drain()


class LooksTest(unittest.TestCase):
    """The page over a real server, and over servers that say what none would."""

    browser: Browser

    @classmethod
    def setUpClass(cls) -> None:
        if browser_program() is None:
            raise unittest.SkipTest("no chromium")
        cls.browser = Browser()

    @classmethod
    def tearDownClass(cls) -> None:
        cls.browser.close()

    def open(self, page: Page, query: str = "", width: int = 1280, dark: bool = False) -> Browser:
        self.browser.size(width, 900, dark)
        self.browser.open("about:blank")
        self.browser.open(page.address + (f"#{query}" if query else ""))
        self.browser.wait("document.body.dataset.link === 'live'")
        return self.browser

    def test_page_shows_all_and_moves_on_and_reads_on_a_phone_and_in_the_dark(self) -> None:
        for make in (Server, Standin):
            with self.subTest(make.__name__), make() as server, Client(server.port) as client:
                self.shows(server, client)

    def shows(self, server: Server | Standin, client: Client) -> None:
        """Looks at a page that is open while rows come and are taken."""
        declare(client)
        feed(client, 0, 40)
        with Page(server.port) as page:
            browser = self.open(page, "mean")
            browser.wait("document.body.dataset.rows === '120'")
            browser.wait("document.querySelectorAll('#plan .operator').length === 3")
            shown = browser.text()
            for words in ("3 behind", "in front", "120 waiting", "looks only", "500000/3"):
                self.assertIn(words, shown)
            first = browser.value("document.querySelector('#rows tr').innerText.split('\\t')")
            self.assertEqual([cell.strip() for cell in first], ["", "39", "2", "10", "2,179"])
            self.assertEqual(browser.value(LINES), 3)
            taken = {it.name: it.taken for it in client.status().queries.values()}
            self.assertEqual(taken, {"mean": 0, "hot": 0})
            if isinstance(server, Standin):
                self.assertEqual(server.count("take"), 0)
            self.assertEqual(browser.troubles, [])

            before = browser.value(LINE)
            feed(client, 40, 50)  # the plot and the table move on
            browser.wait("document.body.dataset.rows === '150'")
            browser.wait("document.querySelector('#rows tr').innerText.includes('49')")
            browser.wait(f"{LINE} !== {json.dumps(before)}")
            self.assertEqual(len(client.take("mean", 100)), 100)  # someone else takes
            browser.wait("document.body.innerText.includes('100 taken')")
            browser.wait("document.querySelector('#figures').innerText.includes('50')")
            self.assertEqual(browser.value("document.body.dataset.rows"), "150")
            browser.value("document.querySelector('button[data-name=hot]').click()")
            browser.wait("document.querySelector('#name').textContent === 'hot'")
            self.assertEqual(browser.troubles, [])
            self.reads(page, rows=150)  # the page remembers those that were taken

    def reads(self, page: Page, rows: int) -> None:
        """Opens the page on a phone and in the dark, and takes a picture of it."""
        grounds = set()
        with tempfile.TemporaryDirectory() as folder:
            for width, dark in [(390, False), (390, True), (1280, True)]:
                browser = self.open(page, "mean", width, dark)
                browser.wait(f"document.body.dataset.rows === '{rows}'")
                browser.wait("document.querySelector('#plan svg') !== null")
                wide = browser.value("document.documentElement.scrollWidth")
                self.assertLessEqual(wide, width)
                grounds.add((dark, browser.value(
                    "getComputedStyle(document.body).backgroundColor")))
            picture = Path(folder, "page.png")
            browser.screenshot(picture)
            self.assertGreater(picture.stat().st_size, 10_000)
        self.assertEqual(len(grounds), 2)

    def test_names_and_texts_are_shown_and_never_read_as_markup(self) -> None:
        def answer(request: Mapping[str, Any]) -> Mapping[str, Any]:
            if request["op"] == "status":
                return {"ok": True,
                        "streams": [{"name": HOSTILE, "closed": 3, "rows": 1,
                                     "columns": [HOSTILE]}],
                        "queries": [{"name": HOSTILE, "base": -1, "taken": 0, "upto": 3,
                                     "waiting": 1}]}
            if request["op"] == "peek":
                return {"ok": True, "rows": [[3, None, 2 ** 62]]}
            return {"ok": True, "operators": [[HOSTILE, "1/1"]]}

        with Fake(answer) as server, Page(server.port) as page:
            browser = self.open(page)
            browser.wait("document.body.dataset.rows === '1'")
            browser.wait("document.querySelector('#plan .operator') !== null")
            self.assertEqual(browser.value("document.querySelector('#name').textContent"), HOSTILE)
            self.assertEqual(browser.value("document.querySelectorAll('img').length"), 1)
            self.assertIsNone(browser.value("document.body.dataset.hurt || null"))
            self.assertIn(str(2 ** 62), browser.text())
            self.assertEqual(browser.troubles, [])

    def test_values_are_decoded_where_the_page_is_told_of_a_session(self) -> None:
        with Server() as server, tempfile.TemporaryDirectory() as folder:
            session, words = Path(folder, "session.cql"), Path(folder, "words")
            session.write_text(SESSION)
            told = ["--dictionary", str(words)]
            subprocess.run([sys.executable, "-m", "cqld", "--connect", f"127.0.0.1:{server.port}",
                            *told, str(session)], check=True, env=environment(),
                           timeout=PATIENCE, stdout=subprocess.DEVNULL)
            with Client(server.port) as client:
                client.heartbeat("Trades", 1_795_780_801)  # 12:00:01
            with Page(server.port, "--session", str(session), *told) as page:
                browser = self.open(page, "means")
                browser.wait("document.body.dataset.rows === '2'")  # Having leaves one of three out
                rows = browser.value("[...document.querySelectorAll('#rows tr')].map("
                                     "(row) => [...row.cells].map((cell) => cell.textContent))")
                self.assertEqual(rows, [["", "2026-11-27 12:00:01", "<b>ACME</b>", "101.75", "2"],
                                        ["", "2026-11-27 12:00:00", "<b>ACME</b>", "101.50", "1"]])
                head = browser.value("document.querySelector('#head').innerText.split('\\t')")
                names = [name.strip() for name in head]
                self.assertEqual(names, ["", "time", "symbol", "mean", "n"])
                self.assertIn("Having mean > 100", browser.value(
                    "document.querySelector('#text').textContent"))
                self.assertEqual(browser.value("document.querySelector('#key').value"), "0")
                self.assertEqual(browser.value(LINES), 1)
                self.assertEqual(browser.troubles, [])

    def test_server_that_goes_away_and_comes_back_is_told(self) -> None:
        first = Server()
        with first, Client(first.port) as client, Page(first.port) as page:
            declare(client)
            feed(client, 0, 40)
            browser = self.open(page, "mean")
            browser.wait("document.body.dataset.rows === '120'")
            first.close()
            browser.wait("document.body.dataset.link === 'server away'")
            self.assertIn("The page tries again", browser.text())
            self.assertFalse(page.state()["connected"])
            with wait(lambda: server_again(first.port)) as second:
                browser.wait("document.body.dataset.link === 'live'")
                browser.wait("document.body.innerText.includes('No stream is declared')")
                with Client(second.port) as client:
                    declare(client)
                    feed(client, 0, 10)
                    browser.wait("document.body.dataset.rows === '30'")

    def test_page_that_goes_away_and_comes_back_is_told(self) -> None:
        with Server() as server, Client(server.port) as client:
            declare(client)
            feed(client, 0, 40)
            with Page(server.port) as page:
                browser = self.open(page, "mean")
                browser.wait("document.body.dataset.rows === '120'")
                self.assertEqual(page.end(), 0)
                browser.wait("document.body.dataset.link === 'page away'")
                page.again()
                browser.wait("document.body.dataset.link === 'live'")
                browser.wait("document.body.dataset.rows === '120'")

    def test_server_without_peek_is_taken_from_only_where_allowed(self) -> None:
        with Standin(timeout=PATIENCE) as server:
            server.faults = {"peek": "N2 BadRequest", "status": "N2 BadRequest"}
            self.taken(server.port, looks=False)

    def test_page_over_the_real_server(self) -> None:
        with Server() as server:
            self.taken(server.port, looks=True)

    def taken(self, port: int, looks: bool) -> None:
        """Shows a query that the page may take from, beside one that it may not."""
        with Client(port) as client:
            client.stream("Temp", ["room", "degrees"])
            client.query("mean", MEAN)
            client.query("hot", HOT)
            client.append("Temp", [(at, 1, 200 + at) for at in range(30)])
            client.heartbeat("Temp", 29)
            with Page(port, "--query", "mean") as page:
                browser = self.open(page, "mean")
                browser.wait("document.body.dataset.rows === '30'")
                browser.wait("document.querySelectorAll('#plan .operator').length === 3")
                state = page.state()
                self.assertEqual(state["looks"], looks)
                self.assertEqual(len(client.take("mean")), 30 if looks else 0)
                for words in ("looks only",) if looks else (
                        "takes answers", "Showing these answers takes them", "30 answers"):
                    self.assertIn(words, browser.text())
                rows: list[Any] = []  # of the other query the page takes nothing
                until = time.monotonic() + PATIENCE
                while len(rows) < 14 and time.monotonic() < until:
                    rows += client.take("hot")
                self.assertEqual(len(rows), 14)
                self.assertEqual(browser.troubles, [])


class SiteTest(unittest.TestCase):
    """The page's server."""

    def test_replies_have_headers_events_are_pushed_and_only_this_machine_is_answered(self) -> None:
        with Server() as server, Page(server.port) as page:
            wait(lambda: page.state()["connected"])
            for path in ("/", "/page.css", "/page.js", "/plot.js", "/plan.js", "/words.js",
                         "/icon.svg", "/state"):
                status, headers, body = page.get(path)
                self.assertEqual((path, status), (path, 200))
                self.assertIn("default-src 'self'", headers["content-security-policy"])
                self.assertEqual(headers["x-content-type-options"], "nosniff")
                for elsewhere in re.findall(rb"https?://[^\s\"'`]+", body):
                    self.assertEqual(elsewhere, b"http://www.w3.org/2000/svg")
            status, headers, _ = page.get("/../command.py")
            self.assertEqual(status, 404)
            self.assertIn("default-src 'self'", headers["content-security-policy"])
            self.assertEqual(page.get("/state", host="evil.example")[0], 421)
            self.assertEqual(page.get("/state", host=f"localhost:{page.port}")[0], 200)
            with Client(server.port) as client:
                declare(client)
                self.pushes(page, client)

    def pushes(self, page: Page, client: Client) -> None:
        """Waits for events of new answers, and ends the page while a viewer waits for more."""
        with socket.create_connection(("127.0.0.1", page.port), PATIENCE) as viewer:
            viewer.sendall(f"GET /events?query=hot HTTP/1.1\r\nHost: 127.0.0.1:{page.port}\r\n\r\n"
                           .encode())
            lines = events(viewer)
            feed(client, 0, 40)
            rows = next(data["rows"] for name, data in lines if name == "answers" and data["rows"])
            self.assertEqual(rows[0], [0, 2, "2", "216"])
            self.assertEqual(page.end(signal.SIGINT), 0)

    def test_faults_of_the_command_are_named(self) -> None:
        with socket.socket() as other, tempfile.TemporaryDirectory() as folder:
            other.bind(("127.0.0.1", 0))
            other.listen()
            port = other.getsockname()[1]
            session = Path(folder, "session.cql")
            session.write_text("create stream S (a int);\ncreate query q as Select a From S;\n")
            for words, told in [
                (["--port", str(port)], f"cql page: port {port} of 127.0.0.1 is taken: "
                                        "choose another one by --port\n"),
                (["--session", str(session)], f"cql page: {session}:2: "),
                (["--session", str(session.parent / "none")], "No such file"),
                (["--server", "here"], "'here' is no HOST:PORT"),
            ]:
                with redirect_stderr(io.StringIO()) as errors:
                    self.assertEqual(shell.main(["page", *words]), 1)
                self.assertIn(told, errors.getvalue())


def server_again(port: int) -> Server | None:
    """Starts a server on a port of before, or returns None while another program has it."""
    try:
        return Server(port)
    except PortTaken:
        return None


def events(viewer: socket.socket) -> Iterator[tuple[str, Any]]:
    """Yields the name and the data of each event that comes."""
    name = ""
    for line in viewer.makefile("r", encoding="utf-8"):
        if line.startswith("event: "):
            name = line[7:].strip()
        elif line.startswith("data: "):
            yield name, json.loads(line[6:])


class HistoryTest(unittest.TestCase):
    """What the page remembers of a query's answers."""

    def test_answers_are_kept_once_and_gaps_are_counted(self) -> None:
        history = History(4)
        self.assertEqual(history.see(0, [[1, 10], [2, 20]]), 2)
        self.assertEqual(history.see(1, [[2, 20], [3, None]]), 1)  # one of them was seen
        self.assertEqual([answer.place for answer in history.since(0)], [0, 1, 2])
        self.assertEqual(history.see(5, [[7, 70], [8, 80]]), 2)  # two were taken unseen
        self.assertEqual(history.missed, 2)
        self.assertEqual([answer.instant for answer in history.since(0)], [2, 3, 7, 8])
        self.assertEqual([answer.instant for answer in history.since(6)], [8])
        self.assertEqual(history.since(7), [])

    def test_answers_that_go_back_in_time_begin_a_new_life(self) -> None:
        history = History(4)
        history.see(0, [[5, 1]])
        life = history.life
        history.see(1, [[0, 7]])
        self.assertNotEqual(history.life, life)
        self.assertEqual([answer.values for answer in history.since(0)], [(7,)])


if __name__ == "__main__":
    unittest.main()
