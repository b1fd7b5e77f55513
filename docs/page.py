#!/usr/bin/env python3
"""Draws page.png and page-dark.png: the live page over five minutes of trades, by Chromium.

Run it as `/usr/bin/python3 docs/page.py`. The trades are random numbers from a fixed seed.
"""
from __future__ import annotations

import random
import subprocess
import sys
import tempfile
import time
from pathlib import Path

HERE = Path(__file__).resolve().parent
PACKAGE = HERE.parent / "clients" / "python"
sys.path[:0] = [str(PACKAGE), str(PACKAGE / "tests")]

from browser import Browser  # noqa: E402

from cqld import Client, FileDictionary, Server  # noqa: E402

SECONDS = 300
SYMBOLS = ["ACME", "BOLT", "CORA"]
SESSION = """
create stream Trades (symbol text, price decimal(2), amount int) unit second start {start};
create stream Listed (symbol text) unit second start {start};
create query mean_price as
  Select Rstream(Trades.symbol, Avg(price) As mean, Sum(amount) As volume)
  From Trades [Range 1 minute], Listed [Partition By symbol Rows 1]
  Where Trades.symbol = Listed.symbol And amount > 10 Group By Trades.symbol;
create query large_trades as
  Select Rstream(symbol, price, amount) From Trades [Now] Where amount > 190;
create query price_range as
  Select Rstream(symbol, Min(price) As low, Max(price) As high)
  From Trades [Range 1 minute Slide 1 minute] Group By symbol Every 1 minute;
"""


def feed(client: Client, words: FileDictionary, start: int) -> None:
    """Appends the trades, and closes Trades to their end and Listed to four seconds before it."""
    chance = random.Random(11)
    numbers = words.numbers(SYMBOLS)
    prices = [101.0, 97.5, 104.0]
    client.append("Listed", [(start + place, number) for place, number in enumerate(numbers)])
    for second in range(SECONDS):
        rows = []
        for place, number in enumerate(numbers):
            prices[place] += chance.gauss(0, 0.35) + (100 - prices[place]) * 0.01
            rows.append((start + second, number, round(100 * prices[place]),
                         chance.randrange(1, 200)))
        client.append("Trades", rows)
    client.heartbeat("Trades", start + SECONDS - 1)
    client.heartbeat("Listed", start + SECONDS - 5)
    client.drain()


def main() -> None:
    """Draws both pictures."""
    with tempfile.TemporaryDirectory() as folder, Server() as running:
        start = int(time.time()) - SECONDS
        session, numbers = Path(folder, "session.cql"), Path(folder, "words")
        session.write_text(SESSION.format(start=start))
        told = ["--dictionary", str(numbers)]
        python = [sys.executable, "-m"]
        subprocess.run([*python, "cqld", "--connect", f"127.0.0.1:{running.port}", *told,
                        str(session)], check=True, cwd=PACKAGE)
        with Client(running.port) as client:
            feed(client, FileDictionary(numbers), start)
            client.take("large_trades", 20)
            words = [*python, "cqld.page", "--port", "0", "--server", str(running.port),
                     "--session", str(session), *told]
            page = subprocess.Popen(words, stdout=subprocess.PIPE, text=True, cwd=PACKAGE)
            assert page.stdout is not None
            try:
                address = page.stdout.readline().split()[-1]
                with Browser() as browser:
                    for dark, name in ((False, "page.png"), (True, "page-dark.png")):
                        browser.size(1280, 1080, dark)
                        browser.open("about:blank")
                        browser.open(f"{address}#mean_price")
                        browser.wait("document.body.dataset.rows === '885'")
                        browser.wait("document.querySelector('#plan .operator') !== null")
                        time.sleep(2)  # until the newest rows have lost their colour
                        browser.screenshot(HERE / name)
            finally:
                page.terminate()
                page.wait()
                page.stdout.close()


if __name__ == "__main__":
    main()
