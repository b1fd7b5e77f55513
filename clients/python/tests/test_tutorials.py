"""The tutorials: each script's output and picture are those of its page."""
from __future__ import annotations

import argparse
import csv
import re
import subprocess
import sys
import tempfile
import unittest
from fractions import Fraction
from pathlib import Path

HERE = Path(__file__).resolve().parent
sys.path[:0] = [str(HERE)]

from support import ROOT, environment  # noqa: E402

from cqld import Process  # noqa: E402
from cqld.page.command import add_arguments  # noqa: E402

FOLDER = ROOT / "docs" / "tutorials"
PATIENCE = 300.0  # seconds that a script may take on a busy machine
NAMES = {
    "alerts-over-a-web-log": "alerts_over_a_web_log.py",
    "market-data": "market_data.py",
    "a-service": "a_service.py",
}


def run(*words: str) -> str:
    """Runs Python with words in the tutorials' folder, and returns what it writes."""
    done = subprocess.run([sys.executable, *words], cwd=FOLDER, env=environment(), text=True,
                          capture_output=True, timeout=PATIENCE)
    if done.returncode != 0:
        raise AssertionError(f"{words}: status {done.returncode}: {done.stderr}")
    return done.stdout


def blocks(page: str, language: str) -> list[str]:
    """Returns the blocks of a language on a page."""
    return re.findall(rf"^```{language}\n(.*?)^```$", page, re.DOTALL | re.MULTILINE)


class TutorialsTest(unittest.TestCase):
    """Each tutorial: its script, its output, its picture and its page."""

    def outcome(self, name: str) -> str:
        """Runs a tutorial's script, and compares its output and its picture with those kept."""
        with tempfile.TemporaryDirectory() as folder:
            printed = run(NAMES[name], folder)
            for kind in ("txt", "svg"):
                made, kept = Path(folder, f"{name}.{kind}"), FOLDER / f"{name}.{kind}"
                self.assertEqual(made.read_text(), kept.read_text(), kept.name)
        self.assertEqual(printed, (FOLDER / f"{name}.txt").read_text())
        return printed

    def quotes(self, name: str, *outputs: str) -> None:
        """Compares the blocks of a page with its script and its outputs."""
        page = (FOLDER / f"{name}.md").read_text()
        sources = [path.read_text() for path in FOLDER.iterdir()
                   if path.suffix in (".py", ".cql", ".conf")]
        for language in ("python", "sql", "nginx"):
            for block in blocks(page, language):
                self.assertTrue(any(_in(block, source) for source in sources), block)
        texts = blocks(page, "text")
        self.assertGreater(len(texts), 0)
        for block in texts:
            self.assertTrue(any(_in(block, output) for output in outputs), block)
        self.assertIn(f"]({name}.svg)", page)

    def test_alerts_over_a_web_log(self) -> None:
        self.quotes("alerts-over-a-web-log", self.outcome("alerts-over-a-web-log"))

    def test_market_data(self) -> None:
        printed = self.outcome("market-data")
        self.quotes("market-data", printed, run("-m", "cqld", "market-data.cql"))
        self.assertIn(f"{_crossings():,} crossings", printed)

    def test_a_service(self) -> None:
        self.quotes("a-service", self.outcome("a-service"))

    def test_index_has_every_tutorial(self) -> None:
        index = (FOLDER / "README.md").read_text()
        for name, script in NAMES.items():
            self.assertIn(f"]({name}.md)", index)
            self.assertIn(script, (FOLDER / f"{name}.md").read_text())


class PagesTest(unittest.TestCase):
    """The pages beside the tutorials."""

    def test_links_lead_somewhere(self) -> None:
        docs = ROOT / "docs"
        pages = [docs / "page.md", docs / "coming-from.md", *FOLDER.glob("*.md")]
        for page in pages:
            for link in re.findall(r"\]\(([^)\s]+)\)", page.read_text()):
                path, _, anchor = link.partition("#")
                target = (page.parent / path).resolve() if path else page
                self.assertTrue(target.exists(), f"{page.name}: {link}")
                if anchor:
                    self.assertIn(anchor, _anchors(target.read_text()), f"{page.name}: {link}")

    def test_options_of_the_page_are_those_of_its_document(self) -> None:
        said = set(re.findall(r"`(--[a-z]+)", (ROOT / "docs" / "page.md").read_text()))
        parser = argparse.ArgumentParser(add_help=False)
        add_arguments(parser)
        there = {word for action in parser._actions for word in action.option_strings}
        self.assertEqual(said - {"--clients"}, there)

    def test_queries_for_those_who_come_from_elsewhere(self) -> None:
        page = (ROOT / "docs" / "coming-from.md").read_text()
        texts = re.findall(r"^    (Select .*(?:\n      .*)*)", page, re.MULTILINE)
        self.assertEqual(len(texts), 3)
        with Process() as engine:
            engine.stream("Trades", ["symbol", "amount"])
            engine.stream("Orders", ["number"])
            engine.stream("Payments", ["number"])
            for name, text in zip(("volume", "left", "paid"), texts):
                engine.query(name, " ".join(text.split()))
            engine.append("Orders", [(0, 1), (5, 2), (9, 3)])
            engine.append("Payments", [(100, 1), (609, 3)])
            for stream in ("Orders", "Payments"):
                engine.heartbeat(stream, 700)
            left, paid = list(engine.answers("left")), list(engine.answers("paid"))
        self.assertEqual(left, [[600, 1], [605, 2], [609, 3]])
        self.assertEqual(paid, [[100, 1]])  # the third was paid when its order had left


def _anchors(page: str) -> set[str]:
    """Returns the anchors of a page's headings."""
    headings = re.findall(r"^#+ (.*)$", page, re.MULTILINE)
    return {re.sub(r"[^\w\- ]", "", heading.lower()).replace(" ", "-") for heading in headings}


def _in(block: str, source: str) -> bool:
    """Returns whether a block stands in a source, whatever spaces both have."""
    def words(text: str) -> str:
        return " ".join(text.split())
    return words(block) in words(source)


def _crossings() -> int:
    """Counts the crossings of all symbols once more, by plain exact arithmetic."""
    closes: dict[str, list[Fraction]] = {}
    with (FOLDER / "eu_stock_markets.csv").open(newline="") as lines:
        for row in csv.DictReader(lines):
            closes.setdefault(row["symbol"], []).append(Fraction(row["close"]))
    count = 0
    for prices in closes.values():
        above = [sum(prices[day - 5:day]) / 5 > sum(prices[day - 20:day]) / 20
                 for day in range(20, len(prices) + 1)]
        count += sum(before != after for before, after in zip(above, above[1:]))
    return count


if __name__ == "__main__":
    unittest.main()
