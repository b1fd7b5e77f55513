"""Each block of docs/growth.md that has a language says what the page shows."""

from __future__ import annotations

import os
import re
import subprocess
import sys
import unittest
from collections.abc import Iterator
from pathlib import Path

sys.path.insert(0, str(Path(__file__).resolve().parent))

from growth_support import PACKAGE, PATIENCE, RedisServer, memory_folder  # noqa: E402

from cqld import find_program  # noqa: E402

ROOT = PACKAGE.parent.parent
PAGE = ROOT / "docs" / "growth.md"


def blocks(text: str) -> Iterator[tuple[str, int, str]]:
    """Yields each fenced block: its kind, its line, and what is in it."""
    for found in re.finditer(r"^```(\w+)\n(.*?)^```$", text, re.M | re.S):
        yield found[1], text[:found.start()].count("\n") + 1, found[2]


class PageTest(unittest.TestCase):

    def test_each_block_prints_what_the_page_shows(self) -> None:
        folder = Path(self.enterContext(memory_folder()))
        server = RedisServer(folder)
        self.addCleanup(server.kill)
        (folder / "bin").mkdir()
        (folder / "bin" / "python3").symlink_to(sys.executable)
        for name in ("clients", "examples"):
            (folder / name).symlink_to(ROOT / name)
        environment = {
            **os.environ, "REDIS": server.url, "CQLRUN": find_program("cqlrun"),
            "PATH": f"{folder}/bin:{os.environ['PATH']}", "PYTHONPATH": str(PACKAGE),
            "PYTHONDONTWRITEBYTECODE": "1"}
        found = [*blocks(PAGE.read_text()), ("", 0, "")]
        tried = 0
        for (kind, line, code), (next_kind, _, shown) in zip(found, found[1:]):
            words = {"sh": ["bash", "-euo", "pipefail", "-c", code],
                     "python": ["python3", "-c", code]}.get(kind)
            if words is None:
                continue
            done = subprocess.run(words, cwd=folder, env=environment, text=True,
                                  stdout=subprocess.PIPE, stderr=subprocess.STDOUT,
                                  stdin=subprocess.DEVNULL, timeout=PATIENCE)
            self.assertEqual(done.stdout, shown if next_kind == "text" else "", f"line {line}")
            tried += 1
        self.assertGreater(tried, 7)


if __name__ == "__main__":
    unittest.main()
