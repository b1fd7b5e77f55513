"""The package installs in a fresh environment that sees Debian's packages."""

from __future__ import annotations

import os
import shutil
import subprocess
import sys
from pathlib import Path

from support import PACKAGE, PATIENCE, Case

from cqld import find_program

USER = """
from cqld import Beat, Client, Process, Server, Skipped

with Process() as engine:
    engine.stream("S", ["a"])
    engine.query("q", "Select Istream(*) From S [Now]")
    skipped = Skipped()
    taken: int = engine.append("S", [(0, 5), (1, None)], skip=skipped)
    engine.heartbeat("S", 1)
    for instant, value in engine.follow("q", deadline=0.1):
        print(instant, value)
    for item in engine.follow("q", deadline=120, beat=0.01):
        if isinstance(item, Beat):
            print(item.upto is None or item.upto == 1)
            break
"""


class Installed(Case):
    """`pip install` of the folder, without an index."""

    def run_in(self, folder: Path, *words: str | Path) -> str:
        """Runs a program in a folder, and returns what it writes."""
        programs = {"CQLRUN": find_program("cqlrun"), "CQLD": find_program("cqld")}
        done = subprocess.run(
            [str(it) for it in words], cwd=folder, capture_output=True, text=True,
            timeout=4 * PATIENCE, env={**os.environ, **programs},
        )
        self.assertEqual(done.returncode, 0, done.stdout + done.stderr)
        return done.stdout

    def test_package_installs_and_works(self) -> None:
        folder = self.folder()
        source = folder / "source"
        left = shutil.ignore_patterns("build", "*.egg-info", "__pycache__", ".mypy_cache")
        shutil.copytree(PACKAGE, source, ignore=left)
        self.run_in(folder, sys.executable, "-m", "venv", "--system-site-packages", "venv")
        python = folder / "venv" / "bin" / "python"
        self.run_in(
            folder, python, "-m", "pip", "install", "--no-build-isolation", "--no-deps",
            "--no-index", "--disable-pip-version-check", "--quiet", source,
        )
        shutil.rmtree(source)

        where = Path(self.run_in(folder, python, "-c", "import cqld; print(cqld.__file__)").strip())
        self.assertTrue(where.is_relative_to(folder / "venv"), where)
        found = {str(it.relative_to(where.parent)) for it in where.parent.rglob("*")}
        kept = {
            str(it.relative_to(PACKAGE / "cqld"))
            for it in (PACKAGE / "cqld").rglob("*")
            if it.is_file() and "__pycache__" not in it.parts
        }
        self.assertEqual(kept - found, set())
        self.assertIn("py.typed", kept)
        version = self.run_in(
            folder, python, "-c",
            "import cqld, importlib.metadata as it; print(cqld.__version__, it.version('cqld'))",
        ).split()
        self.assertEqual(version[0], version[1])

        program = folder / "user.py"
        program.write_text(USER)
        self.assertEqual(self.run_in(folder, python, program), "0 5\n1 None\nTrue\n")
        self.run_in(
            folder, sys.executable, "-m", "mypy", "--strict", "--python-executable", python,
            "--cache-dir", folder / "mypy", program,
        )
        self.run_in(folder, folder / "venv" / "bin" / "cql", "--help")
        self.run_in(folder, python, "-m", "cqld", "--help")

    def test_package_needs_the_standard_library_alone(self) -> None:
        """Isolated, without Debian's packages, the folder can be imported."""
        program = f"""
import sys
sys.path.insert(0, {str(PACKAGE)!r})
import cqld
loaded = {{name.partition(".")[0] for name in sys.modules}}
print(sorted(loaded - set(sys.stdlib_module_names) - {{"cqld", "__main__"}}))
"""
        found = self.run_in(self.folder(), sys.executable, "-I", "-S", "-c", program)
        self.assertEqual(found, "[]\n")
