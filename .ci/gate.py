#!/usr/bin/env python3
"""Runs the gate, `rt ci`, so that a later run on this machine takes over what this one passed.

usage: .ci/gate.py [--anew] [--without-edits] [NAME..]

A kit whose `rt ci` keeps what passed is asked to do so: then this is `rt ci NAME..`, which starts as
many checks as there is memory for by what each took when it was measured. With an earlier kit,
which keeps nothing, each step is still the kit's own. What a step passed is kept in
~/.cache/continuous-queries, or in the folder that GATE_STORE names, by a checksum of all that it
read: the kit, HANDLES, the crate's line and files, and the libraries below it as they were built.
Nothing is kept of a step that failed, and every program and test runs each time.

Edits of different functions are made together, as `bench/further_edits` makes them: one check says
of each function whether it is still proved. So that check is about these functions, and not about
the whole crate. The kit tries by itself, and whole, each edit that is not refused so.

With NAMEs only these crates and those below them are proved. --anew takes nothing over.
--without-edits leaves the edits out, for a run before the whole gate.
"""
import contextlib
import functools
import hashlib
import importlib.machinery
import importlib.util
import os
import re
import shutil
import sys
import tempfile
from collections.abc import Iterable
from pathlib import Path
from types import ModuleType
from typing import Any

sys.dont_write_bytecode = True
RT = Path(shutil.which("rt") or "/opt/rattle/bin/rt").resolve()
if not (RT.parent / "rtlib.py").exists():
    RT = Path("/opt/rattle/bin/rt")
TOP = Path(__file__).resolve().parent.parent
STORE = Path(os.environ.get("GATE_STORE") or Path.home() / ".cache/continuous-queries")
FLAGS = ("--anew", "--without-edits")


def load(name: str, path: Path) -> ModuleType:
    """Returns a program as a module of this name."""
    loader = importlib.machinery.SourceFileLoader(name, str(path))
    spec = importlib.util.spec_from_file_location(name, path, loader=loader)
    assert spec is not None
    found = importlib.util.module_from_spec(spec)
    sys.modules[name] = found
    loader.exec_module(found)
    return found


def load_rt() -> ModuleType:
    """Returns the toolchain's command as a module."""
    sys.path.insert(0, str(RT.parent))
    return load("rt", RT)


def checksum(said: Iterable[Any]) -> str:
    """Returns a checksum of some values, in their order."""
    found = hashlib.sha256()
    for it in said:
        found.update(it if isinstance(it, bytes) else repr(it).encode())
    return found.hexdigest()


def checksum_below(folder: Path) -> str:
    """Returns a checksum of all files below a folder, with their paths."""
    files = sorted(it for it in folder.rglob("*") if it.is_file())
    return checksum((str(it.relative_to(folder)), checksum([it.read_bytes()])) for it in files)


def copy(source: Path, to: Path) -> None:
    """Copies a file or folder, if it is there, in place of another."""
    if to.is_dir():
        shutil.rmtree(to)
    to.unlink(missing_ok=True)
    if source.is_dir():
        shutil.copytree(source, to)
    elif source.exists():
        shutil.copy2(source, to)


class Store:
    """Keeps what passed on this machine, in a folder for each step."""

    def __init__(self, rt: ModuleType, allowed: tuple[str, ...], is_anew: bool = False) -> None:
        self.rt = rt
        # The handles that the repository may use.
        self.allowed = allowed
        # Whether nothing is taken over.
        self.is_anew = is_anew
        # The checksum of each library that this run has met, by its name.
        self.libraries: dict[str, str] = {}
        STORE.mkdir(parents=True, exist_ok=True)

    def key(self, crate: Any) -> str:
        """Returns a checksum of all that a proof of this crate, or of its tests, reads."""
        kit = Path(self.rt.KIT, "KIT-ID").read_bytes()
        line = (self.allowed, crate.name, sorted(crate.said.items()))
        uses = [it.name for it in crate.deps]
        files = [(os.path.relpath(it, crate.folder), Path(it).read_bytes())
                 for it in sorted(self.rt.rtlib.files_of(crate.folder))]
        below = [(it.name, self.library(it)) for it in crate.below()]
        return checksum([kit, line, uses, *files, below])[:40]

    def library(self, crate: Any) -> str:
        """Returns the checksum of a library, as it was built or taken over."""
        if crate.name not in self.libraries:
            self.libraries[crate.name] = checksum_below(Path(crate.rlib))
        return self.libraries[crate.name]

    def place(self, crate: Any, tests: bool, key: str) -> Path:
        """Returns where a proof of a crate, or of its tests, is kept."""
        return STORE / f"{'tests' if tests else 'proof'}-{crate.name}-{key}"

    def made(self, crate: Any, tests: bool) -> list[str]:
        """Returns the names of what a step makes in the crate's folder out/."""
        if tests:
            return [f"{crate.name}_tests"]
        if crate.is_program:
            return [f"{crate.name}{ending}" for ending in self.rt.BACKENDS.values()]
        return ["rlib"]

    def give(self, crate: Any, tests: bool, key: str) -> bool:
        """Gives the crate what was kept of this step. Returns whether there was any."""
        kept = self.place(crate, tests, key)
        if self.is_anew or not kept.is_dir():
            return False
        out = Path(crate.folder, "out")
        out.mkdir(exist_ok=True)
        for name in self.made(crate, tests):
            copy(kept / name, out / name)
        return True

    def keep(self, crate: Any, tests: bool, key: str) -> None:
        """Keeps what a step made, unless the crate's files have changed since it began."""
        if self.key(crate) != key:
            return
        with tempfile.TemporaryDirectory(dir=STORE) as room:
            whole = Path(room, "whole")
            whole.mkdir()
            for name in self.made(crate, tests):
                copy(Path(crate.folder, "out", name), whole / name)
            kept = self.place(crate, tests, key)
            shutil.rmtree(kept, ignore_errors=True)
            # (another run may have kept the same)
            with contextlib.suppress(OSError):
                whole.rename(kept)

    def give_libraries(self, crates: Iterable[Any]) -> list[Any]:
        """Gives each of these libraries, lowest first, what was kept of the same text. Returns
        those that have it: a library has it only if all below it do."""
        found: list[Any] = []
        for crate in crates:
            is_above = all(it in found for it in crate.below())
            if is_above and self.give(crate, False, self.key(crate)):
                found.append(crate)
        return found


def keep_proofs(rt: ModuleType, store: Store) -> None:
    """Has the proofs of `rt ci` take over what was kept, and keep what passes."""

    class Keeping(rt.Crate):  # type: ignore[name-defined,misc]
        """A crate under the gate, whose proofs are kept."""

        # An earlier kit asks for these once for each path through crates.txt.
        below = functools.lru_cache(maxsize=None)(rt.Crate.below)
        stamp = functools.lru_cache(maxsize=None)(rt.Crate.stamp)

        def ci(self, flags: list[str], tests: bool) -> int:
            key = store.key(self)
            if store.give(self, tests, key):
                print("rt: taken over: an earlier run passed it", file=self.out)
                return 0
            status: int = super().ci(flags, tests)
            if not status:
                store.keep(self, tests, key)
            return status

    rt.Crate = Keeping  # type: ignore[attr-defined]


def keep_edits(rt: ModuleType, store: Store) -> None:
    """Has `rt ci` take over which edits were refused, and keep those that are."""
    try_edits = rt.must_fail_all

    def must_fail_all(crate: Any, edits: list[str], flags: list[str]) -> list[tuple[bool, str]]:
        key = store.key(crate)
        kept = {it: STORE / f"edit-{crate.name}-{checksum([key, Path(it).name, text_of(it)])[:40]}"
                for it in edits}
        rest = [it for it in edits if store.is_anew or not kept[it].is_file()]
        said = dict(zip(rest, try_edits(crate, rest, flags)))
        for edit, (is_refused, text) in said.items():
            if is_refused:
                kept[edit].write_text(text, encoding="utf-8")
        return [said.get(it) or (True, text_of(kept[it])) for it in edits]

    rt.must_fail_all = must_fail_all  # type: ignore[attr-defined]


def text_of(path: Path | str) -> str:
    """Returns the text of a file."""
    return Path(path).read_text(encoding="utf-8")


def try_edits_together(rt: ModuleType) -> None:
    """Has `rt ci` make edits of different functions together. Each that is not refused so is tried
    by the kit, by itself."""
    further = load("further_edits", TOP / "bench/further_edits")

    def refused(crate: Any, edits: list[str], flags: list[str]) -> dict[str, str]:
        """Returns why each edit that is refused together with others is, by its path."""
        found: dict[str, str] = {}
        steps = {it: further.steps_of(text_of(it).split("\n")) for it in edits}
        made = [further.edit_of(Path(crate.folder), it, steps[it]) for it in edits]
        words = [*rt.rtlib.guarded(), rt.rtlib.RATTLE, "check", *crate.words(flags, keeps=False)]
        with tempfile.TemporaryDirectory(prefix="rt-edits-") as room:
            trial = further.Built(crate.name, Path(room), words, Path(crate.folder))
            for some in further.rounds_of([it for it in made if not it.fault]):
                for edit, verdict in trial.tried(some):
                    if verdict == "refused":
                        found[edit.name] = why_refused(further, crate.name, edit, trial.said)
        return found

    def must_fail_all(crate: Any, edits: list[str], flags: list[str]) -> list[tuple[bool, str]]:
        why = refused(crate, edits, flags)
        label = f"must-fail {crate.name}/{{}}: refused, as it must be{{}}"
        return [(True, label.format(Path(it).name, why[it])) if it in why
                else rt.must_fail(crate, it, flags) for it in edits]

    rt.must_fail_all = must_fail_all  # type: ignore[attr-defined]


# What a check says of a proof that names what an edit took away.
TAKEN_AWAY = re.compile(r"has no field|is not in scope|has no `|was not admitted")


def why_refused(further: ModuleType, crate: str, edit: Any, said: str) -> str:
    """Returns what a check says of the functions of an edit that are not proved: a goal, or that
    only a proof file names what the edit took away, which says little of a contract."""
    paths = {path for path, _ in further.VERDICT.findall(said)
             if further.is_of(path, crate, edit.functions)}
    homes = ["proofs/" + path.split("::", 1)[1].replace("::", "/") + "/" for path in paths]
    told = [it.removeprefix("./") for it in said.split("\n")]
    goals = [it for it in told if it.startswith(tuple(f"fn {path}:" for path in paths))
             and "did not prove" in it]
    errors = [it for it in told if it.startswith(tuple(homes)) and ": error: " in it]
    others = [it for it in errors if not TAKEN_AWAY.search(it)]
    if errors and not goals and not others:
        return f" (only because a proof file names what the edit took away): {errors[0][:160]}"
    return "".join(f": {it[:160]}" for it in [*goals, *others][:1])


def fit_memory(rt: ModuleType) -> None:
    """Has `rt ci` start as many checks as there is memory for, by what each took when it was
    measured (docs/GATE.md), and a tenth more. The kit's own figure is two to four times that."""
    table = text_of(TOP / "docs/GATE.md")
    measured = dict(re.findall(r"^\| `(\w+)` \|(?:[^|]*\|){3} ([\d.]+) GB \|", table, re.MULTILINE))
    need = rt.need

    def need_of(crate: Any) -> float:
        gigabytes: float = 1.1 * float(measured.get(crate.name) or need(crate) / 1.1e9)
        return gigabytes * 1e9

    rt.need = need_of  # type: ignore[attr-defined]


def start_what_is_work(rt: ModuleType, has_edits: bool) -> None:
    """Has `rt ci` pass over tests and edits that there are none of: a task that waits takes a
    processor from a proof, also one with nothing to do. Without edits none is tried."""
    in_lanes = rt.in_lanes

    def in_lanes_of_work(tasks: dict[Any, Any]) -> dict[Any, Any]:
        nothing = {it: [True, ([], [], [])][it[1] == "edits"] for it in tasks
                   if it[1] == "tests" and not tasks[it][1] or it[1] == "edits" and not has_edits}
        work = {it: passing(nothing, *tasks[it]) for it in tasks if it not in nothing}
        return nothing | dict(in_lanes(work))

    rt.in_lanes = in_lanes_of_work  # type: ignore[attr-defined]


def passing(known: dict[Any, Any], waits: Any, lines: int, needs: float, call: Any) -> Any:
    """Returns a task that waits for nothing of which it is known what it gives."""
    rest = [it for it in waits if it not in known]
    return rest, lines, needs, lambda given, jobs: call(known | given, jobs)


def prove_only(rt: ModuleType, names: list[str]) -> None:
    """Has `rt ci` prove these crates and those below them, and no others."""
    crates_of, stop_on_unread = rt.crates_of, rt.rtlib.stop_on_unread

    def named(root: str, aside: str) -> list[Any]:
        crates = crates_of(root, aside)
        if unknown := set(names) - {it.name for it in crates}:
            rt.rtlib.stop(f"no crate {', '.join(sorted(unknown))}")
        rt.rtlib.stop_on_unread = lambda folder, _: stop_on_unread(folder, crates)
        tops = [it for it in crates if it.name in names]
        wanted = {it.name for top in tops for it in [top, *top.below()]}
        return [it for it in crates if it.name in wanted]

    rt.crates_of = named  # type: ignore[attr-defined]


def main() -> int:
    words = sys.argv[1:]
    if any(it.startswith("-") and it not in FLAGS for it in words):
        sys.exit(__doc__)
    names = [it for it in words if it not in FLAGS]
    rt = load_rt()
    if hasattr(rt, "Kept"):
        fit_memory(rt)
        rt.Crate.below = functools.lru_cache(maxsize=None)(rt.Crate.below)  # asked for very often
        return int(rt.main(["ci", *(["--anew"] if "--anew" in words else []), *names]))
    store = Store(rt, rt.handles_of(os.getcwd()), "--anew" in words)
    keep_proofs(rt, store)
    fit_memory(rt)
    try_edits_together(rt)
    keep_edits(rt, store)
    start_what_is_work(rt, "--without-edits" not in words)
    if names:
        prove_only(rt, names)
    status: int = rt.main(["ci"])
    return status


if __name__ == "__main__":
    sys.exit(main())
