"""Dictionaries in memory, in a file, and in Redis."""

from __future__ import annotations

import random
import subprocess
import sys
import threading
from collections.abc import Callable
from pathlib import Path

from support import PATIENCE, Case, environment

from cqld import (
    Dictionary,
    DictionaryFault,
    FileDictionary,
    MemoryDictionary,
    MissingPackage,
    RedisDictionary,
    UnknownNumber,
)

PROGRAM = """
import random, sys
from cqld import FileDictionary, RedisDictionary
kind, where, seed = sys.argv[1:]
words = RedisDictionary.connect(where, "words") if kind == "redis" else FileDictionary(where)
draw = random.Random(seed)
for _ in range(150):
    texts = [f"text {draw.randrange(400)}" for _ in range(draw.randrange(1, 5))]
    print(*(f"{number}={text}" for number, text in zip(words.numbers(texts), texts)), sep="\\n")
"""


class Dictionaries(Case):
    """Every dictionary numbers texts from 0 on, and for good."""

    def kinds(self) -> dict[str, Callable[[], Dictionary]]:
        """Returns what opens each kind of dictionary anew."""
        path = self.folder() / "words"
        url = self.redis().url
        memory = MemoryDictionary()
        return {
            "memory": lambda: memory,
            "file": lambda: FileDictionary(path),
            "redis": lambda: RedisDictionary.connect(url, "words"),
        }

    def test_texts_have_numbers_for_good(self) -> None:
        for kind, opened in self.kinds().items():
            with self.subTest(kind):
                words = opened()
                texts = ["b", "a", "", "b", "zwölf", "two\nlines\r", '"', "\x00", "x" * 100_000]
                self.assertEqual(words.numbers(texts), [0, 1, 2, 0, 3, 4, 5, 6, 7])
                self.assertEqual(words.number("a"), 1)
                again = opened()
                self.assertEqual(again.texts([7, 4, 0]), ["x" * 100_000, "two\nlines\r", "b"])
                self.assertEqual(again.find("zwölf"), 3)
                self.assertIsNone(again.find("no"))
                self.assertEqual(again.number("no"), 8)
                self.assertEqual(words.text(8), "no")
                self.assertEqual(words.numbers([]), [])
                for number in (9, -1, 10**9):
                    with self.assertRaises(UnknownNumber) as caught:
                        words.text(number)
                    self.assertEqual(caught.exception.number, number)
                with self.assertRaises(DictionaryFault):
                    words.number("\ud800")
                self.assertEqual(words.number("next"), 9)

    def test_programs_share_a_dictionary(self) -> None:
        for kind, where in (("file", str(self.folder() / "words")), ("redis", self.redis().url)):
            with self.subTest(kind):
                words = [sys.executable, "-c", PROGRAM, kind, where]
                started = [
                    subprocess.Popen([*words, str(seed)], stdout=subprocess.PIPE, text=True,
                                     env=environment())
                    for seed in range(4)
                ]
                pairs = set()
                for process in started:
                    out, _ = process.communicate(timeout=PATIENCE)
                    self.assertEqual(process.returncode, 0)
                    pairs |= {tuple(line.split("=")) for line in out.splitlines()}
                numbers = sorted(int(number) for number, _ in pairs)
                self.assertEqual(numbers, list(range(len(pairs))))
                self.assertEqual(len({text for _, text in pairs}), len(pairs))
                self.assertGreater(len(pairs), 300)

    def test_threads_share_a_dictionary(self) -> None:
        words = FileDictionary(self.folder() / "words", sync=False)
        found: list[set[tuple[int, str]]] = [set() for _ in range(4)]

        def work(place: int) -> None:
            draw = random.Random(place)
            for _ in range(300):
                text = f"text {draw.randrange(200)}"
                found[place].add((words.number(text), text))

        threads = [threading.Thread(target=work, args=(place,)) for place in range(4)]
        for thread in threads:
            thread.start()
        for thread in threads:
            thread.join(PATIENCE)
        pairs = set().union(*found)
        self.assertEqual(sorted(number for number, _ in pairs), list(range(len(pairs))))


class Files(Case):
    """A dictionary in a file that is damaged, or that cannot be written."""

    def path(self, data: bytes) -> Path:
        path = self.folder() / "words"
        path.write_bytes(data)
        return path

    def test_line_that_was_not_ended_goes(self) -> None:
        for cut in range(1, 5):
            path = self.path(b'"a"\n"b"\n'[:-cut])
            words = FileDictionary(path)
            self.assertEqual(len(words), 1)
            self.assertEqual(words.numbers(["c", "a"]), [1, 0])
            self.assertEqual(path.read_bytes(), b'"a"\n"c"\n')

    def test_damaged_file_is_refused_and_left(self) -> None:
        for data in (b"symbol,price\n", b'"a"\n\n', b'"a"\n5\n', b'"a"\n"a"\n', b"\xff\n"):
            with self.subTest(data=data):
                path = self.path(data)
                with self.assertRaises(DictionaryFault) as caught:
                    FileDictionary(path)
                self.assertIn(str(path), str(caught.exception))
                self.assertEqual(path.read_bytes(), data)

    def test_file_that_shrinks_is_refused(self) -> None:
        path = self.path(b'"a"\n"b"\n')
        words = FileDictionary(path)
        path.write_bytes(b'"a"\n')
        with self.assertRaises(DictionaryFault):
            words.number("c")

    def test_file_that_cannot_be_opened_says_so(self) -> None:
        folder = self.folder()
        for path in (folder, folder / "none" / "words"):
            with self.assertRaises(DictionaryFault):
                FileDictionary(path)

    def test_full_disk_gives_no_number(self) -> None:
        """A limit on the size of files stands for the disk."""
        path = self.folder() / "words"
        program = """
import resource, signal, sys
from cqld import DictionaryFault, FileDictionary
words = FileDictionary(sys.argv[1])
words.number("a")
signal.signal(signal.SIGXFSZ, signal.SIG_IGN)
resource.setrlimit(resource.RLIMIT_FSIZE, (100, resource.RLIM_INFINITY))
try:
    words.number("b" * 200)
except DictionaryFault as fault:
    print(fault)
resource.setrlimit(resource.RLIMIT_FSIZE, (10_000, resource.RLIM_INFINITY))
print(words.number("c"))
"""
        done = subprocess.run(
            [sys.executable, "-c", program, str(path)], capture_output=True, text=True,
            env=environment(), timeout=PATIENCE,
        )
        self.assertEqual(done.stdout, f"{path}: File too large\n1\n", done.stderr)
        self.assertEqual(path.read_text(), '"a"\n"c"\n')


class InRedis(Case):
    """A dictionary in a Redis that goes, or has something else at its keys."""

    def test_redis_that_is_gone_is_a_fault(self) -> None:
        server = self.redis()
        words = RedisDictionary.connect(server.url, "words")
        self.assertEqual(words.number("a"), 0)
        server.close()
        self.assertEqual(words.number("a"), 0)  # known already
        with self.assertRaises(DictionaryFault):
            words.number("b")
        with self.assertRaises(DictionaryFault):
            words.text(1)

    def test_keys_of_another_kind_are_a_fault(self) -> None:
        import redis

        server = self.redis()
        other = redis.Redis.from_url(server.url)
        other.set("words:texts", "x")
        with self.assertRaises(DictionaryFault):
            RedisDictionary(other, "words").number("a")
        other.close()

    def test_wrong_url_and_missing_package_are_faults(self) -> None:
        with self.assertRaises(DictionaryFault):
            RedisDictionary.connect("nonsense", "words")
        before = sys.modules["redis"]
        try:
            sys.modules["redis"] = None  # type: ignore[assignment]
            with self.assertRaises(MissingPackage):
                RedisDictionary.connect("redis://localhost", "words")
        finally:
            sys.modules["redis"] = before
