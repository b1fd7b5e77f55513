"""Dictionaries: texts by numbers, so that an engine of numbers can keep texts.

A text gets the next number once, from 0 on, and keeps it. The numbers have no order of meaning.
"""

from __future__ import annotations

import fcntl
import json
import os
from abc import ABC, abstractmethod
from collections.abc import Iterator, Sequence
from contextlib import contextmanager
from pathlib import Path
from typing import Any, Protocol

from .faults import DictionaryFault, MissingPackage, UnknownNumber

_ASKED = 4_096  # the most texts or numbers of one request to Redis


class Dictionary(ABC):
    """Numbers texts. It keeps in memory what it has seen, since no number ever changes."""

    def __init__(self) -> None:
        self._numbers: dict[str, int] = {}
        self._texts: dict[int, str] = {}

    def number(self, text: str) -> int:
        """Returns the number of a text, and gives it the next one where it has none.

        Raises `DictionaryFault` where the dictionary is damaged or cannot be reached.
        """
        found = self._numbers.get(text)
        return self.numbers([text])[0] if found is None else found

    def numbers(self, texts: Sequence[str]) -> list[int]:
        """Returns the numbers of texts, as `number` does, but asks once for all of them."""
        fresh = list(dict.fromkeys(it for it in texts if it not in self._numbers))
        if fresh:
            for text in fresh:
                _test(text)
            self._give(fresh)
        return [self._numbers[it] for it in texts]

    def find(self, text: str) -> int | None:
        """Returns the number of a text, or None where it has none. Raises as `number`."""
        if text not in self._numbers:
            self._look_for([text])
        return self._numbers.get(text)

    def text(self, number: int) -> str:
        """Returns the text of a number. Raises `UnknownNumber`, and as `number`."""
        found = self._texts.get(number)
        return self.texts([number])[0] if found is None else found

    def texts(self, numbers: Sequence[int]) -> list[str]:
        """Returns the texts of numbers, as `text` does, but asks once for all of them."""
        fresh = list(dict.fromkeys(it for it in numbers if it not in self._texts))
        if fresh:
            self._fetch(fresh)
        for number in fresh:
            if number not in self._texts:
                raise UnknownNumber(number)
        return [self._texts[it] for it in numbers]

    @abstractmethod
    def _give(self, texts: Sequence[str]) -> None:
        """Keeps the numbers of the texts, and gives the next ones to those without."""

    @abstractmethod
    def _look_for(self, texts: Sequence[str]) -> None:
        """Keeps the numbers of those of the texts that have one."""

    @abstractmethod
    def _fetch(self, numbers: Sequence[int]) -> None:
        """Keeps the texts of those of the numbers that have one."""

    def _keep(self, number: int, text: str) -> None:
        self._numbers[text] = number
        self._texts[number] = text


class MemoryDictionary(Dictionary):
    """Is a dictionary of this program, gone at its end."""

    def __len__(self) -> int:
        """Returns how many texts have a number."""
        return len(self._numbers)

    def _give(self, texts: Sequence[str]) -> None:
        for text in texts:
            self._keep(len(self._numbers), text)

    def _look_for(self, texts: Sequence[str]) -> None:
        pass

    def _fetch(self, numbers: Sequence[int]) -> None:
        pass


class FileDictionary(Dictionary):
    """Is a dictionary in a file, which many programs of a machine may share.

    Line n of the file is the text of number n, as JSON. Programs take turns by a lock of the file.
    A number is given out once its line is on the disk, unless `sync` is False. A line that a
    program began and did not end belongs to no number, and goes.
    """

    def __init__(self, path: str | os.PathLike[str], *, sync: bool = True) -> None:
        """Opens the file, or makes it. Raises `DictionaryFault` where it is none of this kind."""
        super().__init__()
        self.path = Path(path)
        self._sync = sync
        self._end = 0  # bytes that were read
        self._count = 0  # lines that were read
        with self._locked() as file:
            self._read(file)

    def __len__(self) -> int:
        """Returns how many texts had a number when the file was last read."""
        return self._count

    def _give(self, texts: Sequence[str]) -> None:
        with self._locked() as file:
            self._read(file)
            fresh = [it for it in texts if it not in self._numbers]
            if not fresh:
                return
            data = "".join(json.dumps(it) + "\n" for it in fresh).encode()
            try:
                os.ftruncate(file, self._end)
                written = 0
                while written < len(data):
                    written += os.pwrite(file, data[written:], self._end + written)
                if self._sync:
                    os.fsync(file)
            except OSError as error:
                with _no_error():
                    os.ftruncate(file, self._end)
                raise DictionaryFault(f"{self.path}: {error.strerror}") from error
            self._end += len(data)
            for text in fresh:
                self._keep(self._count, text)
                self._count += 1

    def _look_for(self, texts: Sequence[str]) -> None:
        with self._locked() as file:
            self._read(file)

    def _fetch(self, numbers: Sequence[int]) -> None:
        with self._locked() as file:
            self._read(file)

    @contextmanager
    def _locked(self) -> Iterator[int]:
        """Opens the file, and locks it."""
        try:
            file = os.open(self.path, os.O_RDWR | os.O_CREAT | os.O_CLOEXEC, 0o644)
        except OSError as error:
            raise DictionaryFault(f"{self.path}: {error.strerror}") from error
        try:
            try:
                fcntl.flock(file, fcntl.LOCK_EX)
            except OSError as error:
                raise DictionaryFault(f"{self.path}: {error.strerror}") from error
            yield file
        finally:
            os.close(file)

    def _read(self, file: int) -> None:
        """Reads what others have added."""
        size = os.fstat(file).st_size
        if size < self._end:
            raise DictionaryFault(f"{self.path}: it is shorter than before")
        data = bytearray()
        while self._end + len(data) < size:
            part = os.pread(file, size - self._end - len(data), self._end + len(data))
            if not part:
                break
            data += part
        *lines, _ = data.split(b"\n")  # the last part is a line that somebody did not end
        for line in lines:
            try:
                text = json.loads(line)
            except ValueError:
                text = None
            if not isinstance(text, str) or text in self._numbers:
                raise DictionaryFault(f"{self.path}: line {self._count + 1} is no text of its own")
            self._keep(self._count, text)
            self._count += 1
            self._end += len(line) + 1


class Redis(Protocol):
    """Is what a dictionary needs of a client of Redis, as `redis.Redis` has it."""

    def eval(self, script: str, numkeys: int, *keys_and_args: Any) -> Any:
        """Runs a script of Redis."""


class RedisDictionary(Dictionary):
    """Is a dictionary in Redis, which programs of many machines may share.

    The list KEY:texts has the texts by their numbers, the hash KEY:numbers has it the other way
    round. A number is given by one script of Redis, so no two programs give the same.
    """

    def __init__(self, server: Redis, key: str) -> None:
        """Takes a client of Redis, and a key of the dictionary's own."""
        super().__init__()
        self._server = server
        self._keys = (key + ":numbers", key + ":texts")

    @classmethod
    def connect(cls, url: str, key: str) -> "RedisDictionary":
        """Returns a dictionary at a URL, as `redis://localhost:6379/0` or `unix:///run/redis.sock`.

        Raises `MissingPackage` without the package redis, and `DictionaryFault` at a wrong URL.
        """
        try:
            import redis
        except ImportError:
            raise MissingPackage("redis") from None
        try:
            return cls(redis.Redis.from_url(url), key)
        except ValueError as error:
            raise DictionaryFault(f"{url}: {error}") from error

    def _give(self, texts: Sequence[str]) -> None:
        for part in _parts(texts):
            for text, number in zip(part, self._run(_GIVE, part)):
                self._keep(int(number), text)

    def _look_for(self, texts: Sequence[str]) -> None:
        for part in _parts(texts):
            for text, number in zip(part, self._run(_FIND, part)):
                if int(number) >= 0:
                    self._keep(int(number), text)

    def _fetch(self, numbers: Sequence[int]) -> None:
        for part in _parts([it for it in numbers if it >= 0]):
            for number, text in zip(part, self._run(_FETCH, part)):
                if text is not None:
                    self._keep(number, text.decode() if isinstance(text, bytes) else str(text))

    def _run(self, script: str, words: Sequence[Any]) -> list[Any]:
        """Runs a script. Whatever the client of Redis raises is a fault of the dictionary."""
        try:
            found = self._server.eval(script, 2, *self._keys, *words)
        except Exception as error:
            raise DictionaryFault(f"Redis: {error}") from error
        if not isinstance(found, list) or len(found) != len(words):
            raise DictionaryFault(f"Redis: the keys {', '.join(self._keys)} are no dictionary")
        return found


_GIVE = """
local numbers = {}
for place, text in ipairs(ARGV) do
  local number = redis.call('hget', KEYS[1], text)
  if not number then
    number = redis.call('rpush', KEYS[2], text) - 1
    redis.call('hset', KEYS[1], text, number)
  end
  numbers[place] = tonumber(number)
end
return numbers
"""

_FIND = """
local numbers = {}
for place, text in ipairs(ARGV) do
  numbers[place] = tonumber(redis.call('hget', KEYS[1], text) or -1)
end
return numbers
"""

_FETCH = """
local texts = {}
for place, number in ipairs(ARGV) do
  texts[place] = redis.call('lindex', KEYS[2], number)
end
return texts
"""


def _parts(words: Sequence[Any]) -> Iterator[Sequence[Any]]:
    for begin in range(0, len(words), _ASKED):
        yield words[begin : begin + _ASKED]


def _test(text: str) -> None:
    """Raises `DictionaryFault` at a text that no file can hold."""
    try:
        text.encode()
    except UnicodeEncodeError as error:
        raise DictionaryFault(f"{text!r} is no text of Unicode: {error.reason}") from error


@contextmanager
def _no_error() -> Iterator[None]:
    try:
        yield
    except OSError:
        pass
