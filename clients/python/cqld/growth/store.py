"""Redis as a bridge needs it: one connection that is never renewed, and appends under given ids.

    store = Store("unix:///run/redis.sock")
    store.put("t:out:q", [("5-1", "[[7]]")], upto=5)

A client that silently connects anew may meet a Redis that has lost what it told before: so a
connection that ends is an error here (`RedisGone`), and whoever owns it begins again from what
Redis still has.
"""

from collections.abc import Iterator, Mapping, Sequence
from contextlib import contextmanager
from dataclasses import dataclass
from importlib import import_module
from typing import Any

from ..faults import MissingPackage
from .errors import GrowthError

Place = tuple[int, int]  # the two parts of an id

START: Place = (0, 0)
"""The place before every entry."""

# Appends entries under ids that rise. One that is there is passed over; any other fault ends it.
_PUT = """
for n = 3, #ARGV, 2 do
  local reply = redis.pcall('XADD', KEYS[1], ARGV[n], ARGV[1], ARGV[n + 1])
  if type(reply) == 'table' and reply.err
      and not string.find(reply.err, 'equal or smaller', 1, true) then return reply end
end
if ARGV[2] ~= '' then
  local old = redis.call('GET', KEYS[2])
  if not old or tonumber(old) < tonumber(ARGV[2]) then redis.call('SET', KEYS[2], ARGV[2]) end
end
return 1
"""

# Keeps a snapshot if it is later than the one that is there. It may let entries of the log go:
# those up to the snapshot before, so that a slower bridge has time to pass them.
_KEEP = """
local function parts(id)
  local first, second = string.match(id, '(%d+)-(%d+)')
  return tonumber(first), tonumber(second)
end
local old = redis.call('HGET', KEYS[1], 'at')
if old then
  local a, b = parts(old)
  local c, d = parts(ARGV[1])
  if a > c or (a == c and b >= d) then return 0 end
  if ARGV[3] == '1' then
    redis.call('XTRIM', KEYS[2], 'MINID', old)
    redis.call('SET', KEYS[3], old)
  end
end
redis.call('HSET', KEYS[1], 'at', ARGV[1], 'state', ARGV[2])
return 1
"""

# Appends an entry of a producer and keeps its number, both or none.
_SEND = """
local id = redis.call('XADD', KEYS[1], '*', unpack(ARGV, 3))
redis.call('HSET', KEYS[2], ARGV[1], ARGV[2])
return id
"""


class RedisGone(GrowthError, ConnectionError):
    """Says that Redis cannot be reached, or no longer. What it has stays with it."""


class RedisFault(GrowthError):
    """Says that Redis refuses a command, by its text: out of memory, read only, another type."""


@dataclass(frozen=True, slots=True)
class Entry:
    """An entry of a stream: its place, and its fields."""

    place: Place
    fields: Mapping[bytes, bytes]


@dataclass(frozen=True, slots=True)
class Snapshot:
    """The state of a bridge after the entry at a place, as text."""

    place: Place
    state: str


class Store:
    """A connection to one Redis. Close it, or use it in a `with`; one thread may use it.

    Each call raises RedisGone if the connection cannot be made or has ended, and RedisFault if
    Redis refuses.
    """

    def __init__(self, url: str) -> None:
        """Connects to `redis://HOST:PORT/DB` or `unix:///PATH`.

        Raises MissingPackage if the package `redis` is not installed.
        """
        try:
            self._package: Any = import_module("redis")
        except ImportError as fault:
            raise MissingPackage("python3-redis") from fault
        self._connected = False
        with self._guarded():
            self._redis: Any = self._package.Redis.from_url(
                url, max_connections=1, redis_connect_func=self._connect)
            self._redis.ping()
            self._put = self._redis.register_script(_PUT)
            self._keep = self._redis.register_script(_KEEP)
            self._send = self._redis.register_script(_SEND)

    def __enter__(self) -> "Store":
        return self

    def __exit__(self, *_: object) -> None:
        self.close()

    def close(self) -> None:
        """Ends the connection."""
        self._redis.connection_pool.disconnect()

    def entries(self, key: str, after: Place, count: int, wait: int = 0) -> list[Entry]:
        """Returns the entries after a place, at most `count`; waits for one `wait` ms at most."""
        with self._guarded():
            found = self._redis.xread({key: id_of(after)}, count=count, block=wait or None)
        return [_entry(each) for _, entries in found for each in entries]

    def between(self, key: str, first: Place, last: Place) -> Iterator[Entry]:
        """Yields the entries from a place up to one, both included."""
        start = id_of(first)
        while True:
            with self._guarded():
                found = self._redis.xrange(key, start, id_of(last), count=1_000)
            if not found:
                return
            yield from map(_entry, found)
            start = "(" + found[-1][0].decode()

    def first(self, key: str, place: Place) -> Place | None:
        """Returns the place of a stream's first entry at a place or after it, or None."""
        with self._guarded():
            found = self._redis.xrange(key, id_of(place), "+", count=1)
        return place_of(found[0][0]) if found else None

    def last(self, key: str) -> Place | None:
        """Returns the place of a stream's last entry, or None if it has none."""
        with self._guarded():
            found = self._redis.xrevrange(key, count=1)
        return place_of(found[0][0]) if found else None

    def number(self, key: str) -> int | None:
        """Returns the whole number of a key, or None if there is none."""
        with self._guarded():
            found = self._redis.get(key)
        return None if found is None else int(found)

    def place(self, key: str) -> Place:
        """Returns the place of a key, or that before every entry if there is none."""
        with self._guarded():
            found = self._redis.get(key)
        return START if found is None else place_of(found)

    def put(self, key: str, entries: Sequence[tuple[str, str]], *, field: str = "rows",
            upto: tuple[str, int] | None = None) -> None:
        """Appends texts under ids that rise, and then raises a key to a number.

        An entry at or below the last one of the stream is there already, and passed over.
        """
        words = [word for entry in entries for word in entry]
        other, number = ("", "") if upto is None else (upto[0], str(upto[1]))
        with self._guarded():
            self._put(keys=[key, other], args=[field, number, *words])

    def snapshot(self, key: str) -> Snapshot | None:
        """Returns the snapshot of a key, or None if there is none."""
        with self._guarded():
            at, state = self._redis.hmget(key, "at", "state")
        return None if at is None else Snapshot(place_of(at), state.decode())

    def keep(self, key: str, snapshot: Snapshot, log: str, trimmed: str, trims: bool) -> None:
        """Keeps a snapshot if it is later than the one there.

        With `trims` the entries of `log` before that one go, and the key `trimmed` has its place.
        """
        with self._guarded():
            self._keep(keys=[key, log, trimmed],
                       args=[id_of(snapshot.place), snapshot.state, int(trims)])

    def add(self, log: str, fields: Sequence[str]) -> Place:
        """Appends an entry of names and values in turn, and returns the place that Redis chose."""
        with self._guarded():
            return place_of(self._redis.execute_command("XADD", log, "*", *fields))

    def send(self, log: str, numbers: str, producer: str, number: int,
             fields: Sequence[str]) -> Place:
        """Appends an entry of a producer and keeps its number, both or none."""
        with self._guarded():
            return place_of(self._send(keys=[log, numbers], args=[producer, number, *fields]))

    def sent(self, numbers: str, producer: str) -> int | None:
        """Returns the number of a producer's last entry, or None if there is none."""
        with self._guarded():
            found = self._redis.hget(numbers, producer)
        return None if found is None else int(found)

    def _connect(self, connection: Any) -> None:
        """Lets the package connect once."""
        if self._connected:
            raise self._package.ConnectionError("the connection has ended")
        self._connected = True
        connection.on_connect()

    @contextmanager
    def _guarded(self) -> Iterator[None]:
        try:
            yield
        except (self._package.ConnectionError, self._package.TimeoutError) as fault:
            self.close()
            raise RedisGone(f"Redis has gone: {fault}") from fault
        except self._package.RedisError as fault:
            raise RedisFault(f"Redis refuses: {fault}") from fault
        except ValueError as fault:
            raise RedisFault(f"Redis has what no bridge wrote: {fault}") from fault


def id_of(place: Place) -> str:
    """Returns a place as an id of Redis."""
    return f"{place[0]}-{place[1]}"


def place_of(text: bytes) -> Place:
    """Returns the place of an id of Redis. Raises ValueError if it is none."""
    first, second = text.split(b"-")
    return int(first), int(second)


def _entry(found: tuple[bytes, dict[bytes, bytes]]) -> Entry:
    return Entry(place_of(found[0]), found[1])
