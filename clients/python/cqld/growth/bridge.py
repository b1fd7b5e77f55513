"""Between Redis Streams and an engine: rows and promises come in, answers go out, each once.

    python3 -m cqld.growth.bridge PREFIX [--redis URL] [--program CQLRUN] [--every N] [--trim]

The stream PREFIX:in is the log; `entries` has the fields of its entries. A stream is closed up to
the least promise of its producers. The bridge writes:

    PREFIX:out:QUERY    the answers of an instant as JSON, under the id INSTANT-PART
    PREFIX:upto:QUERY   the instant up to which all of them are there
    PREFIX:refused      the fault of an entry that was refused, under the entry's own id
    PREFIX:snapshot     what later answers need of the entries up to a place

Answers are a function of the log, and Redis refuses an id that is not above the last. So whatever
dies, start it again: it writes what is missing, and only that. Two bridges may run side by side.
"""

import argparse
import json
import sys
from collections.abc import Iterator, Sequence
from dataclasses import dataclass, field
from itertools import groupby
from typing import Self

from .. import find_program
from ..faults import BadRequest, CqldError, Refused
from ..language import Fault, read
from .compactor import Compactor
from .engine import Engine
from .entries import BadEntry, Declaration, Promise, Rows, sender_of, told_by
from .errors import GrowthError
from .script import (LAST, ROWS, Append, Drain, Heartbeat, Query, Request, Row, Stream,
                     heartbeats, object_of, request_of)
from .store import START, Entry, Place, Snapshot, Store, id_of

PART = 1_000  # answers of an entry; a bridge that comes later has to have the same
_BYTES = 60_000  # text of rows that go to the engine together
_COUNT = 256  # entries that are read together
_ENTRIES = 500  # entries that are written together
_END = 2**63  # a part after every other
_UNWELL = ("E15", "E18", "E19", "E20")  # faults that another engine need not answer


class EngineUnwell(GrowthError):
    """Says that the engine ran out of memory, or of room for the rows that queries need."""


@dataclass(slots=True)
class _Known:
    """What a bridge knows beside its engine: a function of the log."""

    closed: dict[str, int] = field(default_factory=dict)
    promises: dict[str, dict[str, int]] = field(default_factory=dict)  # of a stream, by producer
    numbers: dict[str, int] = field(default_factory=dict)  # each producer's last
    names: set[str] = field(default_factory=set)  # of all queries ever


class _Held:
    """Rows of one stream, of entries that go to the engine together."""

    def __init__(self) -> None:
        self._parts: list[tuple[Place, Rows]] = []
        self._size = self._count = 0

    def takes(self, more: Rows) -> bool:
        """Whether rows may go with those that are held."""
        return not self._parts or (
            self._parts[0][1].stream == more.stream
            and self._size + more.size <= _BYTES
            and self._count + len(more.rows) <= ROWS)

    def add(self, place: Place, rows: Rows) -> None:
        """Holds the rows of an entry."""
        self._parts.append((place, rows))
        self._size += rows.size
        self._count += len(rows.rows)

    def clear(self) -> list[tuple[Place, Rows]]:
        """Returns what is held, and no longer holds it."""
        parts, self._parts = self._parts, []
        self._size = self._count = 0
        return parts


class Bridge:
    """Carries a log of Redis through an engine of its own. Close it, or use it in a `with`.

    Its calls raise RedisGone and RedisFault of the store, ConnectionLost if the engine has gone,
    and EngineUnwell. After each of them it is of no more use: begin with another.
    """

    def __init__(self, store: Store, prefix: str, program: str | None = None, *,
                 every: int = 2_000, trims: bool = False) -> None:
        """Begins where the last snapshot ends, or at the start of the log.

        It keeps a snapshot after `every` entries. With `trims` it also lets go of the entries
        before the last snapshot but one. Raises ProgramMissing if there is no engine.
        """
        self._store = store
        self._prefix = prefix
        self._program = program or find_program("cqlrun")
        self._every = every
        self._trims = trims
        self._known = _Known()
        self._compactor = Compactor()
        self._place = START
        self._since = 0  # entries since the last snapshot
        self._engine: Engine | None = None
        try:
            self._begin()
        except BaseException:
            self.close()
            raise

    def __enter__(self) -> Self:
        return self

    def __exit__(self, *_: object) -> None:
        self.close()

    @property
    def engine(self) -> int:
        """The id of the engine's process."""
        return self._asked().pid

    @property
    def place(self) -> Place:
        """The place of the last entry that was carried through."""
        return self._place

    def close(self) -> None:
        """Ends the engine. What is in Redis stays."""
        if self._engine is not None:
            self._engine.close()

    def run(self) -> None:
        """Carries entries through as they come, for good."""
        while True:
            self.turn(200)

    def turn(self, wait: int = 0) -> int:
        """Carries the next entries through, and returns their number.

        Waits `wait` milliseconds at most for the first of them.
        """
        entries = self._store.entries(self._key("in"), self._place, _COUNT, wait)
        if self._store.place(self._key("trimmed")) > self._place:
            self._begin()  # another bridge let go of entries that this one has not seen
            return 0
        if entries:
            self._carry(entries)
            if self._since >= self._every:
                self.snapshot()
        return len(entries)

    def snapshot(self) -> None:
        """Writes all answers that are closed, and keeps what later ones need."""
        self._answer()
        script = self._compactor.script()
        known = self._known
        state = {"log": [object_of(request) for request in script], "promises": known.promises,
                 "numbers": known.numbers, "names": sorted(known.names)}
        text = json.dumps(state, separators=(",", ":"))
        self._store.keep(self._key("snapshot"), Snapshot(self._place, text), self._key("in"),
                         self._key("trimmed"), self._trims)
        self._since = 0

    def _asked(self) -> Engine:
        assert self._engine is not None  # it began with one
        return self._engine

    def _key(self, *parts: str) -> str:
        return ":".join((self._prefix, *parts))

    # Where it begins

    def _begin(self) -> None:
        self._known = _Known()
        self._place = START
        self._since = 0
        script: list[Request] = []
        found = self._store.snapshot(self._key("snapshot"))
        if found is not None:
            self._place = found.place
            state = json.loads(found.state)
            self._known.promises = state["promises"]
            self._known.numbers = state["numbers"]
            self._known.names = set(state["names"])
            script = [request_of(each) for each in state["log"]]
        self._renew(script)

    def _renew(self, script: Sequence[Request]) -> None:
        """Takes a fresh engine, and brings it to where a script leads."""
        self.close()
        self._engine = Engine(self._program)
        self._compactor = Compactor()
        self._engine.tell(script)
        for request in script:
            self._note(request)
        self._answer()

    # In

    def _carry(self, entries: Sequence[Entry]) -> None:
        held = _Held()
        closes = False
        for entry in entries:
            try:
                if self._is_repeat(entry):
                    continue
                told = told_by(entry.fields)
                if isinstance(told, Rows):
                    if not held.takes(told):
                        self._append(held)
                    held.add(entry.place, told)
                    continue
                self._append(held)
                if isinstance(told, Promise):
                    closes |= self._promise(told)
                else:
                    self._declare(told)
                    closes = True
            except (BadEntry, Refused, BadRequest, Fault) as fault:
                self._append(held)
                self._refuse(entry.place, fault)
        self._append(held)
        self._place = entries[-1].place
        self._since += len(entries)
        if closes:
            self._answer()

    def _is_repeat(self, entry: Entry) -> bool:
        sender = sender_of(entry.fields)
        if sender is None:
            return False
        if sender.number <= self._known.numbers.get(sender.name, -1):
            return True
        self._known.numbers[sender.name] = sender.number
        return False

    def _append(self, held: _Held) -> None:
        """Appends what is held. If it is refused together, each entry goes by itself."""
        parts = held.clear()
        if not parts:
            return
        fault = self._try(parts)
        if fault is None:
            return
        for part in parts:
            if len(parts) > 1:
                fault = self._try([part])
            if fault is not None:
                self._refuse(part[0], fault)

    def _try(self, parts: Sequence[tuple[Place, Rows]]) -> CqldError | None:
        """Appends rows. Returns why they are refused, or None if they are not."""
        rows = [row for _, part in parts for row in part.rows]
        try:
            self._tell(Append(parts[0][1].stream, rows))
        except (Refused, BadRequest) as fault:
            return fault
        return None

    def _declare(self, told: Declaration) -> None:
        request, known = told.request, self._known
        if isinstance(request, Query) and request.name in known.names:
            raise BadEntry(f"E2 NameTaken: a query was named {request.name} before, and answers "
                           "of both would be one stream")
        if isinstance(request, Stream) and not told.producers:
            raise BadEntry(f"no producers: {request.name} would never be closed")
        if isinstance(request, Query):
            read(request.text)  # what cannot be read here is not told to the engine
        self._answer()  # what is closed is answered before a query goes
        self._tell(request)
        if isinstance(request, Stream):
            known.promises[request.name] = {name: request.start - 1 for name in told.producers}
        elif isinstance(request, Query):
            known.names.add(request.name)

    def _promise(self, told: Promise) -> bool:
        """Takes a promise in. Returns whether it closes anything."""
        promises = self._known.promises.get(told.stream)
        if promises is None:
            raise BadEntry(f"E5 UnknownStream: {told.stream}")
        if told.producer not in promises:
            raise BadEntry(f"{told.producer} is no producer of {told.stream}")
        if told.at > LAST:
            raise BadEntry(f"E9 InstantRange: {told.at}")
        if told.at < promises[told.producer]:
            raise BadEntry(f"E11 Backward: {told.producer} promised {promises[told.producer]}")
        promises[told.producer] = told.at
        beats = heartbeats(told.stream, self._known.closed[told.stream], min(promises.values()))
        for beat in beats:
            self._tell(beat)
        return bool(beats)

    def _tell(self, request: Request) -> None:
        try:
            self._asked().carry(request)
        except Refused as fault:
            if fault.code == "E13":
                self._tell_fresh(request)
            elif fault.code in _UNWELL:
                raise EngineUnwell(str(fault)) from fault
            else:
                raise
        self._note(request)

    def _tell_fresh(self, request: Request) -> None:
        """Tells an engine whose counts of rows begin anew with those that later answers need."""
        self._answer()
        self._renew(self._compactor.script())
        try:
            self._asked().carry(request)
        except Refused as fault:
            if fault.code in ("E13", *_UNWELL):
                raise EngineUnwell(str(fault)) from fault
            raise

    def _note(self, request: Request) -> None:
        self._compactor.note(request)
        if isinstance(request, Stream):
            self._known.closed[request.name] = request.start - 1
        elif isinstance(request, Heartbeat):
            self._known.closed[request.stream] = request.at

    def _refuse(self, place: Place, fault: CqldError | Fault) -> None:
        text = fault.fault if isinstance(fault, Refused) else str(fault)
        self._store.put(self._key("refused"), [(id_of(place), text)], field="fault")

    # Out

    def _answer(self) -> None:
        """Writes all answers that are closed."""
        try:
            self._asked().carry(Drain())
            for query in self._compactor.queries:
                self._write(query)
        except Refused as fault:
            raise EngineUnwell(str(fault)) from fault

    def _write(self, query: str) -> None:
        out, upto = self._key("out", query), (self._key("upto", query),
                                              self._compactor.closed(query))
        last = self._last(query)
        entries: list[tuple[str, str]] = []
        for place, text in self._parts(query):
            if place > last:
                entries.append((id_of(place), text))
            if len(entries) >= _ENTRIES:
                self._store.put(out, entries)
                entries = []
        self._store.put(out, entries, upto=upto)
        self._compactor.answered(query, upto[1])

    def _parts(self, query: str) -> Iterator[tuple[Place, str]]:
        """The answers of a query that wait, in entries."""
        for instant, rows in groupby(self._asked().waiting(query), key=_instant):
            values = [row[1:] for row in rows]
            for at in range(0, len(values), PART):
                text = json.dumps(values[at:at + PART], separators=(",", ":"))
                yield (instant, 1 + at // PART), text

    def _last(self, query: str) -> Place:
        """The place of the last answer that is there, or was before answers were let go."""
        here = self._store.last(self._key("out", query)) or (-1, 0)
        upto = self._store.number(self._key("upto", query))
        return here if upto is None else max(here, (upto, _END))


def _instant(row: Row) -> int:
    assert row[0] is not None  # the first value of an answer is its instant
    return row[0]


def main(words: list[str] | None = None) -> int:
    """Runs a bridge until something it needs has gone. Returns 1 then."""
    parser = argparse.ArgumentParser(
        prog="python3 -m cqld.growth.bridge",
        description="Carries rows from a Redis stream through an engine, and answers back.")
    parser.add_argument("prefix", help="what its keys begin with, before a colon")
    parser.add_argument("--redis", default="redis://127.0.0.1:6379/0", metavar="URL")
    parser.add_argument("--program", help="the engine, as a path to cqlrun")
    parser.add_argument("--every", type=int, default=2_000, help="entries between snapshots")
    parser.add_argument("--trim", action="store_true",
                        help="let go of entries before the last snapshot but one")
    chosen = parser.parse_args(words)
    try:
        with Store(chosen.redis) as store, Bridge(
                store, chosen.prefix, chosen.program, every=chosen.every,
                trims=chosen.trim) as bridge:
            bridge.run()
    except CqldError as fault:
        print(f"bridge: {fault}", file=sys.stderr)
    except KeyboardInterrupt:
        pass
    return 1


if __name__ == "__main__":
    sys.exit(main())
