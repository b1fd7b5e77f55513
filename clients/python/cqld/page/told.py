"""What the browser is told: the state, the plan and the answers, as plain data."""
from __future__ import annotations

import time
from typing import Any

from ..columns import Clock
from .history import Answer
from .known import QueryShape, clock_at
from .watch import QuerySeen, StreamSeen, Watch

Data = dict[str, Any]


def state(watch: Watch) -> Data:
    """Returns the server, its streams with their lag, and its queries with what waits."""
    looks = watch.status and watch.peek
    return {
        "server": f"{watch.host}:{watch.port}",
        "connected": watch.connected,
        "trouble": watch.trouble,
        "status": watch.status,
        "looks": looks,
        "streams": [_stream(watch, stream) for stream in _by_name(watch.streams)],
        "queries": [_query(watch, query, looks) for query in _by_name(watch.queries)],
    }


def _by_name(things: dict[str, Any]) -> list[Any]:
    return [things[name] for name in sorted(things)]


def _stream(watch: Watch, stream: StreamSeen) -> Data:
    shape = watch.known.streams.get(stream.name)
    clock = clock_at(shape.clock if shape else None, stream.closed)
    furthest = max((other.closed for other in watch.streams.values()
                    if other.closed is not None), default=None)
    behind: int | None = None
    if stream.closed is not None and furthest is not None:
        behind = furthest - stream.closed
    return {
        "name": stream.name,
        "columns": list(stream.columns),
        "rows": stream.rows,
        "closed": stream.closed,
        "clock": _clock(clock),
        "lag": _lag(stream.closed, clock),
        "behind": behind,
        "still": None if stream.moved is None else int(time.monotonic() - stream.moved),
    }


def _clock(clock: Clock | None) -> Data | None:
    """Returns a clock's unit and start in seconds, the start from 1970."""
    if clock is None:
        return None
    return {"unit": clock.unit.total_seconds(), "start": clock.start.timestamp()}


def _lag(closed: int | None, clock: Clock | None) -> int | None:
    """Returns the seconds from the end of a stream's closed instant to the clock."""
    if closed is None or clock is None:
        return None
    return max(0, int(time.time() - clock.time(closed + 1).timestamp()))


def _query(watch: Watch, query: QuerySeen, looks: bool) -> Data:
    shape = watch.known.queries.get(query.name, QueryShape())
    return {
        "name": query.name,
        "text": shape.text,
        "clock": _clock(clock_at(shape.clock, query.upto)),
        "base": query.base,
        "upto": query.upto,
        "taken": query.taken,
        "waiting": query.waiting,
        "seen": query.history.next,
        "shown": looks or query.name in watch.known.taken,
        "trouble": query.trouble,
    }


def plan(query: QuerySeen) -> Data:
    """Returns a query's operators, each its kind and its slope, by number."""
    return {"query": query.name, "operators": [list(pair) for pair in query.operators]}


def answers(watch: Watch, query: QuerySeen, news: list[Answer], fresh: bool) -> Data:
    """Returns answers with their cells as texts. `fresh` says that earlier ones are void."""
    shape = watch.known.queries.get(query.name, QueryShape())
    columns = shape.columns_of(len(news[-1].values) if news else 0)
    rows = []
    for answer in news:
        cells = shape.cells_of(answer.instant, answer.values)
        if cells is not None:
            rows.append([answer.place, answer.instant, *cells])
    return {
        "query": query.name,
        "fresh": fresh,
        "missed": query.history.missed,
        "clock": _clock(clock_at(shape.clock, news[-1].instant if news else None)),
        "columns": [{"name": column.name, "numeric": column.numeric} for column in columns],
        "rows": rows,
    }
