"""The web server of the page: a few files, and one stream of events for each viewer."""
from __future__ import annotations

import asyncio
import errno
import json
from contextlib import suppress
from importlib import resources
from typing import Any, AsyncIterator, Awaitable, Callable

from aiohttp import web

from . import told
from .errors import PagePortTaken
from .history import History
from .watch import Watch

FILES = {
    "/": ("index.html", "text/html"),
    "/page.css": ("page.css", "text/css"),
    "/page.js": ("page.js", "text/javascript"),
    "/plot.js": ("plot.js", "text/javascript"),
    "/plan.js": ("plan.js", "text/javascript"),
    "/words.js": ("words.js", "text/javascript"),
    "/icon.svg": ("icon.svg", "image/svg+xml"),
}
HEADERS = {
    "Content-Security-Policy": "default-src 'self'; base-uri 'none'; form-action 'none'; "
                               "frame-ancestors 'none'",
    "X-Content-Type-Options": "nosniff",
    "X-Frame-Options": "DENY",
    "Referrer-Policy": "no-referrer",
    "Cross-Origin-Resource-Policy": "same-origin",
    "Cache-Control": "no-store",
    "Server": "cql page",
}
LOCAL = {"localhost", "127.0.0.1", "::1"}
KEEP_ALIVE = 10.0  # seconds without news after which a viewer is told that all is well

Handler = Callable[[web.Request], Awaitable[web.StreamResponse]]


def application(watch: Watch, local: bool = True) -> web.Application:
    """Returns the page over a watch, which it starts and ends with itself.

    While `local`, only requests whose `Host` names this machine are answered, so that no page of
    another site reads this one by a name of its own.
    """
    @web.middleware
    async def guarded(request: web.Request, handler: Handler) -> web.StreamResponse:
        if local and (request.url.host or "") not in LOCAL:
            response: web.StreamResponse = web.Response(status=421, text="not a name of this page")
        else:
            try:
                response = await handler(request)
            except web.HTTPException as error:
                response = web.Response(status=error.status, text=error.reason)
        if not response.prepared:
            response.headers.update(HEADERS)
        return response

    async def running(_: web.Application) -> AsyncIterator[None]:
        task = asyncio.create_task(watch.run())
        yield
        while not task.done():
            task.cancel()
            await asyncio.wait([task], timeout=1)

    async def ending(_: web.Application) -> None:
        await watch.end()

    async def events(request: web.Request) -> web.StreamResponse:
        return await _events(request, watch)

    async def state(_: web.Request) -> web.Response:
        return web.json_response(told.state(watch))

    app = web.Application(middlewares=[guarded])
    app.cleanup_ctx.append(running)
    app.on_shutdown.append(ending)
    for path, (name, kind) in FILES.items():
        app.router.add_get(path, _file(name, kind))
    app.router.add_get("/state", state)
    app.router.add_get("/events", events)
    return app


def _file(name: str, kind: str) -> Handler:
    body = resources.files(__package__).joinpath("static", name).read_bytes()

    async def file(_: web.Request) -> web.Response:
        return web.Response(body=body, content_type=kind, charset="utf-8")
    return file


class _Events:
    """Writes named events, each only where it differs from the last of its name."""

    def __init__(self, response: web.StreamResponse) -> None:
        self._response = response
        self._last: dict[str, str] = {}

    async def write(self, name: str, data: Any, always: bool = False) -> bool:
        text = json.dumps(data, separators=(",", ":"))
        if not always and self._last.get(name) == text:
            return False
        self._last[name] = text
        await self._response.write(f"event: {name}\ndata: {text}\n\n".encode())
        return True

    async def beat(self) -> None:
        await self._response.write(b": still here\n\n")


async def _events(request: web.Request, watch: Watch) -> web.StreamResponse:
    """Pushes the state, and of the query that is named its plan and its answers."""
    name = request.query.get("query", "")
    response = web.StreamResponse(headers={**HEADERS, "Content-Type": "text/event-stream"})
    await response.prepare(request)
    events = _Events(response)
    seen: tuple[History, int] | None = None  # a history, and which of its lives
    version, place = -1, 0
    with watch.viewing(name), suppress(ConnectionResetError):
        while not watch.ended:
            version = await watch.changes(version, KEEP_ALIVE)
            wrote = await events.write("state", told.state(watch))
            query = watch.queries.get(name)
            if query is not None:
                wrote |= await events.write("plan", told.plan(query))
                history = query.history
                fresh = seen is None or seen[0] is not history or seen[1] != history.life
                news = history.since(0 if fresh else place)
                if news or fresh:
                    data = told.answers(watch, query, news, fresh)
                    wrote |= await events.write("answers", data, always=True)
                seen, place = (history, history.life), history.next
            if not wrote:
                await events.beat()
    return response


async def serve(watch: Watch, host: str, port: int,
                ready: Callable[[str], None] | None = None) -> None:
    """Serves the page until it is cancelled. Tells `ready` its address. Raises `PagePortTaken`."""
    runner = web.AppRunner(application(watch, host in LOCAL), access_log=None)
    await runner.setup()
    try:
        site = web.TCPSite(runner, host, port, shutdown_timeout=1.0)
        try:
            await site.start()
        except OSError as error:
            if error.errno == errno.EADDRINUSE:
                raise PagePortTaken(host, port) from error
            raise
        if ready is not None:
            bound = runner.addresses[0]
            ready(f"http://{host}:{bound[1]}/")
        await asyncio.Event().wait()
    finally:
        await runner.cleanup()
