"""Drives a headless Chromium by the DevTools protocol over two pipes."""
from __future__ import annotations

import base64
import json
import os
import select
import shutil
import subprocess
import tempfile
import time
from pathlib import Path
from typing import Any

PATIENCE = 120.0  # seconds that a browser under load may need for anything
FLAGS = [
    "--headless=new", "--no-sandbox", "--remote-debugging-pipe", "--disable-gpu",
    "--disable-dev-shm-usage", "--no-first-run", "--disable-extensions", "--hide-scrollbars",
    "--disable-background-networking", "--disable-component-update", "--disable-sync",
    "--force-color-profile=srgb", "--no-default-browser-check", "--mute-audio",
]


class BrowserFailed(Exception):
    """The browser refused a command, or did not answer in time."""


def program() -> str | None:
    """Returns the path of Chromium, or None where there is none."""
    direct = Path("/usr/lib/chromium/chromium")
    return str(direct) if direct.exists() else shutil.which("chromium")


class Browser:
    """A browser with one page. Use it in a `with`."""

    def __init__(self) -> None:
        found = program()
        if found is None:
            raise BrowserFailed("no chromium")
        self._home = tempfile.TemporaryDirectory(prefix="page-browser-",
                                                 ignore_cleanup_errors=True)
        theirs_in, self._to = os.pipe()
        self._from, theirs_out = os.pipe()
        words = [found, *FLAGS, f"--user-data-dir={self._home.name}", "about:blank"]
        shell = f'exec "$@" 3<&{theirs_in} 4>&{theirs_out}'
        self._process = subprocess.Popen(
            ["bash", "-c", shell, "chromium", *words], pass_fds=(theirs_in, theirs_out),
            stdin=subprocess.DEVNULL, stdout=subprocess.DEVNULL, stderr=subprocess.DEVNULL,
            env={**os.environ, "HOME": self._home.name})
        os.close(theirs_in)
        os.close(theirs_out)
        self._held = b""
        self._last = 0
        self._session: str | None = None
        self.troubles: list[str] = []  # errors of the console, and exceptions
        target = self._call("Target.createTarget", url="about:blank")["targetId"]
        self._session = self._call("Target.attachToTarget", targetId=target,
                                   flatten=True)["sessionId"]
        for domain in ("Page", "Runtime", "Log"):
            self._call(f"{domain}.enable")

    def __enter__(self) -> Browser:
        return self

    def __exit__(self, *_: object) -> None:
        self.close()

    def close(self) -> None:
        """Ends the browser."""
        for end in (self._to, self._from):
            os.close(end)
        try:
            self._process.wait(5)
        except subprocess.TimeoutExpired:
            self._process.kill()
            self._process.wait()
        self._home.cleanup()

    def size(self, width: int, height: int, dark: bool = False, dense: float = 1) -> None:
        """Sets the size of the page in CSS pixels, and whether it prefers dark colours.

        It always prefers reduced motion, so that a machine under load has less to draw.
        """
        self._call("Emulation.setDeviceMetricsOverride", width=width, height=height,
                   deviceScaleFactor=dense, mobile=width < 600)
        scheme = "dark" if dark else "light"
        self._call("Emulation.setEmulatedMedia",
                   features=[{"name": "prefers-color-scheme", "value": scheme},
                             {"name": "prefers-reduced-motion", "value": "reduce"}])

    def open(self, address: str) -> None:
        """Goes to an address."""
        self.troubles.clear()
        reply = self._call("Page.navigate", url=address)
        if "errorText" in reply:
            raise BrowserFailed(f"{address}: {reply['errorText']}")

    def value(self, script: str) -> Any:
        """Returns what a script's expression comes to."""
        reply = self._call("Runtime.evaluate", expression=script, returnByValue=True,
                           awaitPromise=True)
        if "exceptionDetails" in reply:
            raise BrowserFailed(f"{script}: {reply['exceptionDetails']}")
        return reply["result"].get("value")

    def wait(self, script: str, patience: float = PATIENCE) -> Any:
        """Waits until a script's expression is true, and returns it. Till then it may fail."""
        until = time.monotonic() + patience
        while True:
            value = self.value(f"(() => {{ try {{ return {script} }} catch {{ return null }} }})()")
            if value:
                return value
            if time.monotonic() > until:
                raise BrowserFailed(f"never true: {script}; the page says: {self.text()[:2000]}")
            time.sleep(0.05)

    def text(self) -> str:
        """Returns the text that the page shows."""
        return str(self.value("document.body ? document.body.innerText : ''"))

    def screenshot(self, path: Path) -> None:
        """Writes a picture of the page as it is seen."""
        data = self._call("Page.captureScreenshot", format="png")["data"]
        path.write_bytes(base64.b64decode(data))

    def _call(self, method: str, **parameters: Any) -> dict[str, Any]:
        self._last += 1
        message: dict[str, Any] = {"id": self._last, "method": method, "params": parameters}
        if self._session is not None:
            message["sessionId"] = self._session
        os.write(self._to, json.dumps(message).encode() + b"\0")
        until = time.monotonic() + PATIENCE
        while True:
            told = self._message(until, method)
            self._notice(told)
            if told.get("id") == self._last:
                if "error" in told:
                    raise BrowserFailed(f"{method}: {told['error']}")
                result: dict[str, Any] = told["result"]
                return result

    def _message(self, until: float, method: str) -> dict[str, Any]:
        while b"\0" not in self._held:
            ready, _, _ = select.select([self._from], [], [], max(0.0, until - time.monotonic()))
            if not ready:
                raise BrowserFailed(f"{method}: no answer")
            part = os.read(self._from, 1 << 16)
            if not part:
                raise BrowserFailed(f"{method}: the browser ended")
            self._held += part
        line, self._held = self._held.split(b"\0", 1)
        told: dict[str, Any] = json.loads(line)
        return told

    def _notice(self, told: dict[str, Any]) -> None:
        method, parameters = told.get("method"), told.get("params", {})
        if method == "Log.entryAdded" and parameters["entry"]["level"] == "error":
            self.troubles.append(str(parameters["entry"]["text"]))
        elif method == "Runtime.exceptionThrown":
            self.troubles.append(str(parameters["exceptionDetails"]))
