"""Debian's chromium, headless, spoken to by its own protocol over two pipes."""
from __future__ import annotations

import base64
import json
import os
import select
import shutil
import subprocess
import tempfile
import time

NAMES = ("chromium", "chromium-browser", "google-chrome")
QUIET = (
    "--headless",
    "--disable-gpu",
    "--disable-dev-shm-usage",
    "--no-first-run",
    "--disable-background-networking",
    "--disable-component-update",
    "--disable-sync",
    "--disable-extensions",
    "--disable-default-apps",
    "--hide-scrollbars",
    "--remote-debugging-pipe",
)


def program() -> str:
    """The browser's path; where it is missing, what to install."""
    found = next((path for path in map(shutil.which, NAMES) if path), None)
    if found is None:
        raise AssertionError("chromium is missing: the page is tried in it; on Debian, `apt-get install chromium`, which `make python-test` does as root")
    return found


class Browser:
    """One browser with one page at a time. What it would ask of a network goes to a proxy that does not answer."""

    def __init__(self) -> None:
        self.folder = tempfile.mkdtemp()
        to_browser, self._write = os.pipe()
        self._read, from_browser = os.pipe()
        words = [program(), *QUIET, f"--user-data-dir={self.folder}", "--proxy-server=http://127.0.0.1:9", "about:blank"]
        words[1:1] = ["--no-sandbox"] if os.getuid() == 0 else []
        shell = f'exec "$0" "$@" 3<&{to_browser} 4>&{from_browser}'
        self._process = subprocess.Popen(
            ["/bin/sh", "-c", shell, *words], pass_fds=(to_browser, from_browser), stdout=subprocess.DEVNULL, stderr=subprocess.DEVNULL
        )
        os.close(to_browser)
        os.close(from_browser)
        self._rest, self._count, self.events, self._session = b"", 0, [], None
        target = self.ask("Target.createTarget", url="about:blank")["targetId"]
        self._session = self.ask("Target.attachToTarget", targetId=target, flatten=True)["sessionId"]
        for domain in ("Page", "Network", "Runtime", "Log"):
            self.ask(f"{domain}.enable")

    def close(self) -> None:
        self._session = None
        try:
            self.ask("Browser.close")
            self._process.wait(20)
        except (OSError, AssertionError, subprocess.TimeoutExpired):
            self._process.kill()
            self._process.wait()
        for pipe in (self._read, self._write):
            os.close(pipe)
        shutil.rmtree(self.folder, ignore_errors=True)

    def ask(self, method: str, **parameters: object) -> dict:
        """Calls a method and waits for its answer; what happens meanwhile is kept in `events`."""
        self._count += 1
        message = {"id": self._count, "method": method, "params": parameters}
        if self._session is not None:
            message["sessionId"] = self._session
        os.write(self._write, json.dumps(message).encode() + b"\0")
        while True:
            answer = self._next(120)
            if answer.get("id") == self._count:
                if "error" in answer:
                    raise AssertionError(f"{method}: {answer['error']}")
                return answer["result"]
            self.events.append(answer)

    def _next(self, seconds: float) -> dict:
        end = time.monotonic() + seconds
        while b"\0" not in self._rest:
            if not select.select([self._read], [], [], max(0.0, end - time.monotonic()))[0]:
                raise AssertionError("the browser does not answer")
            got = os.read(self._read, 1 << 20)
            if not got:
                raise AssertionError("the browser ended")
            self._rest += got
        message, _, self._rest = self._rest.partition(b"\0")
        return json.loads(message)

    def wait_for(self, method: str) -> None:
        while not any(event.get("method") == method for event in self.events):
            self.events.append(self._next(120))

    def open(self, path: str) -> None:
        """Opens a file and waits until it is loaded; `events` has all that happened since."""
        self.events = []
        self.ask("Page.navigate", url="file://" + path)
        self.wait_for("Page.loadEventFired")

    def value(self, expression: str) -> object:
        """What an expression gives in the page."""
        answer = self.ask("Runtime.evaluate", expression=expression, returnByValue=True)
        if "exceptionDetails" in answer:
            raise AssertionError(answer["exceptionDetails"])
        return answer["result"].get("value")

    def look(self, width: int, height: int = 900, dark: bool = False, printed: bool = False) -> None:
        """The size of the window, the scheme of colours, and the medium."""
        self.ask("Emulation.setDeviceMetricsOverride", width=width, height=height, deviceScaleFactor=1, mobile=width < 600)
        features = [{"name": "prefers-color-scheme", "value": "dark" if dark else "light"}]
        self.ask("Emulation.setEmulatedMedia", media="print" if printed else "screen", features=features)

    def picture(self, height: int = 0) -> bytes:
        """A PNG of the page: what is in the window, or so many pixels from its top."""
        clip = {"clip": {"x": 0, "y": 0, "width": self.value("innerWidth"), "height": height, "scale": 1}, "captureBeyondViewport": True} if height else {}
        return base64.b64decode(self.ask("Page.captureScreenshot", format="png", **clip)["data"])

    def requests(self) -> list:
        """What was asked for since the page was opened, but for what its policy has kept back."""
        return [url for url, kept in self._asked() if not kept]

    def blocked(self) -> list:
        """What the page's policy has kept back."""
        return [url for url, kept in self._asked() if kept]

    def _asked(self) -> list:
        failed = {
            event["params"]["requestId"]
            for event in self.events
            if event.get("method") == "Network.loadingFailed" and event["params"].get("blockedReason") == "csp"
        }
        sent = (event["params"] for event in self.events if event.get("method") == "Network.requestWillBeSent")
        return [(one["request"]["url"], one["requestId"] in failed) for one in sent]
