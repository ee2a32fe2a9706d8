"""Chromium without a window, controlled by its developer pipe: measurements of a page, pictures, and prints."""

from __future__ import annotations

import base64
import json
import os
import select
import shutil
import subprocess
import tempfile
import time
from pathlib import Path
from typing import Any, Dict, Optional

NAMES = ("chromium", "chromium-browser", "google-chrome")
MOST_SECONDS = 60
WORDS = ("--headless", "--no-sandbox", "--disable-gpu", "--disable-dev-shm-usage", "--no-first-run", "--disable-extensions")
# The browser reads commands from its file 3, and answers to its file 4.
SHELL = 'in="$1" out="$2"; shift 2; eval "exec \\"\\$@\\" 3<&$in 4>&$out"'

Fields = Dict[str, Any]


def browser_here() -> Optional[str]:
    """The program of a browser, if one is in PATH."""
    found = [shutil.which(name) for name in NAMES]
    return next((path for path in found if path), None)


class Browser:
    """A browser with one page, whose window has a width and a height in pixels. It ends with its block."""

    def __init__(self, program: str) -> None:
        self.program = program
        self.room = tempfile.TemporaryDirectory()
        self.asked = 0
        self.rest = b""
        self.session = ""
        self.events: list[Fields] = []

    def __enter__(self) -> "Browser":
        asking, self.to = os.pipe()
        self.source, answering = os.pipe()
        words = [self.program, *WORDS, "--remote-debugging-pipe", f"--user-data-dir={self.room.name}", "about:blank"]
        shell = ["bash", "-c", SHELL, "bash", str(asking), str(answering), *words]
        nothing = subprocess.DEVNULL
        self.process = subprocess.Popen(shell, stdin=nothing, stdout=nothing, stderr=nothing, pass_fds=(asking, answering))
        os.close(asking)
        os.close(answering)
        target = self.ask("Target.createTarget", url="about:blank")["targetId"]
        self.session = self.ask("Target.attachToTarget", targetId=target, flatten=True)["sessionId"]
        for part in ("Page", "Runtime", "Log", "Network", "Accessibility"):
            self.ask(f"{part}.enable")
        return self

    def __exit__(self, *_: object) -> None:
        try:
            self.session = ""
            self.ask("Browser.close")
            self.process.wait(MOST_SECONDS)
        except (OSError, AssertionError, subprocess.TimeoutExpired):
            self.process.kill()
            self.process.wait()
        os.close(self.to)
        os.close(self.source)
        self.room.cleanup()

    def ask(self, method: str, **parameters: Any) -> Fields:
        """Sends a command, and waits for its answer."""
        self.asked += 1
        question: Fields = {"id": self.asked, "method": method, "params": parameters}
        if self.session:
            question["sessionId"] = self.session
        os.write(self.to, json.dumps(question).encode() + b"\0")
        while True:
            told = self.next_told()
            if told.get("id") == self.asked:
                assert "error" not in told, (method, told["error"])
                return dict(told["result"])

    def next_told(self) -> Fields:
        """The browser's next message. An event is kept."""
        end = time.monotonic() + MOST_SECONDS
        while b"\0" not in self.rest:
            ready, _, _ = select.select([self.source], [], [], max(0.0, end - time.monotonic()))
            assert ready, "the browser tells nothing"
            data = os.read(self.source, 1 << 16)
            assert data, "the browser ended"
            self.rest += data
        text, _, self.rest = self.rest.partition(b"\0")
        told: Fields = json.loads(text)
        if "method" in told:
            self.events.append(told)
        return told

    def open(self, path: Path, width: int, height: int = 900, is_dark: bool = False, media: str = "screen") -> None:
        """Opens a file in a window of a size, or on paper of one. A narrow window is a phone's."""
        self.events.clear()
        is_phone = width < 600
        self.ask("Emulation.setDeviceMetricsOverride", width=width, height=height, deviceScaleFactor=1, mobile=is_phone)
        features = [{"name": "prefers-color-scheme", "value": "dark" if is_dark else "light"}]
        self.ask("Emulation.setEmulatedMedia", media=media, features=features)
        self.ask("Page.navigate", url=path.resolve().as_uri())
        while not self.told("Page.loadEventFired"):
            self.next_told()

    def told(self, method: str) -> list[Fields]:
        """The events of a kind since the page was opened."""
        return [event["params"] for event in self.events if event["method"] == method]

    def value(self, expression: str) -> Any:
        found = self.ask("Runtime.evaluate", expression=expression, returnByValue=True)
        assert "exceptionDetails" not in found, found
        return found["result"].get("value")

    def names_of(self, role: str) -> list[str]:
        """The names of all elements of a role for a screen reader."""
        nodes = [node for node in self.ask("Accessibility.getFullAXTree")["nodes"] if not node["ignored"]]
        return [str(node.get("name", {}).get("value", "")) for node in nodes if node.get("role", {}).get("value") == role]

    def picture(self) -> bytes:
        return base64.b64decode(self.ask("Page.captureScreenshot")["data"])

    def paper(self) -> bytes:
        """The printed page of a user with dark colors on the screen."""
        self.ask("Emulation.setEmulatedMedia", media="print", features=[{"name": "prefers-color-scheme", "value": "dark"}])
        return base64.b64decode(self.ask("Page.printToPDF", preferCSSPageSize=True, printBackground=False)["data"])
