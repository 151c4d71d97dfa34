"""A headless Chromium, spoken to over a pair of pipes (its DevTools protocol)."""
import base64
import fcntl
import json
import os
import subprocess
import tempfile
import time
from pathlib import Path
from typing import Any

KEYS = {
    "/": ("Slash", 191), "Enter": ("Enter", 13), "ArrowDown": ("ArrowDown", 40),
    "ArrowUp": ("ArrowUp", 38), "Escape": ("Escape", 27), "Tab": ("Tab", 9),
}
TEXTS = {"/": "/", "Enter": "\r"}


class BrowserError(Exception):
    """What the browser refused, or didn't do in time."""


class Browser:
    """One page of a browser."""

    def __init__(self, program: str) -> None:
        self.home = tempfile.TemporaryDirectory(prefix="reference-browser-")
        to_browser, self.write_end = os.pipe()
        self.read_end, from_browser = os.pipe()
        reads = fcntl.fcntl(to_browser, fcntl.F_DUPFD, 20)
        writes = fcntl.fcntl(from_browser, fcntl.F_DUPFD, 20)

        def take_ends() -> None:
            os.dup2(reads, 3)
            os.dup2(writes, 4)

        flags = ["--headless", "--no-sandbox", "--disable-gpu", "--hide-scrollbars",
                 "--remote-debugging-pipe", f"--user-data-dir={self.home.name}", "about:blank"]
        self.process = subprocess.Popen(
            [program, *flags], preexec_fn=take_ends, pass_fds=(3, 4), stderr=subprocess.DEVNULL
        )
        for it in (to_browser, from_browser, reads, writes):
            os.close(it)
        self.rest, self.count, self.session = b"", 0, ""
        self.failures: list[str] = []
        self.attach()

    def attach(self) -> None:
        pages = self.ask("Target.getTargets")["targetInfos"]
        page = next(it["targetId"] for it in pages if it["type"] == "page")
        found = self.ask("Target.attachToTarget", targetId=page, flatten=True)
        self.session = found["sessionId"]
        for it in ("Page.enable", "Runtime.enable", "Log.enable"):
            self.ask(it)

    def close(self) -> None:
        try:
            self.ask("Browser.close")
        except BrowserError:
            self.process.terminate()
        self.process.wait(20)
        os.close(self.write_end)
        os.close(self.read_end)
        self.home.cleanup()

    # ---- messages
    def read(self) -> dict[str, Any]:
        while b"\0" not in self.rest:
            part = os.read(self.read_end, 1 << 16)
            if not part:
                raise BrowserError("the browser is gone")
            self.rest += part
        message, _, self.rest = self.rest.partition(b"\0")
        return json.loads(message)

    def ask(self, method: str, **params: Any) -> dict[str, Any]:
        self.count += 1
        message: dict[str, Any] = {"id": self.count, "method": method, "params": params}
        if self.session:
            message["sessionId"] = self.session
        os.write(self.write_end, json.dumps(message).encode() + b"\0")
        while True:
            answer = self.read()
            self.watch(answer)
            if answer.get("id") == message["id"]:
                if "error" in answer:
                    raise BrowserError(f"{method}: {answer['error']['message']}")
                return answer["result"]

    def watch(self, message: dict[str, Any]) -> None:
        """Keeps what a page says went wrong: exceptions, and files that aren't there."""
        params = message.get("params", {})
        if message.get("method") == "Runtime.exceptionThrown":
            self.failures.append(str(params["exceptionDetails"].get("text")))
        entry = params.get("entry", {})
        if message.get("method") == "Log.entryAdded" and entry.get("level") == "error":
            self.failures.append(f"{entry.get('text')} {entry.get('url', '')}")

    # ---- what a reader does
    def run(self, script: str) -> Any:
        """The value of an expression on the page."""
        given = self.ask("Runtime.evaluate", expression=script, returnByValue=True)
        if "exceptionDetails" in given:
            raise BrowserError(f"{script}: {given['exceptionDetails']['text']}")
        return given["result"].get("value")

    def try_run(self, script: str) -> Any:
        """The value of an expression; `None` if the page is left before it returns."""
        try:
            return self.run(script)
        except BrowserError as error:
            if "target navigated" not in str(error):
                raise
            return None

    def wait(self, script: str, seconds: float = 10) -> None:
        until = time.monotonic() + seconds
        while not self.try_run(script):
            if time.monotonic() > until:
                raise BrowserError(f"never: {script}")
            time.sleep(0.02)

    def open(self, address: str) -> None:
        self.run("window.left = true")
        found = self.ask("Page.navigate", url=address)
        if found.get("errorText"):
            raise BrowserError(f"{address}: {found['errorText']}")
        if "loaderId" not in found:  # another place of the same page
            self.run("window.left = false")
        self.loaded()

    def loaded(self) -> None:
        self.wait("!window.left && document.readyState === 'complete'")

    def press(self, key: str) -> None:
        code, number = KEYS[key]
        event = {"key": key, "code": code, "windowsVirtualKeyCode": number}
        text = {"text": TEXTS[key]} if key in TEXTS else {}
        self.ask("Input.dispatchKeyEvent", type="keyDown", **event, **text)
        self.ask("Input.dispatchKeyEvent", type="keyUp", **event)

    def type(self, text: str) -> None:
        self.ask("Input.insertText", text=text)

    def look(self, width: int, height: int, scheme: str, media: str = "") -> None:
        """Sets the size of the window, and whether the reader wants it light or dark."""
        self.ask("Emulation.setDeviceMetricsOverride", width=width, height=height,
                 deviceScaleFactor=1, mobile=width < 600)
        self.ask("Emulation.setEmulatedMedia", media=media,
                 features=[{"name": "prefers-color-scheme", "value": scheme}])

    def scripts(self, on: bool) -> None:
        self.ask("Emulation.setScriptExecutionDisabled", value=not on)

    def picture(self, path: Path) -> None:
        data = self.ask("Page.captureScreenshot", format="png")["data"]
        path.write_bytes(base64.b64decode(data))
