"""Drives a headless Chromium by the DevTools protocol over two pipes."""
import base64
import json
import os
import select
import shutil
import signal
import subprocess
import tempfile
import time
from pathlib import Path
from typing import Any, Callable, Optional

from tests import under_test

from .driven import BrowserError, Driven

SECONDS = 300.0
OPTIONS = (
    "--headless=new",
    "--no-sandbox",
    "--disable-gpu",
    "--no-first-run",
    "--disable-extensions",
    "--disable-background-networking",
    "--remote-debugging-pipe",
)
# The codes of keys that aren't characters.
KEYS = {
    "ArrowLeft": 37,
    "ArrowRight": 39,
    "PageUp": 33,
    "PageDown": 34,
    "Home": 36,
    "End": 35,
    "Enter": 13,
    "Escape": 27,
    "Tab": 9,
    "Alt": 18,
}
ALT, CONTROL, SHIFT = 1, 2, 8
# What is traced: the tasks of each thread, and the marks that the page makes.
TRACED = ["disabled-by-default-devtools.timeline", "blink.user_timing"]
# Two frames: the page has heard of another size, and is drawn in it.
SETTLED = "new Promise(done => requestAnimationFrame(() => requestAnimationFrame(() => done())))"
# What lets a page come late, up to so many milliseconds for each time that it is to be slower.
LATE, MILLISECONDS = Path(__file__).with_name("late.js"), 50


def found_browser() -> Optional[str]:
    names = ("chromium", "chromium-browser", "google-chrome")
    return next(filter(None, map(shutil.which, names)), None)


class Browser(Driven):
    """A browser with one page."""

    def __init__(self, program: str) -> None:
        self.folder = tempfile.mkdtemp()
        (own_in, self.output), (self.input, own_out) = os.pipe(), os.pipe()

        def give_pipes() -> None:
            os.dup2(own_in, 1003)
            os.dup2(own_out, 1004)
            os.dup2(1003, 3)
            os.dup2(1004, 4)

        self.process = subprocess.Popen(
            [program, *OPTIONS, f"--user-data-dir={self.folder}", "about:blank"],
            stdin=subprocess.DEVNULL,
            stdout=subprocess.DEVNULL,
            stderr=subprocess.DEVNULL,
            preexec_fn=give_pipes,
            close_fds=False,
            start_new_session=True,
        )
        os.close(own_in)
        os.close(own_out)
        self.read = b""
        self.number = 0
        self.session = ""
        self.messages: list[str] = []
        self.dialogs: list[str] = []
        self.loads = 0
        self.requests: list[str] = []
        self.traced: list[dict[str, Any]] = []
        self.is_traced = False
        self._attach()

    def _attach(self) -> None:
        targets = self.call("Target.getTargets")["targetInfos"]
        page = next(it["targetId"] for it in targets if it["type"] == "page")
        attached = self.call("Target.attachToTarget", targetId=page, flatten=True)
        self.session = attached["sessionId"]
        for name in ("Page", "Runtime", "Log", "Network", "DOM"):
            self.call(f"{name}.enable")
        self.call("Emulation.setFocusEmulationEnabled", enabled=True)
        if under_test.slower() > 1:
            self._slow_down(under_test.slower())

    def _slow_down(self, times: float) -> None:
        late = LATE.read_text().replace("MOST_MILLISECONDS", str(MILLISECONDS * times))
        self.call("Emulation.setCPUThrottlingRate", rate=times)
        self.call("Page.addScriptToEvaluateOnNewDocument", source=late)

    def close(self) -> None:
        os.killpg(self.process.pid, signal.SIGKILL)
        self.process.wait()
        os.close(self.output)
        os.close(self.input)
        shutil.rmtree(self.folder, ignore_errors=True)

    def call(self, method: str, **parameters: Any) -> dict[str, Any]:
        """Calls a method of the protocol; returns its result."""
        number = self._send(method, **parameters)
        end = time.monotonic() + SECONDS
        while True:
            found = self._message(end - time.monotonic())
            if found.get("id") == number:
                if "error" in found:
                    raise BrowserError(f"{method}: {found['error']['message']}")
                return dict(found["result"])
            self._note(found)

    def _send(self, method: str, **parameters: Any) -> int:
        """Sends a message, and returns its number."""
        self.number += 1
        message = {"id": self.number, "method": method, "params": parameters}
        if self.session:
            message["sessionId"] = self.session
        rest = json.dumps(message).encode() + b"\0"
        while rest:
            rest = rest[os.write(self.output, rest) :]
        return self.number

    def _message(self, seconds: float) -> dict[str, Any]:
        end = time.monotonic() + seconds
        while b"\0" not in self.read:
            left = end - time.monotonic()
            if left <= 0 or not select.select([self.input], [], [], left)[0]:
                raise BrowserError("the browser doesn't reply")
            part = os.read(self.input, 1 << 20)
            if not part:
                raise BrowserError("the browser has ended")
            self.read += part
        first, _, self.read = self.read.partition(b"\0")
        return dict(json.loads(first))

    def _note(self, message: dict[str, Any]) -> None:
        """Keeps what the console says of errors, what is asked of the network, how many pages were
        loaded, and which dialogs open; each gets a yes."""
        method, parameters = message.get("method"), message.get("params", {})
        if method == "Runtime.exceptionThrown":
            details = parameters["exceptionDetails"]
            said = details.get("exception", {}).get("description", "")
            self.messages.append(f"{details['text']} {said}")
        elif method == "Runtime.consoleAPICalled" and parameters["type"] in ("error", "warning"):
            self.messages.append(" ".join(str(it.get("value", it)) for it in parameters["args"]))
        elif method == "Log.entryAdded" and parameters["entry"]["level"] == "error":
            self.messages.append(parameters["entry"]["text"])
        elif method == "Page.javascriptDialogOpening":
            self.dialogs.append(parameters["type"])
            self._send("Page.handleJavaScriptDialog", accept=True)
        elif method == "Page.loadEventFired":
            self.loads += 1
        elif method == "Network.requestWillBeSent":
            self.requests.append(parameters["request"]["url"])
        elif method == "Tracing.dataCollected":
            self.traced += parameters["value"]
        elif method == "Tracing.tracingComplete":
            self.is_traced = True

    # The page

    def open(self, address: str) -> None:
        """Opens an address as in a new tab, and waits until the page is ready."""
        self.value("try { sessionStorage.clear(); } catch {}")
        self._load("Page.navigate", url="about:blank")
        self.messages, self.requests = [], []
        self._load("Page.navigate", url=address)
        self.wait("document.documentElement?.dataset.state === 'ready'")

    def reload(self) -> None:
        """Loads the page again once it has kept what was done, and waits until it is ready."""
        self.wait("document.documentElement.dataset.work === 'none'")
        self.dialogs = []
        self._load("Page.reload")
        self.wait("document.documentElement?.dataset.state === 'ready'")

    def forget(self) -> None:
        """Forgets what pages keep after their tab is closed."""
        self.call("Storage.clearDataForOrigin", origin="*", storageTypes="local_storage")

    def _load(self, method: str, **parameters: Any) -> None:
        """Calls a method that loads a page, and waits until it is loaded."""
        before, end = self.loads, time.monotonic() + SECONDS
        self.call(method, **parameters)
        while self.loads == before:
            self._note(self._message(end - time.monotonic()))

    def size(
        self, width: int, height: int, is_dark: bool = False, is_forced: bool = False
    ) -> None:
        self.call(
            "Emulation.setDeviceMetricsOverride",
            width=width,
            height=height,
            deviceScaleFactor=1,
            mobile=False,
        )
        scheme = {"name": "prefers-color-scheme", "value": "dark" if is_dark else "light"}
        forced = {"name": "forced-colors", "value": "active" if is_forced else "none"}
        self.call("Emulation.setEmulatedMedia", features=[scheme, forced])
        self.wait(f"innerWidth === {width} && innerHeight === {height}")
        self.value(SETTLED)

    def value(self, expression: str) -> Any:
        """The value of an expression of JavaScript; a promise is waited for."""
        found = self.call(
            "Runtime.evaluate", expression=expression, returnByValue=True, awaitPromise=True
        )
        if "exceptionDetails" in found:
            details = found["exceptionDetails"]
            said = details.get("exception", {}).get("description", details["text"])
            raise BrowserError(f"{expression}: {said}")
        return found["result"].get("value")

    def said(self) -> list[str]:
        return self.messages

    def longest_task(self, act: Callable[[], None]) -> float:
        """The most milliseconds of a processor that one task of the page takes while this is done.
        The time in which the processor has other work isn't among them."""
        self.traced, self.is_traced = [], False
        self.call("Tracing.start", traceConfig={"includedCategories": TRACED})
        try:
            self.value("performance.mark('traced')")
            act()
            # a task is told once it has ended
            self.value("new Promise(done => setTimeout(done, 0))")
        finally:
            self.call("Tracing.end")
            end = time.monotonic() + SECONDS
            while not self.is_traced:
                self._note(self._message(end - time.monotonic()))
        thread = next(it["tid"] for it in self.traced if it["name"] == "traced")
        tasks = [it for it in self.traced if it["name"] == "RunTask" and it["tid"] == thread]
        times = (it.get("tdur", it["dur"]) for it in tasks if it["ph"] == "X")
        return max(float(it) / 1000 for it in times)

    # Pointer and keys

    def mouse(self, kind: str, x: float, y: float, **more: Any) -> None:
        self.call("Input.dispatchMouseEvent", type=kind, x=x, y=y, **more)

    def click_at(self, x: float, y: float) -> None:
        self.mouse("mouseMoved", x, y)
        self.mouse("mousePressed", x, y, button="left", clickCount=1)
        self.mouse("mouseReleased", x, y, button="left", clickCount=1)

    def drag(self, selector: str, by: float, steps: int = 8, is_let_go: bool = True) -> None:
        """Drags an element sideways."""

        def hold(x: float, y: float) -> None:
            self.mouse("mouseReleased", x, y, button="left")
            self.mouse("mouseMoved", x, y)
            self.mouse("mousePressed", x, y, button="left", buttons=1, clickCount=1)

        x, y = self.press(selector, hold)
        self.drag_on(selector, by, steps)
        if is_let_go:
            self.mouse("mouseReleased", x + by, y, button="left", clickCount=1)

    def drag_on(self, selector: str, by: float, steps: int = 8) -> None:
        """Drags an element further that wasn't let go."""
        x, y = self.middle(selector)
        for step in range(1, steps + 1):
            self.mouse("mouseMoved", x + by * step / steps, y, button="left", buttons=1)

    def touch(self, kind: str, *points: tuple[float, float]) -> None:
        """Touches the page at these points: touchStart, touchMove or touchEnd."""
        touched = [{"x": x, "y": y, "id": number} for number, (x, y) in enumerate(points)]
        self.call("Input.dispatchTouchEvent", type=kind, touchPoints=touched)

    def key(
        self, name: str, modifiers: int = 0, is_down: bool = True, is_up: bool = True
    ) -> None:
        """Strikes a key, by its name or its character; or only presses it, or lets it go."""
        code = KEYS.get(name, ord(name[0].upper()))
        words = {"key": name, "windowsVirtualKeyCode": code, "modifiers": modifiers}
        text = name if len(name) == 1 else "\r" if name == "Enter" else ""
        text = "" if modifiers & CONTROL else text
        kind = "keyDown" if text else "rawKeyDown"
        if is_down:
            self.call("Input.dispatchKeyEvent", type=kind, text=text, **words)
        if is_up:
            self.call("Input.dispatchKeyEvent", type="keyUp", **words)

    def type(self, text: str) -> None:
        for character in text:
            self.key(character)

    def give_files(self, selector: str, paths: list[str]) -> None:
        """Chooses files for an input."""
        root = self.call("DOM.getDocument")["root"]["nodeId"]
        node = self.call("DOM.querySelector", nodeId=root, selector=selector)["nodeId"]
        self.call("DOM.setFileInputFiles", files=paths, nodeId=node)

    def screenshot(self, is_whole: bool = False) -> bytes:
        found = self.call("Page.captureScreenshot", format="png", captureBeyondViewport=is_whole)
        return base64.b64decode(found["data"])
