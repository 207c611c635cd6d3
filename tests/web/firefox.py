"""Drives a headless Firefox by the Marionette protocol: messages of JSON, each after its length."""
import contextlib
import json
import os
import re
import shutil
import signal
import socket
import subprocess
import tempfile
import time
from pathlib import Path
from typing import Any, Optional

from .driven import BrowserError, Driven

SECONDS = 300.0
OPTIONS = ("--headless", "--marionette", "--no-remote", "--remote-allow-system-access")
# The consoles of pages are written to the standard output. Firefox asks for settings of its own
# outside: a proxy that nobody serves keeps that from the network.
SETTINGS = """\
user_pref("devtools.console.stdout.content", true);
user_pref("network.proxy.type", 1);
user_pref("network.proxy.socks", "127.0.0.1");
user_pref("network.proxy.socks_port", 1);
user_pref("network.proxy.socks_remote_dns", true);
"""
# An error or a warning in a page's console. After one of Firefox's own stands the name of its part.
CONSOLED = re.compile(r"^console\.(?:error|warn): (?!.*: $).*", re.M)
# How the protocol writes the keys that aren't characters.
KEYS = {
    "Tab": "\ue004",
    "Enter": "\ue007",
    "Shift": "\ue008",
    "Alt": "\ue00a",
    "Escape": "\ue00c",
    "End": "\ue010",
    "Home": "\ue011",
    "ArrowLeft": "\ue012",
    "ArrowRight": "\ue014",
}
# What Firefox itself runs. It notes what pages ask of the network, from then on.
NOTE = """
window.asked = [];
window.noted = {
  observe(subject) {
    const {URI, loadInfo} = subject.QueryInterface(Ci.nsIHttpChannel);
    if (!loadInfo.triggeringPrincipal.isSystemPrincipal) window.asked.push(URI.spec);
  },
};
Services.obs.addObserver(window.noted, "http-on-opening-request");
"""
FORGET = "Services.console.reset(); window.asked.length = 0"
ERRORS = """
const isError = it => it instanceof Ci.nsIScriptError
  && !it.isFromChromeContext && !(it.flags & Ci.nsIScriptError.warningFlag);
return Services.console.getMessageArray().filter(isError).map(it => it.errorMessage);
"""
SIZE = """
const {style} = gBrowser.selectedBrowser, sides = ["width", "height"];
for (const [at, side] of sides.entries()) {
  for (const most of ["min", "max"]) style.setProperty(`${most}-${side}`, `${arguments[at]}px`);
}
"""


def found_firefox() -> Optional[str]:
    return next(filter(None, map(shutil.which, ("firefox-esr", "firefox"))), None)


def free_port() -> int:
    with socket.socket() as it:
        it.bind(("127.0.0.1", 0))
        return int(it.getsockname()[1])


class Firefox(Driven):
    """A browser with one page."""

    def __init__(self, program: str) -> None:
        self.folder = tempfile.TemporaryDirectory()
        port, folder = free_port(), Path(self.folder.name)
        (folder / "user.js").write_text(f'{SETTINGS}user_pref("marionette.port", {port});\n')
        self.output = folder / "output"
        self.begin = 0
        with self.output.open("wb") as output:
            self.process = subprocess.Popen(
                [program, *OPTIONS, "--profile", self.folder.name],
                stdin=subprocess.DEVNULL,
                stdout=output,
                stderr=subprocess.DEVNULL,
                env={**os.environ, "MOZ_HEADLESS_WIDTH": "1600", "MOZ_HEADLESS_HEIGHT": "1300"},
                start_new_session=True,
            )
        self.number = 0
        self.connection = self._connect(port)
        self.stream = self.connection.makefile("rb")
        self._message()  # its greeting
        self.call("WebDriver:NewSession", capabilities={})
        self.call("WebDriver:SetTimeouts", script=int(SECONDS * 1000))
        self.call("WebDriver:SetWindowRect", width=1500, height=1250)
        self._run(NOTE)

    def _connect(self, port: int) -> socket.socket:
        end = time.monotonic() + SECONDS
        while True:
            try:
                return socket.create_connection(("127.0.0.1", port), SECONDS)
            except OSError:
                if time.monotonic() > end or self.process.poll() is not None:
                    self._end()
                    raise
                time.sleep(0.1)

    def _end(self) -> None:
        with contextlib.suppress(ProcessLookupError):
            os.killpg(self.process.pid, signal.SIGKILL)
        self.process.wait()

    def close(self) -> None:
        self._end()
        self.stream.close()
        self.connection.close()
        self.folder.cleanup()

    def _message(self) -> Any:
        length = b""
        while not length.endswith(b":"):
            part = self.stream.read(1)
            if not part:
                raise BrowserError("the browser has ended")
            length += part
        return json.loads(self.stream.read(int(length[:-1])))

    def call(self, name: str, **parameters: Any) -> dict[str, Any]:
        """Calls a command; returns its result."""
        self.number += 1
        text = json.dumps([0, self.number, name, parameters]).encode()
        self.connection.sendall(b"%d:%s" % (len(text), text))
        _, _, error, result = self._message()
        if error:
            raise BrowserError(f"{name}: {error['message']}")
        return dict(result)

    def _run(self, script: str, *words: Any) -> Any:
        """What a script returns that Firefox itself runs, beside its pages."""
        self.call("Marionette:SetContext", value="chrome")
        try:
            return self.call("WebDriver:ExecuteScript", script=script, args=list(words))["value"]
        finally:
            self.call("Marionette:SetContext", value="content")

    # The page

    def open(self, address: str) -> None:
        """Opens an address as in a new tab, and waits until the page is ready."""
        self.call("WebDriver:ReleaseActions")
        self.value("(() => { try { sessionStorage.clear(); } catch {} })()")
        self.call("WebDriver:Navigate", url="about:blank")
        self._run(FORGET)
        self.begin = self.output.stat().st_size
        self.call("WebDriver:Navigate", url=address)
        self.wait("document.documentElement?.dataset.state === 'ready'")

    def value(self, expression: str) -> Any:
        script = f"const [give] = arguments; (async () => ({expression}))()"
        script += ".then(it => give([it, null]), error => give([null, `${error}`]));"
        # (no sandbox: the script sees what the page has)
        found = self.call("WebDriver:ExecuteAsyncScript", script=script, args=[], sandbox=None)
        value, error = found["value"]
        if error is not None:
            raise BrowserError(f"{expression}: {error}")
        return value

    def said(self) -> list[str]:
        written = self.output.read_bytes()[self.begin :].decode(errors="replace")
        return [*self._run(ERRORS), *CONSOLED.findall(written)]

    def requests(self) -> list[str]:
        """What the page asked of the network since it was opened."""
        return list(self._run("return window.asked"))

    def size(self, width: int, height: int) -> None:
        self._run(SIZE, width, height)
        self.wait(f"innerWidth === {width} && innerHeight === {height}")

    def give_files(self, selector: str, paths: list[str]) -> None:
        found = self.call("WebDriver:FindElement", using="css selector", value=selector)
        (name,) = found["value"].values()
        self.call("WebDriver:ElementSendKeys", id=name, text="\n".join(paths))

    # Pointer and keys

    def _act(self, kind: str, name: str, actions: list[dict[str, Any]], **parameters: str) -> None:
        """What one device does: a pointer or a keyboard, by its name."""
        device = {"type": kind, "id": name, "actions": actions, "parameters": parameters}
        self.call("WebDriver:PerformActions", actions=[device])

    def pointer(self, kind: str, *actions: dict[str, Any]) -> None:
        """What a mouse does, or a finger, which is of the kind touch."""
        self._act("pointer", kind, list(actions), pointerType=kind)

    def click_at(self, x: float, y: float) -> None:
        self.pointer("mouse", moved(x, y), {"type": "pointerDown", "button": 0}, LET_GO)

    def drag(self, selector: str, by: float, kind: str = "mouse", steps: int = 8) -> None:
        """Drags an element sideways, and doesn't let it go."""
        x, y = self.middle(selector)
        way = [moved(x + by * it / steps, y, 16) for it in range(1, steps + 1)]
        self.pointer(kind, moved(x, y), {"type": "pointerDown", "button": 0}, *way)

    def let_go(self, kind: str = "mouse") -> None:
        self.pointer(kind, LET_GO)

    def key(self, name: str, *held: str, times: int = 1) -> None:
        """Strikes a key, by its name or its character, while others are held."""
        struck = [KEYS.get(name, name)] * times
        before = [KEYS.get(it, it) for it in held]
        actions = [pressed("keyDown", it) for it in before]
        actions += [pressed(kind, it) for it in struck for kind in ("keyDown", "keyUp")]
        actions += [pressed("keyUp", it) for it in reversed(before)]
        self._act("key", "keyboard", actions)

    def type(self, text: str) -> None:
        actions = [pressed(kind, it) for it in text for kind in ("keyDown", "keyUp")]
        self._act("key", "keyboard", actions)


LET_GO = {"type": "pointerUp", "button": 0}


def pressed(kind: str, value: str) -> dict[str, Any]:
    """A key that goes down or up."""
    return {"type": kind, "value": value}


def moved(x: float, y: float, milliseconds: int = 0) -> dict[str, Any]:
    """A move of a pointer, which takes this long."""
    place = {"x": round(x), "y": round(y), "origin": "viewport"}
    return {"type": "pointerMove", "duration": milliseconds, **place}
