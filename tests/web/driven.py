"""What tests do with a page, whichever browser it is open in."""
import json
import time
from abc import ABC, abstractmethod
from typing import Any, Callable

WAIT = 300.0
# The middle of an element, after it was scrolled into sight, or why it can't be pressed there now.
PRESSED = """(async (name, take) => {
  const frame = () => new Promise(requestAnimationFrame);
  await frame();
  const it = document.querySelector(name);
  if (!it) return "it isn't there";
  it.scrollIntoView({block: "nearest"});
  const before = it.getBoundingClientRect();
  await frame();
  const {x, y, width, height} = it.getBoundingClientRect();
  const isSeen = getComputedStyle(it).visibility === "visible";
  if (!width || !height || !isSeen) return "it isn't shown";
  const isStill = x === before.x && y === before.y;
  if (!isStill || width !== before.width || height !== before.height) return "it moves";
  if (it.disabled || it.ariaDisabled === "true") return "it is disabled";
  const middle = [x + width / 2, y + height / 2], found = document.elementFromPoint(...middle);
  if (!found) return "its middle is out of sight";
  if (!it.contains(found)) return `this lies over it: ${found.outerHTML.slice(0, 200)}`;
  take?.(it);
  return middle;
})"""
# The tab that is to be opened before an element can be seen, or an empty text.
TAB_OF = """(name => document.querySelector(name)?.closest("[role=tabpanel][hidden]")
  ?.getAttribute("aria-labelledby") ?? "")"""
# Takes an element as what the next press is for. The page may still move it before that: then the
# press reaches nothing, and `hasMissed` says so once it was made.
AIM = """(element => {
  let isJudged = true, isMissed = false;
  const ended = new AbortController(), heard = {capture: true, signal: ended.signal};
  const hear = event => {
    if (!event.isTrusted) return;
    const judges = event.type === "pointerdown" || event.type === "click";
    if (judges && isJudged) isMissed = !element.contains(event.target);
    if (event.type === "click") isJudged = false;
    if (!isMissed) return;
    isJudged = false;
    event.preventDefault();
    event.stopImmediatePropagation();
  };
  for (const kind of ["pointerdown", "mousedown", "pointerup", "mouseup", "click"]) {
    addEventListener(kind, hear, heard);
  }
  // then a click goes to what has the pointer
  addEventListener("gotpointercapture", () => { isJudged = false; }, heard);
  window.hasMissed = () => {
    ended.abort();
    return isMissed;
  };
})"""

# What the page says of itself, for who reads that a test failed.
SAYS = """(() => {
  const { state, work } = document.documentElement.dataset, focus = document.activeElement;
  const short = text => text?.replace(/\\s+/g, " ").trim().slice(0, 300);
  const text = name => short(document.querySelector(name)?.textContent);
  return {
    address: location.href.slice(-100), state, work, bar: text("#work:not([hidden])"),
    session: text("#session-name"), turn: text("#registers-turn"), reply: text("#reply"),
    edits: document.querySelectorAll("#edits > li").length,
    focus: short(focus?.cloneNode().outerHTML),
  };
})()"""


class BrowserError(Exception):
    """The browser doesn't do what it is told."""


class Driven(ABC):
    """A browser with one page."""

    @abstractmethod
    def value(self, expression: str) -> Any:
        """The value of an expression of JavaScript; a promise is waited for."""

    @abstractmethod
    def said(self) -> list[str]:
        """What the console says of errors since the page was opened."""

    @abstractmethod
    def click_at(self, x: float, y: float) -> None: ...

    @abstractmethod
    def key(self, name: str) -> None:
        """Strikes a key, by its name or its character."""

    @abstractmethod
    def type(self, text: str) -> None: ...

    @abstractmethod
    def give_files(self, selector: str, paths: list[str]) -> None:
        """Chooses files for an input."""

    def wait(self, expression: str, seconds: float = WAIT) -> Any:
        """Waits until the expression holds."""
        end = time.monotonic() + seconds
        while True:
            found = self.value(expression)
            if found:
                return found
            if time.monotonic() > end:
                raise BrowserError(f"this doesn't come: {expression}")
            time.sleep(0.03)

    def says(self) -> str:
        """What the page and its console say."""
        try:
            page = json.dumps(self.value(SAYS), ensure_ascii=False)
            return f"{page}; its console: {'; '.join(self.said()[-5:]) or 'nothing'}"
        except BrowserError as error:
            return f"nothing: {error}"

    def text(self, selector: str) -> str:
        return str(self.value(f"document.querySelector({json.dumps(selector)}).textContent"))

    def look_at(self, selector: str) -> None:
        """Opens the tab in which an element is, as who looks at the element does."""
        tab = self.value(f"{TAB_OF}({json.dumps(selector)})")
        if tab:
            self.click(f"#{tab}")

    def middle(self, selector: str, seconds: float = WAIT, then: str = "null") -> list[float]:
        """The middle of an element, once a user could press it there: it is shown and stands still,
        and nothing lies over it. `then` is a function of the page that takes the element."""
        end = time.monotonic() + seconds
        while True:
            self.look_at(selector)  # each time: it may come only now, in another tab
            found = self.value(f"{PRESSED}({json.dumps(selector)}, {then})")
            if not isinstance(found, str):
                return list(found)
            if time.monotonic() > end:
                raise BrowserError(f"{selector} can't be pressed: {found}")

    def click(self, selector: str) -> None:
        self.press(selector, self.click_at)

    def press(self, selector: str, act: Callable[[float, float], None]) -> list[float]:
        """Does an act that presses the middle of an element, and again if the page moved the
        element away just before it. Returns the middle."""
        end = time.monotonic() + WAIT
        while True:
            x, y = self.middle(selector, then=AIM)
            act(x, y)
            # (if it has opened another page, that has no such function)
            if not self.value("window.hasMissed?.() ?? false"):
                return [x, y]
            if time.monotonic() > end:
                raise BrowserError(f"{selector} moves away each time")
