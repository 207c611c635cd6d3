"""Random clicks, keys, drags and lines in five sessions: nothing is wrong in the console, and at
the end the page's replies are those of the program to the session that it saves."""
import json
import shutil
from random import Random
from typing import Callable

from nezdrab.core.options import options_of_session, words_of_options

from tests import under_test

from .browser import ALT, CONTROL, SHIFT
from .page_case import ROOT, PageCase, packed_page, replies_of

# The page's sessions, with the images that they name.
SESSIONS = {
    "ledger": "", "note": "forth/forth.disk", "keys": "moved-keys.disk", "reader": "",
    "boot": "boot-rk0.disk",
}
# What can be pressed, except what opens a file or another session, or saves one; and marks.
PRESSED = "button, summary, input, select, canvas, .link, #text, #terminal"
LEFT = "#own, #open, #boot, #save, #save-page, #examples-menu, #drives, a"
MARKS = "button.mark"
PLACE = """((name, number) => {
  const all = [...document.querySelectorAll(name)]
    .filter(it => it.checkVisibility() && !it.closest(LEFT));
  const it = all[Math.floor(number * all.length)];
  it?.scrollIntoView({block: "nearest"});
  const {x, y, width, height} = it?.getBoundingClientRect() ?? {};
  const at = [x + width / 2, y + height / 2], seen = it && document.elementFromPoint(...at);
  if (!seen || seen.closest(LEFT)) return null;
  return [...at, it.id || it.ariaLabel || it.textContent.trim().slice(0, 30)];
})""".replace("LEFT", json.dumps(LEFT))
KEYS = ("Enter", "Tab", "ArrowLeft", "ArrowRight", "PageUp", "Home", "End", "Escape", *"nNp+-m 6")
# A is the number of an event, T a turn, W the address of a word.
LINES = (
    *("alter A T key 66", "alter A T switches 5", "drop A", "at T key 101", "at T tick"),
    *("core W 5", "disk W 7", "disk 0 W 7", "version 2", "delay disk 300", "tape 101 102"),
    *("regs T", "text T", "events", "mem T W 4", "dsk T 0 4", "last T W", "nothing"),
)
# What goes on by itself and what is asked are ended; then the cursor's turn is asked for again.
END = """(() => {
  const play = document.querySelector("#play");
  document.activeElement.blur();
  document.querySelector("#sweep-stop").click();
  if (play.ariaPressed === "true") play.click();
  for (const it of document.querySelectorAll(".menu[open]")) it.open = false;
  document.querySelector("#stop").click();
  document.querySelector("#turn").value = document.querySelector("#turns").ariaValueNow;
  document.querySelector("#turn-form").requestSubmit();
})()"""
REGISTERS = "[...document.querySelectorAll('#registers dd')].map(it => it.textContent.slice(0, 6))"


class Clicks(PageCase):
    """What a user may do, in any order, without waiting for what follows."""

    def setUp(self) -> None:
        super().setUp()
        self.done: list[str] = []
        if packed_page().startswith("http"):
            self.skipTest("the page isn't packed")

    def page_says(self) -> str:
        return f"{super().page_says()}; what was done last: {'; '.join(self.done[-40:])}"

    def place(self, random: Random, name: str) -> tuple[float, float, str]:
        """The middle of one of these elements, and what it is called."""
        found = self.browser.value(f"{PLACE}({json.dumps(name)}, {random.random()})")
        x, y, called = found or (2, 2, "nothing")
        return x, y, str(called)

    def click(self, random: Random) -> str:
        x, y, name = self.place(random, PRESSED)
        self.browser.click_at(x, y)
        return f"click {name}"

    def key(self, random: Random) -> str:
        key, modifiers = random.choice(KEYS), random.choice((0, 0, 0, ALT, SHIFT))
        if random.random() < 0.2:
            key, modifiers = random.choice("zy"), CONTROL
        self.browser.key(key, modifiers)
        return f"key {key} {modifiers}"

    def line(self, random: Random) -> str:
        turn = random.choice((random.randrange(1_000), random.randrange(240_000)))
        line = random.choice(LINES).replace("T", str(turn))
        line = line.replace("A", str(random.randrange(1, 40)))
        line = line.replace("W", f"{2 * random.randrange(0o2000):o}")
        self.browser.value(
            f"document.querySelector('#line').value = {json.dumps(line)};"
            "document.querySelector('#edit-form').requestSubmit()"
        )
        return line

    def drag(self, random: Random) -> str:
        (x, y, name), by = self.place(random, MARKS), random.randrange(-300, 300)
        self.browser.mouse("mousePressed", x, y, button="left", buttons=1, clickCount=1)
        for step in (1, 2, 3):
            self.browser.mouse("mouseMoved", x + by * step / 3, y, button="left", buttons=1)
        self.browser.mouse("mouseReleased", x + by, y, button="left", clickCount=1)
        return f"drag {name} by {by}"

    def wheel(self, random: Random) -> str:
        x, y, name = self.place(random, "canvas")
        by = random.randrange(-200, 200)
        self.browser.mouse("mouseWheel", x, y, deltaX=0, deltaY=by)
        return f"wheel {name} by {by}"

    def tab(self, random: Random) -> str:
        x, y, name = self.place(random, "[role=tab]")
        self.browser.click_at(x, y)
        return name

    def rest(self, random: Random) -> str:
        self.browser.value(f"new Promise(done => setTimeout(done, {random.randrange(300)}))")
        return "rest"

    def do(self, session: str) -> None:
        count = under_test.clicks() // len(SESSIONS)
        random = Random(f"{session} {count}")
        acts: list[Callable[[Random], str]] = [self.click, self.key, self.line, self.drag]
        acts += [self.wheel, self.tab, self.rest]
        if session != "ledger":
            self.open_example(session)
        for act in random.choices(acts, (40, 20, 20, 8, 4, 5, 3), k=count):
            self.done.append(act(random))
        self.is_as_saved(SESSIONS[session])

    def is_as_saved(self, image: str) -> None:
        self.browser.value(END)
        self.wait_still()
        folder = self.folder()
        if image:
            shutil.copy(ROOT / "examples" / image, folder)
        path = self.saved_in(folder, "#save")
        lines = path.read_text().splitlines()
        drive = "0 " if "version 2" in lines else ""
        asked = ["regs 120000", "text 120000", "mem 120000 0 64", "mem 120000 30000 64"]
        asked += ["devices 120000", f"dsk 120000 {drive}0 64", f"regs {self.turn()}"]
        words = words_of_options(options_of_session(path))
        replies = replies_of([*lines, *asked], *words)[-len(asked) :]
        self.assertEqual(self.browser.value(REGISTERS), replies[-1].split()[1:20:2])
        for line, reply in zip(asked, replies):
            self.assertEqual(self.type_line(line), f"{line}: {reply}")


def test(session: str) -> Callable[[Clicks], None]:
    return lambda self: self.do(session)


for _name in SESSIONS:
    setattr(Clicks, f"test_{_name}", test(_name))
