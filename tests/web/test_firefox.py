"""The page in Firefox: each of its main parts once, by a real pointer and real keys."""
import atexit
import re
import tempfile
import time
import unittest
from pathlib import Path
from typing import Any, Optional

from .driven import WAIT
from .firefox import Firefox, found_firefox, free_port
from .page_case import KEY, LOST, ROOT, SAFE, OnPage, ledger_lines, packed_page, replies_of

PAST = ledger_lines()[:-2]
END, KEY_TURN = 238_614, 126_967
TURNS = (0, 5_000, KEY_TURN, 127_163, 200_000)
# The words that the page shows from its panel's first address on.
FIRST, WORDS = 0o30000, 16
MOST_TABS = 80
# The console's text without what the edits took away, which is shown beside what came.
NEW_TEXT = """[...document.querySelector('#text').childNodes]
  .filter(it => it.nodeName !== 'DEL').map(it => it.textContent).join('')"""
# A page that complains in each way that is to be noted, and asks for what is outside.
COMPLAINS = """<!DOCTYPE html><html data-state="ready"><script>
console.error("one", new Error("two"));
console.log("nothing");
console.warn("three");
setTimeout(() => { throw new Error("four"); });
Promise.reject(new Error("five"));
const text = "console.error('six'); throw new Error('seven')";
const worker = new Worker(URL.createObjectURL(new Blob([text])));
fetch("http://127.0.0.1:PORT/eight").catch(() => null);
</script>"""
COMPLAINTS = ("one", "two", "three", "four", "five", "six", "seven", "eight")


class Shared:
    browser: Optional[Firefox] = None


def the_firefox() -> Firefox:
    if Shared.browser is None:
        program = found_firefox()
        if program is None:
            raise unittest.SkipTest("firefox isn't installed")
        Shared.browser = Firefox(program)
        atexit.register(Shared.browser.close)
    return Shared.browser


def replies(*lines: str) -> list[str]:
    return replies_of([*PAST, *lines])[-len(lines) :]


class FirefoxCase(OnPage):
    """A test that has Firefox, and a folder."""

    maxDiff = 4000
    browser: Firefox

    @classmethod
    def setUpClass(cls) -> None:
        cls.browser = the_firefox()

    def folder(self) -> Path:
        made = tempfile.TemporaryDirectory()
        self.addCleanup(made.cleanup)
        return Path(made.name)


class Noting(FirefoxCase):
    """What the other tests rest on: no error and no request goes by unseen."""

    def test_errors_and_requests_are_noted(self) -> None:
        path = self.folder() / "complains.html"
        asked = f"http://127.0.0.1:{free_port()}/eight"
        path.write_text(re.sub("http.*eight", asked, COMPLAINS))
        self.browser.open(path.as_uri())
        for part in COMPLAINTS:
            with self.subTest(part):
                self.wait_said(part)
        self.assertNotIn("nothing", "".join(self.browser.said()))
        self.assertEqual(self.browser.requests(), [asked])
        self.browser.open("data:text/html,<html data-state='ready'>")
        self.assertEqual((self.browser.said(), self.browser.requests()), ([], []))

    def wait_said(self, part: str) -> None:
        end = time.monotonic() + WAIT
        while part not in "".join(self.browser.said()) and time.monotonic() < end:
            time.sleep(0.03)
        self.assertIn(part, "".join(self.browser.said()))


class InFirefox(FirefoxCase):
    """A test with the page open from a file at its first session. It ends without an error in the
    console, and the page has asked for nothing."""

    width, height = 1280, 1000
    address: str

    @classmethod
    def setUpClass(cls) -> None:
        cls.address = packed_page()
        if not cls.address.startswith("file:"):
            raise unittest.SkipTest("the page isn't packed")
        super().setUpClass()

    def setUp(self) -> None:
        self.browser.size(self.width, self.height)
        self.browser.open(f"{self.address}#turn={KEY_TURN}&from=126300&turns=2600&core={FIRST:o}")
        self.balance(LOST)
        self.wait_still()

    def tearDown(self) -> None:
        self.assertEqual(self.browser.said(), [])
        self.assertEqual(self.browser.requests(), [])

    def wait_edits(self, count: int) -> None:
        self.browser.wait(f"document.querySelectorAll('#edits li').length === {count}")

    def wait_turn(self, turn: int) -> None:
        """Waits until the panels show the machine before a turn."""
        self.wait_text("#registers-turn", f"before turn {turn}")
        self.wait_still()
        self.assertEqual(self.turn(), turn)

    def go(self, turn: int) -> None:
        self.fill("#turn", str(turn))
        self.browser.key("Enter")
        self.wait_turn(turn)

    def go_to_button(self, name: str) -> None:
        """Strikes Tab until the focus is at a button."""
        has_focus, times = f"document.activeElement.id === '{name}'", 0
        while not self.browser.value(has_focus) and times < MOST_TABS:
            self.browser.key("Tab")
            times += 1
        self.assertTrue(self.browser.value(has_focus), f"{MOST_TABS} Tabs don't lead to {name}")


class DragCase(InFirefox):
    def check_drag(self, by: float, kind: str) -> None:
        """The key is dragged past the tick: what comes of it is told at once, and after it was let
        go the page shows what the program prints with that edit."""
        self.browser.drag(KEY, by, kind)
        self.wait_text(".carried", f"{SAFE}, nothing is lost")
        self.balance(SAFE)
        self.assertEqual(self.edits(), [])
        self.browser.let_go(kind)
        self.wait_edits(1)
        self.balance(SAFE)
        (line,) = self.edits()
        self.assertRegex(line, r"^alter 15 127\d\d\d key 66$")
        (text,) = replies(line, f"text {END}")[-1:]
        self.assertIn("=000145", text)
        self.wait_text("#text", "=000145")
        printed = text.partition(":")[2].replace("\\015\\012", "\n")
        self.assertEqual(self.browser.value(NEW_TEXT), printed)


class Moving(DragCase):
    def test_the_key_is_dragged_past_the_tick(self) -> None:
        self.check_drag(110, "mouse")

    def test_a_move_and_its_undo_by_keys(self) -> None:
        self.browser.value(f"document.querySelector('{KEY}').focus()")
        self.browser.key("ArrowRight", "Alt", "Shift", times=4)
        self.wait_edits(1)
        self.balance(SAFE)
        self.assertEqual(self.edits(), [f"alter 15 {KEY_TURN + 256} key 66"])
        self.go_to_button("undo")
        self.browser.key("Enter")
        self.wait_edits(0)
        self.balance(LOST)
        self.go_to_button("redo")
        self.browser.key(" ")
        self.wait_edits(1)
        self.balance(SAFE)


class ByAFinger(DragCase):
    """The same on a narrow screen, by touch."""

    width, height = 400, 800

    def test_the_key_is_dragged_past_the_tick(self) -> None:
        self.check_drag(32, "touch")
        inside = "document.documentElement.scrollWidth <= innerWidth"
        self.assertTrue(self.browser.value(inside), "the page is wider than the screen")


class Looking(InFirefox):
    def test_keys_of_the_timeline(self) -> None:
        self.browser.value("document.querySelector('#turns').focus()")
        for key, held, turn in (
            ("ArrowRight", (), KEY_TURN + 1),
            ("ArrowLeft", (), KEY_TURN),
            ("ArrowRight", ("Shift",), KEY_TURN + 64),
            ("Home", (), 0),
            ("ArrowRight", (), 1),
        ):
            with self.subTest(key, turn=turn):
                self.browser.key(key, *held)
                self.wait_turn(turn)
        self.browser.key("End")
        self.browser.wait(f"document.querySelector('#turns').ariaValueNow >= {END}")
        self.wait_turn(self.turn())

    def test_the_machine_at_five_turns(self) -> None:
        """Registers and words as the panels show them, and text as it is asked for."""
        lines = ("regs {}", f"mem {{}} {FIRST:o} {WORDS}", "text {}")
        found = replies(*(line.format(turn) for turn in TURNS for line in lines))
        for turn, registers, words, text in zip(TURNS, found[::3], found[1::3], found[2::3]):
            with self.subTest(turn):
                self.go(turn)
                shown = re.sub(r"[\s*]", "", self.browser.text("#registers dl"))
                self.assertEqual(shown, "".join(registers.split()[:-1]))
                self.assertEqual(self.memory(turn), words.split()[1:])
                self.assertEqual(self.type_line(f"text {turn}"), f"text {turn}: {text}")

    def memory(self, turn: int) -> list[str]:
        """The words that the panel of core shows before a turn, each beside its address."""
        self.browser.look_at("#memory")
        self.browser.wait(
            f"document.querySelector('#memory-turn').textContent === 'before turn {turn}'"
        )
        found: list[list[Any]] = self.browser.value(
            "[...document.querySelectorAll('#memory tbody tr')].map(it =>"
            "[...it.cells].slice(0, 2).map(cell => cell.textContent))"
        )
        places = [f"{FIRST + 2 * it:06o}" for it in range(WORDS)]
        self.assertEqual([it[0] for it in found], places)
        return [str(it[1]) for it in found]

    def test_find_an_instruction(self) -> None:
        (first,) = replies(f"first {KEY_TURN + 1} {END} at 1346")
        turn = int(first.split()[1])
        self.fill("#find-what", "1346")
        self.browser.key("Enter")
        self.wait_text("#find-said", f"Turn {turn}.")
        self.wait_turn(turn)

    def test_why_of_a_word(self) -> None:
        word, last = replies(f"mem {KEY_TURN} {FIRST:o} 1", f"last {KEY_TURN} {FIRST:o}")
        turn = last.split()[1]
        self.fill("#why-word", f"{FIRST:o}")
        self.browser.key("Enter")
        value = f"core {FIRST:06o} before turn {KEY_TURN}: {word.split()[1]}"
        self.wait_text("#reasons li:nth-child(1)", value)
        self.wait_text("#reasons li:nth-child(2)", f"core {FIRST:06o} <- turn {turn}: ")
        self.browser.click("#reasons li:nth-child(2) .link")
        self.wait_turn(int(turn))

    def test_a_file_is_chosen(self) -> None:
        path = ROOT / "examples" / "first-run.session"
        self.browser.value(
            "document.querySelector('#files').addEventListener('click', event => {"
            "event.preventDefault(); window.isAsked = true; }, {once: true})"
        )
        self.browser.click("#open")
        self.browser.wait("window.isAsked")
        self.give(path)
        self.wait_text("#session-name", path.name)
        self.wait_still()
        asked = [*path.read_text().splitlines(), "regs 40"]
        self.assertEqual(self.type_line("regs 40"), f"regs 40: {replies_of(asked)[-1]}")
