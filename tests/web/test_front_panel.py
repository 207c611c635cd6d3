"""The console of the 11/40 in the page: its lights beside the program's replies, its switches and
keys by pointer, keyboard and finger."""
import re
from typing import Any

from .page_case import PageCase, ledger_lines, replies_of

CURSOR = 126_967
LIT = (
    "[...document.querySelectorAll('#front-{row} .light[data-bit]')].filter(it =>"
    "it.classList.contains('on')).reduce((all, it) => all + 2 ** it.dataset.bit, 0)"
)
SMALL = (
    "[...document.querySelectorAll('#front button, #front summary')].map(it =>"
    "[it.outerHTML, it.getBoundingClientRect()]).filter(([_, box]) => box.width < 24"
    "|| box.height < 24).map(it => it[0])"
)
LAMPS = ("run", "kernel", "user")


class Panel(PageCase):
    """A page whose panel is open."""

    def open_panel(self) -> None:
        self.wait_still()  # a click on what moves may miss it
        self.browser.click("#front summary")
        self.wait_text("#front-turn", "before turn")

    def go(self, turn: int) -> None:
        self.fill("#turn", str(turn))
        self.browser.key("Enter")
        self.browser.wait(
            f"document.querySelector('#front-turn').textContent === 'before turn {turn}'"
        )

    def lit(self, row: str) -> int:
        return int(self.browser.value(LIT.format(row=row)))

    def lamps(self) -> list[bool]:
        said = [self.browser.text(f"#front-{it}-said") == "on" for it in LAMPS]
        is_lit = "document.querySelector('#front-{}').classList.contains('on')"
        self.assertEqual([self.browser.value(is_lit.format(it)) for it in LAMPS], said)
        return said

    def focus(self, bit: int) -> None:
        self.browser.value(f"document.querySelector('.switch[data-bit=\"{bit}\"]').focus()")

    def digits(self, text: str, first: int = 17) -> None:
        """Strikes digits, each of which sets three switches."""
        self.focus(first)
        self.browser.type(text)

    def said(self, part: str) -> str:
        return self.wait_text("#front-said", part)

    def wait_edits(self, *wanted: str) -> None:
        self.browser.wait(f"document.querySelectorAll('#edits > li').length === {len(wanted)}")
        self.assertEqual(self.edits(), list(wanted))


class Lights(Panel):
    def test_they_are_off_until_the_panel_is_opened(self) -> None:
        self.wait_still()
        self.assertFalse(self.browser.value("document.querySelector('#front').open"))
        self.assertEqual(self.browser.text("#front-turn"), "")
        self.open_panel()
        self.assertEqual(self.browser.text("#front-turn"), f"before turn {CURSOR}")

    def test_they_show_the_machine_before_the_cursors_turn(self) -> None:
        """In both modes, beside what the program replies."""
        lines = ledger_lines()
        user = int(replies_of([*lines, f"first 0 {CURSOR} where user"])[-1].split()[-1])
        self.open_panel()
        for turn, mode in ((0, "kernel"), (user, "user"), (CURSOR, "kernel")):
            (regs,) = replies_of([*lines, f"regs {turn}"])[-1:]
            found = re.search(r"PC (\d+) PS (\d+) (\w+)", regs)
            assert found
            place = f"virtual {turn} {mode} {int(found[1], 8):o} 1"
            word = replies_of([*lines, place])[-1].split()[-1]
            self.go(turn)
            self.assertEqual(self.lamps(), [found[3] != "halted", mode == "kernel", mode == "user"])
            self.assertEqual(self.lit("address"), int(found[1], 8))
            self.assertEqual(self.lit("data"), int(word, 8))
            self.assertEqual(self.browser.text("#front-address-word"), found[1])
            self.assertEqual(self.browser.text("#front-data-word"), word)

    def test_no_word_is_at_an_odd_or_missing_place(self) -> None:
        path = self.folder() / "odd.session"
        path.write_text("#! --start 160000\nregs 9\n")
        self.give(path)
        self.open_panel()
        self.assertEqual(self.browser.text("#front-data-word"), "none")
        self.assertEqual((self.lit("address"), self.lit("data")), (0o160000, 0))


class Keys(Panel):
    def halting(self) -> None:
        """A session that halts in its first turn, and after a continue goes on for ever."""
        path = self.folder() / "halting.session"
        path.write_text("core 1000 0\ncore 1002 777\ncore 1004 123456\nregs 9\n")
        self.give(path)
        self.open_panel()

    def test_continue_and_the_switches_are_events_at_the_cursor(self) -> None:
        self.halting()
        self.assertEqual(self.lamps()[0], True)
        self.go(5)
        self.assertEqual(self.lamps()[0], False)
        self.digits("012345")
        self.assertEqual(self.browser.text("#front-word"), "012345")
        self.browser.click("#front-set")
        self.said("switches 12345. Undo takes it back.")
        self.browser.click("#front-continue")
        self.said("continue. Undo takes it back.")
        self.wait_edits("at 5 switches 12345", "at 5 continue")
        self.assertEqual(self.browser.text("#front-register"), "000000")
        self.go(7)
        self.assertEqual(self.lamps()[0], True)
        self.assertEqual(self.browser.text("#front-register"), "012345")
        self.browser.click("#undo")
        self.wait_edits("at 5 switches 12345")
        self.browser.wait("document.querySelector('#front-run-said').textContent === 'off'")

    def test_an_event_has_sixteen_switches(self) -> None:
        self.halting()
        self.digits("2")
        self.browser.click("#front-set")
        self.said("The event has sixteen switches")
        self.assertEqual(self.edits(), [])

    def test_examine_looks_at_core_and_changes_nothing(self) -> None:
        self.halting()
        self.digits("001002")
        for at, word in ((0o1002, "000777"), (0o1004, "123456"), (0o1006, "000000")):
            self.browser.click("#front-examine")
            self.said(f"Core {at:06o} before turn 0: {word}.")
            self.assertEqual((self.lit("address"), self.lit("data")), (at, int(word, 8)))
        self.go(2)
        self.assertEqual(self.lit("address"), 0o1002)
        self.digits("760000")
        self.browser.click("#front-examine")
        self.said("There is no core at 760000")
        self.assertEqual(self.edits(), [])

    def test_arrows_go_along_the_switches(self) -> None:
        self.open_panel()
        self.focus(15)
        for key in ("ArrowUp", "ArrowRight", "ArrowUp", "ArrowLeft", "ArrowDown", "ArrowRight"):
            self.browser.key(key)
        self.assertEqual(self.browser.text("#front-word"), "040000")
        self.assertEqual(self.browser.value("document.activeElement.dataset.bit"), "14")
        tabs = "[...document.querySelectorAll('.switch')].filter(it => it.tabIndex === 0).length"
        self.assertEqual(self.browser.value(tabs), 1)
        self.browser.key("Tab")
        self.assertEqual(self.browser.value("document.activeElement.id"), "front-set")
        self.assertEqual(self.turn(), CURSOR)


class Looks(Panel):
    def test_a_finger_turns_a_switch(self) -> None:
        self.browser.size(400, 800)
        self.open_panel()
        self.browser.call("Emulation.setTouchEmulationEnabled", enabled=True)
        try:
            x, y = self.browser.middle(".switch[data-bit='4']")
            self.browser.touch("touchStart", (x, y))
            self.browser.touch("touchEnd")
            self.wait_text("#front-word", "000020")
        finally:
            self.browser.call("Emulation.setTouchEmulationEnabled", enabled=False)

    def test_all_is_in_sight_and_large(self) -> None:
        self.open_panel()
        self.digits("777777")
        for width in (320, 400, 700, 1280):
            self.browser.size(width, 800)
            wide = "(it => it.scrollWidth - it.clientWidth)(document.querySelector('{}'))"
            for place in ("html", "#front-section"):
                self.assertLessEqual(self.browser.value(wide.format(place)), 0, (width, place))
            self.assertEqual(self.browser.value(SMALL), [])

    def test_each_has_a_name(self) -> None:
        self.open_panel()
        self.digits("000001")
        nodes: list[dict[str, Any]] = self.browser.call("Accessibility.getFullAXTree")["nodes"]
        switches = {
            it["name"]["value"]: it["properties"]
            for it in nodes
            if it.get("role", {}).get("value") == "switch"
        }
        self.assertEqual(set(switches), {f"Switch {it}" for it in range(18)})
        on = [
            name
            for name, found in switches.items()
            for it in found
            if it["name"] == "checked" and it["value"]["value"] == "true"
        ]
        self.assertEqual(on, ["Switch 0"])
        names = [it.get("name", {}).get("value") for it in nodes]
        self.assertIn("CONT: continue", names)
        self.assertIn("EXAM: look at core", names)
