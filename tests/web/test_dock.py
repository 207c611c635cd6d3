"""The workbench: panels in tabs, which ask nothing while nobody sees them, beside a timeline that
stays in sight; the next step after success; lanes that say what they are; the watch list."""
import re
from typing import Any, ClassVar

from .browser import SHIFT
from .explored import Explored
from .page_case import KEY, SAFE, TABS, OpenCase, PageCase, ledger_lines, replies_of
from .test_made import SESSION, MadeCase
from .test_story import KEY_TURN, story

PAST = ledger_lines()[:-2]
CURSOR = 127_500
# keeps each line that the page asks of a machine from now on
NOTE = """(() => {
  const post = Worker.prototype.postMessage;
  window.asked = [];
  Worker.prototype.postMessage = function (message, ...more) {
    window.asked.push(JSON.stringify(message));
    return post.call(this, message, ...more);
  };
})()"""
SEEN = """((...names) => names.map(name => {
  const {top, bottom, left, right} = document.querySelector(name).getBoundingClientRect();
  return [top, bottom, left, right].map(Math.round);
}))"""
# how violet the turns above the lanes of words are in a column of the canvas
VIOLET = """(x => {
  const canvas = document.querySelector('#timeline canvas');
  const {data} = canvas.getContext('2d').getImageData(x, 200, 1, 60);
  return [...Array(60).keys()].filter(it => data[4 * it + 3] > 60
    && data[4 * it + 2] > data[4 * it] && data[4 * it] > data[4 * it + 1] + 40).length;
})"""


class Tabs(PageCase):
    def state(self) -> list[Any]:
        """Which tab is chosen, to which Tab comes, and which panels are seen."""
        return list(
            self.browser.value(
                "[it => it.ariaSelected === 'true', it => it.tabIndex === 0].map(is =>"
                " [...document.querySelectorAll('[role=tab]')].filter(is).map(it => it.id))"
                ".concat([[...document.querySelectorAll('[role=tabpanel]')]"
                ".filter(it => it.checkVisibility()).map(it => it.getAttribute("
                "'aria-labelledby'))])"
            )
        )

    def is_open(self, name: str) -> None:
        self.assertEqual(self.state(), [[f"tab-{name}"]] * 3)

    def test_one_is_open(self) -> None:
        self.is_open("machine")
        for name in (*TABS[1:], *TABS):
            self.browser.click(f"#tab-{name}")
            self.is_open(name)

    def test_keys(self) -> None:
        self.browser.value("document.querySelector('#tab-machine').focus()")
        before = self.turn()
        for key, name in (
            ("ArrowRight", "memory"),
            ("ArrowRight", "ask"),
            ("End", "console"),
            ("ArrowRight", "machine"),
            ("ArrowLeft", "console"),
            ("ArrowLeft", "past"),
            ("Home", "machine"),
        ):
            self.browser.key(key)
            self.is_open(name)
            self.assertEqual(self.browser.value("document.activeElement.id"), f"tab-{name}")
        self.assertEqual(self.turn(), before)
        self.browser.key("Tab")
        inside = "document.querySelector('#dock-machine').contains(document.activeElement)"
        self.assertTrue(self.browser.value(inside))
        self.browser.key("Tab", SHIFT)
        self.assertEqual(self.browser.value("document.activeElement.id"), "tab-machine")

    def test_the_open_one_is_marked_in_each_look(self) -> None:
        grounds = (
            "[...document.querySelectorAll('[role=tab]')]"
            ".map(it => getComputedStyle(it).backgroundColor)"
        )
        for is_dark, is_forced in ((False, False), (True, False), (False, True), (True, True)):
            self.browser.size(1280, 800, is_dark, is_forced)
            found = self.browser.value(grounds)
            self.assertNotIn(found[0], found[1:], (is_dark, is_forced))

    def test_it_is_a_part_of_the_place(self) -> None:
        self.browser.click("#tab-past")
        self.browser.wait("location.hash.endsWith('&tab=past')")
        self.browser.reload()
        self.is_open("past")
        self.follow_fragment("#turn=127163&from=126300&turns=2600&core=2000&tab=memory")
        self.is_open("memory")
        self.follow_fragment("#turn=127164&from=126300&turns=2600&core=2000&tab=none")
        self.is_open("memory")

    def test_what_shows_something_opens_its_tab(self) -> None:
        self.browser.click("#registers .link")
        self.wait_still()
        self.is_open("ask")
        self.browser.click("#tab-memory")
        self.wait_text("#memory", "002000")
        self.browser.click("#memory tbody td:nth-child(2) .link")
        self.is_open("ask")
        self.assertEqual(self.browser.value("document.activeElement.id"), "line")
        self.browser.click("#tab-console")
        self.browser.value(f"document.querySelector('{KEY}').focus()")
        self.browser.key("Enter")
        self.is_open("ask")

    def test_what_is_empty_says_what_fills_it(self) -> None:
        said = "getComputedStyle(document.querySelector('{}'), '::before').content"
        for name, part in (
            ("edits", "None yet"),
            ("reasons", "Touch a register"),
            ("sweep-found", "Nothing was tried yet"),
            ("inspected", "Nothing is shown yet"),
        ):
            self.assertIn(part, self.browser.value(said.format(f"#{name}")), name)
        self.type_line("drop 15")
        self.browser.wait("document.querySelectorAll('#edits li').length === 1")
        self.assertEqual(self.browser.value(said.format("#edits")), "none")


class Unseen(PageCase):
    """Each tab asks for what it shows, and for nothing else."""

    LINES = {
        "machine": r"devices {}\b",
        "memory": r"last {} 2000\b",
        "past": r"dsk 238614 0 ",
    }

    def asked(self, pattern: str) -> bool:
        return re.search(pattern, " ".join(self.browser.value("asked"))) is not None

    def test_what_nobody_sees_is_not_asked(self) -> None:
        self.browser.value(NOTE)
        for name in TABS:
            self.open_tab(name)
            turn = 127_200 + TABS.index(name)
            self.browser.value("asked.length = 0")
            self.fill("#turn", str(turn))
            self.browser.key("Enter")
            self.wait_text("#registers-turn", f"before turn {turn}")
            self.wait_still()
            self.assertTrue(self.asked(rf"regs {turn}\b"), name)
            for panel in ("machine", "memory"):
                line = self.LINES[panel].format(turn)
                self.assertEqual(self.asked(line), panel == name, (name, panel))

    def test_a_drop_compares_no_words_until_somebody_looks(self) -> None:
        self.browser.value(NOTE)
        self.browser.drag(KEY, 110)
        self.balance(SAFE)
        self.wait_still()
        self.assertFalse(self.asked(self.LINES["past"]))
        self.browser.click("#tab-past")
        self.wait_text("#difference", "0000000000170000176")
        self.assertTrue(self.asked(self.LINES["past"]))

    def test_what_the_turn_does(self) -> None:
        for turn in (127_162, 127_500):
            self.fill("#turn", str(turn))
            self.browser.key("Enter")
            (trail,) = replies_of([*PAST, f"trail {turn + 1} 1"])[-1:]
            shown = self.wait_text("#does", f"Turn {turn} does: ")
            self.assertEqual("interrupt" in shown, " irq " in trail, (shown, trail))


class InSight(PageCase):
    def boxes(self, *names: str) -> list[list[int]]:
        return list(self.browser.value(f"{SEEN}({', '.join(map(repr, names))})"))

    def test_the_timeline_stays_beside_the_panels(self) -> None:
        for width, height in ((1280, 800), (1920, 1080), (400, 800)):
            with self.subTest(width=width):
                self.browser.size(width, height)
                self.browser.click("#registers .link")
                self.wait_text("#reasons", "before turn")
                self.wait_still()
                view, strip, why = self.boxes("#timeline", "#strip", "#why-panel h2")
                self.assertGreater(view[1], 300)
                self.assertTrue(0 <= why[0] and why[1] <= height, why)
                hidden = max(0, -view[0])
                self.assertLess(hidden, 40, view)
                if width == 1920:
                    self.assertGreater(why[2], view[3])
                else:
                    self.assertGreater(why[0], view[1])
                self.assertTrue(width == 400 or 0 <= strip[0] < strip[1] <= height, strip)

    def test_a_panel_that_is_brought_stands_below_the_tabs(self) -> None:
        self.browser.size(1280, 800)
        self.open_tab("ask")
        self.browser.value("document.querySelector('#dock').scrollTo(0, 9999)")
        self.browser.click("#registers .link")
        self.wait_text("#reasons", "before turn")
        self.wait_still()
        tabs, why = self.boxes("[role=tablist]", "#why-panel h2")
        self.assertGreaterEqual(why[0], tabs[1])

    def test_a_timeline_that_is_too_high_does_not_stay(self) -> None:
        """It would leave no room for what is below."""
        self.browser.size(400, 600)
        self.browser.value("scrollTo(0, document.documentElement.scrollHeight)")
        ((_, bottom, _, _),) = self.boxes("#timeline")
        self.assertLess(bottom, 0)


class Next(MadeCase):
    """After success the page offers to ask why the deposit was lost."""

    explored: ClassVar[Explored]

    @classmethod
    def setUpClass(cls) -> None:
        super().setUpClass()
        cls.explored = Explored(SESSION)
        cls.addClassCleanup(cls.explored.close)

    def test_why_it_was_lost(self) -> None:
        offered = "document.querySelector('#next').checkVisibility({visibilityProperty: true})"
        self.browser.size(1280, 800)
        self.assertFalse(self.browser.value(offered))
        self.browser.drag(KEY, 110)
        self.balance(SAFE)
        self.browser.wait(offered)
        self.browser.click("#next button")
        self.wait_answer()
        self.wait_text("#reasons", "Made of events")
        asked = self.browser.value("document.querySelector('#why-word').value")
        self.assertEqual(asked, "disk 0000000")
        said = self.browser.text("#why-turn")
        self.assertRegex(said, r"^before turn \d+, before your edits$")
        turn = int(said.split(",")[0].split()[-1])
        (word, before) = replies_of([*PAST, f"dsk {turn} 0 1", f"dsk {turn - 1} 0 1"])[-2:]
        self.assertNotEqual(word, before)
        self.is_as_explored(self.explored, f"why disk 0 at {turn}")
        self.assertRegex(" ".join(self.sentences()), r"not of [\d, -]*\b15\b")
        self.assertGreater(
            self.browser.value("document.querySelectorAll('.path circle').length"), 3
        )
        self.browser.click("#undo")
        self.balance("137")
        self.browser.wait(f"!{offered}")


class Lanes(PageCase):
    NAMES = ("turn", "events", "kernel PC", "user PC", "disk", "interrupts", "console")

    def test_each_name_explains_itself(self) -> None:
        self.browser.click("#help summary")
        listed = self.browser.value(
            "[...document.querySelectorAll('#lanes div')].map(it =>"
            " [it.children[0].textContent, it.children[1].textContent])"
        )
        self.browser.key("Escape")
        words = dict(listed)
        for name in self.NAMES:
            self.assertGreater(len(words[name]), 20, name)
        x, top = self.browser.value(
            "(it => [it.left + 20, it.top])(document.querySelector('#turns')"
            ".getBoundingClientRect())"
        )
        for y, name in zip((10, 40, 110, 160, 205, 235, 265), self.NAMES):
            self.browser.mouse("mouseMoved", x, top + y)
            self.assertEqual(self.browser.text("#tip"), f"{name}: {words[name]}")
        self.browser.mouse("mouseMoved", x, top + 300)
        self.assertEqual(self.browser.text("#tip"), f"clerk A's balance: {words['a word']}")

    def test_by_keys(self) -> None:
        self.browser.value("document.querySelector('#turns').focus()")
        self.browser.key("ArrowDown")
        self.browser.key("ArrowDown")
        told = self.browser.value("document.querySelector('#turns').ariaValueText")
        self.assertRegex(told, r"; lane .+: .{20}")
        self.assertIn(self.browser.text("#tip"), told)

    def test_help_opens_by_a_key(self) -> None:
        is_open = "document.querySelector('#help').open"
        self.browser.key("?")
        self.assertTrue(self.browser.value(is_open))
        self.browser.key("Escape")
        self.assertFalse(self.browser.value(is_open))
        self.fill("#find-what", "?")
        self.assertFalse(self.browser.value(is_open))
        self.assertEqual(self.browser.value("document.querySelector('#find-what').value"), "?")

    def test_the_tick_is_marked_from_the_start(self) -> None:
        key, other = (
            self.browser.value(f"parseFloat(document.querySelector('{it}').style.left)")
            for it in (KEY, '[data-event="14"]')
        )
        x = key + (story()["tick"] - KEY_TURN) / (KEY_TURN - 126_830) * (key - other)
        violet = f"[-1, 0, 1].some(by => {VIOLET}({x:.0f} + by) > 20)"
        self.assertTrue(self.browser.value(violet))
        self.type_line("delay clock 900")
        self.wait_still()
        self.assertFalse(self.browser.value(violet))


class Watching(OpenCase):
    turn_at_first = CURSOR

    def rows(self) -> list[list[str]]:
        return list(
            self.browser.value(
                "[...document.querySelectorAll('#words tbody tr')].map(it =>"
                " [...it.cells].slice(0, 3).map(cell => cell.textContent))"
            )
        )

    def watch(self, name: str) -> None:
        self.fill("#watch", name)
        self.browser.key("Enter")
        self.wait_still()

    def values(self, turn: int, *edits: str) -> list[str]:
        """The values by the program."""
        lines = [f"regs {turn}", f"mem {turn} 30000 1", f"mem {turn} 40000 1", f"dsk {turn} 0 1"]
        regs, *words = replies_of([*PAST, *edits, *lines])[-4:]
        held = dict(zip(regs.split()[::2], regs.split()[1::2]))
        return [*(it.split()[1] for it in words), held["R2"], held["PC"]]

    def go(self, turn: int) -> None:
        self.fill("#turn", str(turn))
        self.browser.key("Enter")
        said = "document.querySelector('#watched-turn').textContent"
        self.browser.wait(f"{said} === 'before turn {turn}'")

    def test_values_at_the_cursor_and_in_the_old_past(self) -> None:
        for name in ("R2", "PC"):
            self.watch(name)
        turns = (CURSOR, 127_900, 128_500)
        for turn in turns:
            self.go(turn)
            self.assertEqual([it[1:] for it in self.rows()], [[it, ""] for it in self.values(turn)])
        edit = "alter 15 127165 key 66"
        self.type_line(edit)
        self.browser.look_at("#words")
        for turn in turns:
            self.go(turn)
            both = zip(self.values(turn, edit), self.values(turn))
            self.assertEqual([it[1:] for it in self.rows()], [list(it) for it in both], turn)
        self.assertIn("before your edits", self.browser.text("#words thead"))

    def test_what_is_listed_stays_if_it_is_named_again(self) -> None:
        for name, title in (("R4", "R4"), ("40000", "(core 040000)"), ("core 40000", "")):
            self.watch(name)
            listed = self.rows()
            self.watch(name)
            said = self.wait_text("#reply", " is in the watch list already")
            self.assertIn(title, said)
            self.assertEqual(self.rows(), listed)
        self.browser.click("#words tr:last-child button")

    def test_a_register_is_watched_no_longer(self) -> None:
        self.watch("R5")
        self.assertIn("R5", [it[0] for it in self.rows()])
        self.browser.click("#words tr:last-child button")
        self.wait_still()
        self.assertNotIn("R5", [it[0] for it in self.rows()])
        self.watch("R9")
        self.wait_text("#reply", "R9 can't be drawn")
