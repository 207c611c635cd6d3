"""The call stack: each level beside explore's `calls`."""
import re
from typing import ClassVar

from .explored import Explored
from .page_case import OpenCase, PageCase
from .test_made import SESSION

CURSOR = 127_500
LEVEL = re.compile(
    r" *(\d+)  (\w+) +(\d{6})  (.+?)  +(\d{6})(?:  ([^( ]+))?(?:  (\(believed: .+\)))?"
)


class Calls(OpenCase):
    turn_at_first = CURSOR
    explored: ClassVar[Explored]

    @classmethod
    def setUpClass(cls) -> None:
        super().setUpClass()
        cls.explored = Explored(SESSION)
        cls.addClassCleanup(cls.explored.close)

    def setUp(self) -> None:
        super().setUp()
        if not self.browser.value("document.querySelector('#calls').open"):
            self.browser.click("#calls summary")
        self.wait_turn(CURSOR)

    def wait_turn(self, turn: int) -> None:
        """Waits until the calls before a turn are shown."""
        said = "document.querySelector('#calls-turn').textContent"
        self.browser.wait(f"{said} === 'before turn {turn}'")
        self.wait_still()

    def go(self, turn: int) -> None:
        self.fill("#turn", str(turn))
        self.browser.key("Enter")
        self.wait_still()

    def rows(self) -> list[list[str]]:
        found = self.browser.value(
            "[...document.querySelectorAll('#call-list tbody tr')].map(it =>"
            " [...it.cells].map(cell => cell.textContent))"
        )
        return [list(it) for it in found]

    def levels(self, turn: int) -> list[list[str]]:
        """The levels as the page has them, by explore."""
        found = []
        for line in self.explored.lines(f"calls {turn}")[2:]:
            level = LEVEL.fullmatch(line)
            if level is None:
                self.assertTrue(line.startswith("there may be more"), line)
                continue
            called, mode, pc, what, routine, name, doubt = level.groups(default="")
            kind, _, caller = what.partition(" at ")
            to = f"{kind} to {routine}{f' {name}' if name else ''}"
            found.append([called, mode, pc, caller, f"{to} {doubt}".rstrip()])
        return found

    def test_levels(self) -> None:
        lengths = set()
        for turn in (5, 3_400, 127_165, 127_500, 200_000):
            self.go(turn)
            self.wait_turn(turn)
            wanted = self.levels(turn)
            self.assertEqual(self.rows()[1:], wanted, turn)
            lengths.add(len(wanted))
        self.assertGreater(len(lengths), 1)

    def test_a_click_goes_to_the_call(self) -> None:
        turn = int(self.rows()[1][0])
        self.browser.click("#call-list tbody tr:nth-child(2) .link")
        self.assertEqual(self.turn(), turn)

    def test_nothing_is_asked_while_it_is_closed(self) -> None:
        self.browser.click("#calls summary")
        before = self.rows()
        self.go(3_400)
        self.assertEqual(self.rows(), before)
        self.browser.click("#calls summary")
        self.wait_turn(3_400)
        self.assertEqual(self.rows()[1:], self.levels(3_400))


class Left(PageCase):
    """A routine that has returned, with its word still on the stack: SUB #2,SP takes it in."""

    WORDS = "12706 1000 4737 1100 162706 2 777"

    def test_it_is_no_level(self) -> None:
        path = self.folder() / "left.session"
        words = (f"core {0o1000 + 2 * at:o} {it}" for at, it in enumerate(self.WORDS.split()))
        path.write_text("\n".join([*words, "core 1100 207", "regs 20", ""]))
        self.give(path)
        self.wait_text("#session-name", "left.session")
        self.browser.value("document.querySelector('#calls').open = true")
        for turn, said in (2, "JSR to 001100"), (10, "In no call that is found."):
            self.fill("#turn", str(turn))
            self.browser.key("Enter")
            self.wait_text("#calls-turn", f"before turn {turn}")
            self.wait_still()
            self.assertIn(said, self.browser.text("#call-list"))
