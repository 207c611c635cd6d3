"""What panels of the page find over many turns, beside what explore tells: `follow`, `lost` and
`matters`."""
import re
from typing import ClassVar

from .explored import Explored
from .page_case import LEDGER, ROOT, OpenCase, PageCase

FORTH = ROOT / "examples" / "forth"
KEY = re.compile(r"key (\d+)(?:  (?:'.'|LF|CR|ESC|space|DEL|Ctrl-.)| '[^']+')")
PARTS = (
    "(name => [...document.querySelectorAll(`#${name}-found li, #${name}-found > p`)]"
    ".map(it => it.textContent).filter(Boolean))"
)
ROWS = (
    "(name => [...document.querySelectorAll(`#${name}-found tbody tr`)]"
    ".map(it => [...it.cells].map(cell => cell.textContent).join(' ')))"
)


def plain(line: str) -> str:
    """A line of either, with keys as both have them, and single blanks."""
    return " ".join(KEY.sub(lambda it: f"key {it[1]}", line).split())


def all_plain(lines: list[str]) -> list[str]:
    return [plain(it) for it in lines]


class Asking(PageCase):
    """A page with panels that look over many turns."""

    def send(self, name: str, **fields: str) -> None:
        """Fills a panel's form, and sends it by Enter."""
        for field, text in fields.items():
            self.fill(f"#{name}-{field}", text)
        self.browser.key("Enter")
        self.wait_still()

    def choose(self, name: str, value: str) -> None:
        """Chooses of a list as a user does, who has its event told."""
        self.browser.look_at(f"#{name}")
        self.browser.value(
            f"(it => {{ it.value = '{value}'; it.dispatchEvent(new Event('change')); }})"
            f"(document.querySelector('#{name}'))"
        )

    def parts(self, name: str) -> list[str]:
        """The lines that a panel shows."""
        return all_plain(self.browser.value(f"{PARTS}('{name}')"))

    def rows(self, name: str) -> list[str]:
        """The rows of a panel's table."""
        return all_plain(self.browser.value(f"{ROWS}('{name}')"))

    def said(self, name: str) -> str:
        return self.browser.text(f"#{name}-said")

    def follows_as_explored(self, explored: Explored, event: int, end: int) -> None:
        self.send("follow", event=str(event), to=str(end))
        self.assertEqual(
            self.parts("follow"), all_plain(explored.lines(f"follow {event} to {end}"))
        )

    def loses_keys_as_explored(self, explored: Explored, first: int, end: int) -> None:
        self.choose("lost-what", "keys")
        self.send("lost", **{"from": str(first), "to": str(end)})
        heading, *rows, last = all_plain(explored.lines(f"lost keys {first} {end}"))
        self.assertTrue(heading.startswith("event turn key until turns"))
        self.assertEqual((self.rows("lost"), self.said("lost")), (rows, last))

    def matters_as_explored(self, explored: Explored, line: str, **fields: str) -> None:
        """That a table has the rows which explore shows for a line."""
        self.send("matters", **fields)
        _, heading, *rows, last = all_plain(explored.lines(f"matters -y {line}"))
        self.assertEqual(heading, "event turn what dropped earlier later")
        self.assertEqual(self.rows("matters"), rows)
        self.assertIn(last, self.said("matters"))


class OfTheLedger(Asking, OpenCase):
    turn_at_first = 127_500
    explored: ClassVar[Explored]

    @classmethod
    def setUpClass(cls) -> None:
        super().setUpClass()
        cls.explored = Explored(LEDGER / "ledger.session")
        cls.addClassCleanup(cls.explored.close)

    def test_keys_are_followed(self) -> None:
        for event, end in ((15, 129_000), (14, 128_500), (1, 5_000)):
            self.follows_as_explored(self.explored, event, end)

    def test_a_key_is_followed_through_addresses(self) -> None:
        self.browser.click("#follow-places")
        self.send("follow", event="15", to="128000")
        told = self.explored.lines("follow 15 to 128000 places")
        self.assertEqual(self.parts("follow"), all_plain(told))
        self.browser.click("#follow-places")

    def test_the_path_of_a_key_is_drawn(self) -> None:
        self.send("follow", event="15", to="128100")
        lines = self.browser.value("document.querySelectorAll('#follow-found li').length")
        circles = "document.querySelectorAll('.path circle').length"
        self.assertEqual(self.browser.value(circles), lines)
        self.browser.click("#follow-found li:nth-child(3) .link")
        self.assertEqual(self.turn(), 127_420)
        self.browser.click("#follow-none")
        self.assertEqual(self.browser.value(circles), 0)

    def test_what_became_of_keys(self) -> None:
        for first, end in ((0, 238_614), (126_000, 127_000)):
            self.loses_keys_as_explored(self.explored, first, end)

    def test_what_is_left_of_runs(self) -> None:
        self.choose("lost-what", "runs")
        for pc, mode in (("1234", "kernel"), ("12", "user")):
            self.choose("lost-mode", mode)
            self.send("lost", **{"pc": pc, "from": "126000", "to": "128200"})
            told = self.explored.lines(f"lost PC {pc} {mode} from 126000 to 128200")
            *rows, last = all_plain(told)
            self.assertEqual((self.parts("lost"), plain(self.said("lost"))), (rows, last))

    def test_which_events_matter(self) -> None:
        asked = "dsk 238614 0 1"
        self.matters_as_explored(
            self.explored, f"14 15 16 near 400: {asked}",
            events="14 15 16", most="400", question=asked,
        )
        self.choose("matters-how", "within")
        self.matters_as_explored(
            self.explored, f"15 within 180: {asked}", events="15", most="180", question=asked
        )
        self.matters_as_explored(
            self.explored, f"15 within 180: {asked} until 176",
            events="15", most="180", until="176", question=asked,
        )


class Shown(Asking):
    """What is marked, what a click does, and what is said of what was stopped or is old."""

    def marks(self) -> list[str]:
        return list(
            self.browser.value("[...document.querySelectorAll('.near')].map(it => it.textContent)")
        )

    def test_marks_and_edits_of_what_matters(self) -> None:
        self.fill("#matters-events", "15")
        self.fill("#matters-most", "400")
        self.fill("#turn", "128200")
        self.browser.key("Enter")
        self.fill("#why-word", "disk 0")
        self.browser.key("Enter")
        self.wait_still()
        self.browser.click("#why-matters")
        self.wait_text("#matters-said", "1 event")
        self.wait_still()
        question = "document.querySelector('#matters-question').value"
        self.assertEqual(self.browser.value(question), "dsk 128200 0 1")
        self.assertEqual(self.marks(), ["\u25c26", "6\u25b8"])
        self.browser.click(".near:last-child")
        (row,) = self.rows("matters")
        self.assertIn(f"by {self.turn() - 126_967}: ", row)
        later = self.turn()
        self.browser.click("#matters-found td:last-child .link")
        self.browser.wait("document.querySelectorAll('#edits li').length === 1")
        self.assertEqual(self.edits(), [f"alter 15 {later} key 66"])
        self.wait_still()
        self.assertIn("before the last edit", self.said("matters"))
        self.assertEqual(self.marks(), [])

    def test_what_is_stopped_says_so(self) -> None:
        self.choose("matters-how", "within")
        self.fill("#matters-events")
        self.browser.key("Enter")
        self.wait_text("#matters-said", "Trying: ")
        self.browser.click("#matters-stop")
        self.wait_still()
        self.assertRegex(self.said("matters"), r"Stopped: \d+ of 81 ways are tried to the end")
        self.send("follow", event="15", to="9000")
        self.assertIn("follow it to a later one", self.said("follow"))
        self.fill("#follow-to", "238000")
        self.browser.key("Enter")
        self.wait_text("#follow-said", " of 111033 turns ..")
        self.browser.click("#follow-stop")
        self.wait_still()
        self.assertRegex(self.parts("follow")[-1], r"turns from \d+ on weren't looked at: stopped")

    def test_an_edit_ends_what_is_under_way(self) -> None:
        """What was found so far would be of another past, and nothing looks any longer."""
        self.fill("#follow-event", "15")
        self.fill("#follow-to", "238000")
        self.browser.key("Enter")
        self.wait_text("#follow-said", " of 111033 turns ..")
        self.type_line("at 5 tick")
        self.wait_still()
        self.assertEqual((self.said("follow"), self.parts("follow")), ("", []))


class OfTheForth(Asking):
    def test_a_note_that_is_lost(self) -> None:
        explored = Explored(FORTH / "long" / "lost-note.session")
        explored.name(FORTH / "kernel.sym", FORTH / "words.sym")
        self.addCleanup(explored.close)
        self.open_example("note")
        self.follows_as_explored(explored, 46, 2_192_000)
        self.loses_keys_as_explored(explored, 2_129_000, 2_200_000)
        asked = "dsk 2450000 25000 1"
        self.matters_as_explored(
            explored, f"45 46 near 3000: {asked} until 040503",
            events="45, 46", most="3000", until="040503", question=asked,
        )


class TheListing(Asking):
    def lines(self) -> list[str]:
        """The lines with their counts, as `covered` has them."""
        return list(
            self.browser.value(
                "[...document.querySelectorAll('#listing-found > div')].map(it =>"
                " [it.firstChild.textContent.padStart(10), it.lastChild.textContent].join(': ')"
                ".trimEnd())"
            )
        )

    def current(self) -> str:
        """The line of PC."""
        self.wait_still()
        return str(self.browser.value("document.querySelector('[aria-current]')?.textContent"))

    def go(self, turn: int) -> None:
        self.fill("#turn", str(turn))
        self.browser.key("Enter")
        self.wait_text("#listing-turn", f"before turn {turn}")

    def test_lines_run_counts_and_the_line_of_pc(self) -> None:
        path = LEDGER / "ledger.lst"
        self.browser.click("#tab-machine")
        panel = "document.querySelector('#listing-panel').hidden"
        self.assertTrue(self.browser.value(panel))
        self.give(path)
        self.wait_still()
        self.assertFalse(self.browser.value(panel))
        self.go(127_161)
        self.assertIn("001230", self.current())
        explored = Explored(LEDGER / "ledger.session")
        self.addCleanup(explored.close)
        for mode in ("kernel", "user"):
            self.choose("listing-mode", mode)
            self.browser.click("#listing-form button")
            told = explored.lines(f"covered {path} {mode} from 0 to 127160")
            self.wait_text("#listing-said", told[-1])
            self.wait_still()
            self.assertEqual(self.lines(), [it.rstrip() for it in told[:-1]])
        self.type_line("drop 1")
        self.wait_text("#listing-said", "before the last edit")

    def test_a_line_leads_to_its_next_run(self) -> None:
        self.give(LEDGER / "ledger.lst")
        self.go(126_900)
        (found,) = [it for it in self.lines() if "001234  " in it]
        at = self.lines().index(found) + 1
        self.browser.click(f"#listing-found > div:nth-child({at}) .link")
        self.browser.wait("document.querySelector('#turns').ariaValueNow === '127164'")
        self.assertIn("001234", self.current())
