"""What the page shows is so, or says that it isn't known."""
import re

from .page_case import SAFE, PageCase, ledger_lines, replies_of

FAR = 900_000_000
CURSOR = 126_967
PANELS = ("registers", "instructions", "memory", "stack", "devices", "pages")
# names of words that the machine hasn't, each with a part of the sentence that says why
NO_WORDS = {
    "disk 4604000": "past the end",
    "770000": "isn't in core",
    "2001": "odd",
    "disk 1 0": "there is one drive",
    "1 2000": "is named as",
}


class Words(PageCase):
    def draw(self, name: str) -> None:
        self.fill("#watch", name)
        self.browser.key("Enter")

    def test_a_word_that_is_not_there(self) -> None:
        self.open_tab("memory")
        drawn = self.browser.text("#words")
        for name, why in NO_WORDS.items():
            self.draw(name)
            said = self.wait_text("#reply", f"{name} can't be drawn: ")
            self.assertIn(why, said)
        self.assertEqual(self.browser.text("#words"), drawn)

    def test_a_drive_that_an_undo_takes_away(self) -> None:
        self.type_line("version 2")
        self.draw("disk 1 0")
        self.wait_text("#words", "disk 1 0000000")
        self.browser.click("#undo")
        self.browser.wait("document.querySelectorAll('#edits li').length === 0")
        self.wait_still()
        self.browser.click("#sight summary")
        self.wait_text("#sight", "disk 1 0000000there is one drive")

    def test_core_that_is_not_there_has_no_instructions(self) -> None:
        path = self.folder() / "small.session"
        path.write_text("#! --units 1 --start 20000\nregs 1\n")
        self.give(path)
        self.wait_text("#instructions", "(can't be fetched)")
        # MOV #N,R0 as the last word of core: N would come from the I/O page
        path.write_text("#! --start 157776\ncore 157776 12700\nregs 1\n")
        self.give(path)
        self.wait_text("#instructions", "(its operands can't be fetched)")


class Stopping(PageCase):
    def go(self, turn: int) -> None:
        self.fill("#turn", str(turn))
        self.browser.key("Enter")

    def marks(self) -> list[str]:
        return [self.browser.text(f"#{it}-turn") for it in PANELS]

    def test_the_turn_of_each_panel(self) -> None:
        self.open_tab("memory")
        self.open_tab("machine")
        self.assertEqual(self.marks(), [f"before turn {CURSOR}"] * 6)
        self.go(FAR)
        self.browser.wait("!document.querySelector('#work').hidden")
        self.assertEqual(self.marks(), [f"still before turn {CURSOR}"] * 6)
        self.wait_text("#sampled", "hatched isn't known yet")
        self.type_line("at 1000 tick")
        old = f"still before turn {CURSOR}, from before the last edit"
        self.assertEqual(self.marks(), [old] * 6)
        self.browser.click("#stop")
        self.wait_text("#reply", "Stopped")
        self.assertEqual(self.turn(), CURSOR)
        self.assertEqual(self.browser.value("document.querySelector('#turn').value"), str(CURSOR))
        self.wait_text("#difference", "wasn't compared")
        self.wait_still()
        self.assertNotIn("hatched", self.browser.text("#sampled"))


class Texts(PageCase):
    """A session that prints without an end."""

    def setUp(self) -> None:
        super().setUp()
        # MOVB #101,@#TPB and a branch back to it
        words = ("112737", "101", "177566", "774")
        lines = [f"core {0o1000 + 2 * at:o} {word}" for at, word in enumerate(words)]
        path = self.folder() / "prints.session"
        path.write_text("\n".join([*lines, "regs 100", ""]))
        self.give(path)

    def run_on(self) -> None:
        """Runs the machine from the cursor on for a moment."""
        self.browser.click("#terminal-run")
        self.wait_text("#terminal", "AAAA")
        self.browser.value("document.activeElement.blur()")
        self.wait_still()

    def test_what_runs_on_is_not_marked_as_changed(self) -> None:
        self.type_line("at 5 switches 1")
        self.run_on()
        end = self.turn()
        self.assertGreater(end, 100)
        self.type_line("at 6 switches 2")
        self.wait_text("#text-turn", f"before turn {end}")
        self.wait_still()
        self.assertNotIn("still", self.browser.text("#text-turn"))
        self.assertEqual(self.browser.value("document.querySelectorAll('#text ins').length"), 0)

    def test_the_console_keeps_no_text_that_was_undone(self) -> None:
        self.type_line("core 1002 102")
        self.browser.click("#terminal-run")
        self.wait_text("#terminal", "BBBB")
        self.browser.value("document.activeElement.blur()")
        self.wait_still()
        self.browser.click("#undo")
        self.browser.wait("document.querySelectorAll('#edits li').length === 0")
        self.wait_text("#terminal", "AAAA")
        self.assertNotIn("B", self.browser.text("#terminal"))


class Comparing(PageCase):
    def test_a_difference_that_is_gone_at_the_end(self) -> None:
        """An edit of the setup, which is as of turn 0, and a key that is moved far after it."""
        edits = ["delay punch 5", "alter 15 127165 key 66"]
        for line in edits:
            self.type_line(line)
        self.balance(SAFE)
        said = self.wait_text("#difference", "Drive 0")
        self.assertIn("The registers first differ before turn 127163.", said)
        asked = ["regs 127162", "regs 127163"]
        replies = replies_of([*ledger_lines()[:-2], *asked, *edits, *asked])
        self.assertEqual(replies[-6], replies[-2])
        self.assertNotEqual(replies[-5], replies[-1])


class Story(PageCase):
    def test_a_balance_of_before_an_edit_has_no_verdict(self) -> None:
        verdicts = "window.verdicts"
        self.browser.value(
            f"(() => {{ {verdicts} = []; new MutationObserver(() => {verdicts}.push("
            "document.querySelector('#verdict').textContent)).observe("
            "document.querySelector('#verdict'), {childList: true}); })()"
        )
        self.type_line("alter 15 127165 key 66")
        self.wait_text("#verdict", "nothing is lost")
        self.assertEqual(self.browser.value(f"{verdicts}[0]"), "the machine runs again")

    def test_other_deposits_have_no_verdict(self) -> None:
        self.type_line("disk 0 200")
        self.wait_text("#verdict", "there are other edits")


class Interrupts(PageCase):
    def test_all_of_the_run_are_found(self) -> None:
        """A lane has 100 rows in the table, and says how many more there are."""
        end = 238_614
        trails = [f"trail {min(it + 64, end)} {min(64, end - it)}" for it in range(0, end, 64)]
        said = "\n".join(replies_of([*ledger_lines()[:-2], *trails]))
        wanted = re.findall(r"^(\d+) [0-7]{6} irq ([0-7]{3})$", said, re.MULTILINE)
        self.wait_still()
        self.browser.click('[data-key="0"]')
        self.wait_text("#sampled", "PC and mode: the first of each ")
        self.assertNotIn("interrupts", self.browser.text("#sampled"))
        self.browser.click("#sight summary")
        self.wait_text("#sight", f"{len(wanted) - 100} rows of 'interrupt'")
        rows = self.browser.value(
            "[...document.querySelectorAll('#sight tbody tr')].map(it =>"
            "[...it.cells].map(cell => cell.textContent))"
        )
        shown = [(turn, what[:3]) for turn, lane, what in rows if lane == "interrupt"]
        self.assertEqual(shown, wanted[:100])


class ManyEvents(PageCase):
    def test_each_is_counted(self) -> None:
        path, count = self.folder() / "many.session", 2_000
        path.write_text("".join(f"at {5 * it} key 101\n" for it in range(count)) + "regs 10000\n")
        self.give(path)
        self.wait_still()
        self.wait_text(".marks", "\u00d7")
        marks = self.browser.value(
            "[...document.querySelectorAll('.marks button')].map(it => it.textContent)"
        )
        shown = sum(int(it[1:]) if it.startswith("\u00d7") else 1 for it in marks)
        self.assertEqual(shown, count)
        label = self.browser.value("document.querySelector('.mark.cluster').ariaLabel")
        self.assertRegex(label, r"^\d+ events in the turns 0 to \d+: zoom in$")
        self.browser.click(".mark.cluster")
        self.browser.wait("document.querySelector('[data-event=\"1\"]') !== null")

    def test_a_count_is_not_cut_at_the_edge(self) -> None:
        path = self.folder() / "many.session"
        path.write_text("at 1000 tick\n" * 1_000 + "regs 1000\n")
        self.give(path)
        self.wait_still()
        self.wait_text(".marks", "\u00d71000")
        right = "document.querySelector('{}').getBoundingClientRect().right"
        mark, edge = (self.browser.value(right.format(it)) for it in (".mark", "#timeline"))
        self.assertLessEqual(mark, edge)
