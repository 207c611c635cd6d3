"""The console pane and the sweep."""
import json

from .page_case import PageCase, ledger_lines, replies_of

# echoes what is typed: TSTB @#TKS; BPL .-4; MOVB @#TKB,R0; MOVB R0,@#TPB; BR to the start
ECHO = ("105737", "177560", "100375", "113700", "177562", "110037", "177566", "770")


class TheConsole(PageCase):
    def setUp(self) -> None:
        super().setUp()
        path = self.folder() / "echo.session"
        lines = [f"core {0o1000 + 2 * at:o} {word}" for at, word in enumerate(ECHO)]
        path.write_text("\n".join([*lines, "regs 100", ""]))
        self.give(path)
        self.wait_text("#session-name", "echo")

    def begin(self) -> None:
        """Enter in the pane runs the machine."""
        self.browser.look_at("#terminal")
        self.browser.value("document.querySelector('#terminal').focus()")
        self.browser.key("Enter")
        self.wait_text("#terminal-status", "before turn ")

    def lines(self) -> list[str]:
        found = self.browser.value(
            "[...document.querySelectorAll('#edits code')].map(it => it.textContent)"
        )
        return list(found)

    def test_a_typed_line_is_one_undo(self) -> None:
        """Each key is an event, and comes back."""
        self.begin()
        self.browser.type("hi")
        self.browser.key("Enter")
        self.browser.type("a")
        self.wait_text("#terminal", "hi\u00b7a")
        self.browser.key("Tab")
        self.browser.wait("document.activeElement.id !== 'terminal'")
        self.browser.wait("document.querySelectorAll('#edits > li').length === 2")
        lines = self.lines()
        self.assertEqual([it.split()[-1] for it in lines], ["150", "151", "15", "141"])
        echo = [f"core {0o1000 + 2 * at:o} {word}" for at, word in enumerate(ECHO)]
        turn = int(lines[-1].split()[1]) + 100
        self.assertEqual(replies_of([*echo, *lines, f"text {turn}"])[-1], "text 4:hi\\015a")
        for left in (3, 0):
            self.browser.click("#undo")
            self.browser.wait(f"document.querySelectorAll('#edits code').length === {left}")
        self.assertEqual(self.lines(), [])
        self.browser.click("#redo")
        self.browser.wait("document.querySelectorAll('#edits code').length === 3")
        self.wait_still()

    def test_what_is_told_while_keys_are_typed(self) -> None:
        """An edit was made, which is compared later; no example names what isn't there."""
        examples = "['line', 'find-what', 'inspect-from'].map(it => field(it).placeholder)"
        examples = examples.replace("field(it)", "document.getElementById(it)")
        self.assertEqual(self.browser.value(examples), ["at 1000 key 101", "1000", "1000"])
        self.assertIn("Once you make an edit", self.browser.text("#difference"))
        self.begin()
        self.browser.type("h")
        # (a look at another tab would end the console)
        says = "document.querySelector('#{}').textContent.includes('{}')"
        ends = "Once the console ends, this says what its keys changed."
        self.browser.wait(says.format("difference", ends))
        self.browser.wait(says.format("events-count", "1 event"))
        (line,) = self.lines()
        turn = int(line.split()[1])
        # (a key in turn 0 can only come later)
        self.assertEqual(self.browser.value(examples)[0], f"alter 1 {abs(turn - 1)} key 150")
        self.assertIn("before the last edit", self.browser.text("#text-turn"))
        self.browser.key("Tab")
        self.wait_text("#difference", "The registers first differ before turn ")
        self.wait_still()

    def test_it_runs_by_a_button_or_enter_while_it_has_the_focus(self) -> None:
        self.browser.look_at("#speed")
        self.browser.value("document.querySelector('#speed').focus()")
        before = self.turn()
        for there in ("terminal-screen", "terminal"):
            self.browser.key("Tab")
            self.assertEqual(self.browser.value("document.activeElement.id"), there)
        self.browser.type("a")
        self.browser.value("new Promise(it => setTimeout(it, 200))")
        self.assertEqual((self.turn(), self.lines()), (before, []), "Tab ran the machine")
        self.browser.click("#terminal-run")
        # (the first text is that of the turn where it begins)
        status = "document.querySelector('#terminal-status').textContent"
        self.browser.wait(f"{status} && !{status}.startsWith('before turn {before},')")
        self.browser.value("document.querySelector('#terminal').blur()")
        self.wait_still()
        before = self.turn()
        self.assertGreater(before, 0)
        self.browser.value("new Promise(it => setTimeout(it, 200))")
        self.assertEqual(self.turn(), before)

    def test_keys_that_move_the_cursor_are_typed_here(self) -> None:
        self.begin()
        self.browser.type("+0-")
        self.wait_text("#terminal", "+0-")
        self.browser.value("document.querySelector('#terminal').blur()")
        self.wait_still()


class TheSweep(PageCase):
    def sweep(self, first: int, last: int) -> None:
        self.browser.value(
            f"(() => {{ document.querySelector('#sweep-from').value = '{first}';"
            f"document.querySelector('#sweep-to').value = '{last}';"
            "document.querySelector('#sweep-form').requestSubmit(); })()"
        )

    def test_turns_with_equal_outcomes(self) -> None:
        """As `sweep 15 from 126820 to 126840` of explore has them."""
        self.sweep(126_820, 126_840)
        said = self.wait_text("#sweep-said", "21 of 21 turns: each was tried.")
        self.assertIn("Outcomes of dsk 238614 0 1: 2.", said)
        rows = self.browser.value(
            "[...document.querySelectorAll('#sweep-found tbody tr')].map(it =>"
            "[...it.cells].map(cell => cell.textContent))"
        )
        turns = [it[1] for it in rows]
        self.assertEqual(turns, ["126820 to 126829", "126830 to 126832", "126833 to 126840"])
        self.assertEqual(rows[0][::2], rows[-1][::2])
        lines = ledger_lines()[:-2]
        for row in rows:
            turn = row[1].split()[0]
            asked = [f"alter 15 {turn} key 66", "dsk 238614 0 1"]
            self.assertEqual(replies_of([*lines, *asked])[-1], row[2])
        self.browser.click("#sweep-found tbody tr:nth-child(2) .link")
        self.browser.wait("document.querySelectorAll('#edits li').length === 1")
        self.assertEqual(self.edits(), ["alter 15 126830 key 66"])
        self.assertIn("126820", self.browser.text("#sweep-found"))

    def test_an_event_is_not_moved_in_its_own_turn(self) -> None:
        """There it comes before the other of its turn: the machine has the second key's byte."""
        path = self.folder() / "two.session"
        path.write_text("at 5 key 101\nat 5 key 102\nregs 8\n")
        self.give(path)
        self.fill("#sweep-event", "1")
        self.fill("#sweep-question", "devices 8")
        self.sweep(4, 6)
        self.wait_text("#sweep-said", "3 of 3 turns")
        rows = self.browser.value(
            "[...document.querySelectorAll('#sweep-found tbody tr')].map(it => it.innerText)"
        )
        lines = ["at 5 key 101", "at 5 key 102", "devices 8", "alter 1 6 key 101", "devices 8"]
        *_, unmoved, _, later = replies_of(lines)
        self.assertIn("TKB 000102", unmoved)
        self.assertIn("TKB 000101", later)
        turns = [it.split("\t")[1] for it in rows]
        self.assertEqual(turns, ["4 to 5", "6 to 6"])

    def test_it_can_be_stopped(self) -> None:
        self.sweep(100_000, 119_000)
        self.wait_text("#sweep-said", " of 19001 turns: tried so far")
        self.browser.wait("document.querySelector('#sweep-found tbody tr') !== null")
        self.browser.click("#sweep-stop")
        self.wait_still()
        self.assertIn("between them isn't known", self.browser.text("#sweep-said"))

    def test_a_row_that_stays_is_left_in_place(self) -> None:
        """So a press on it and the release are one click, though outcomes come in between."""
        self.sweep(100_000, 119_000)
        self.browser.wait("(window.row = document.querySelector('#sweep-found .link')) !== null")
        said = json.dumps(self.browser.text("#sweep-said"))
        self.browser.wait(f"document.querySelector('#sweep-said').textContent !== {said}")
        self.assertTrue(self.browser.value("window.row.isConnected"))
        self.browser.click("#sweep-stop")
        self.wait_still()

    def test_another_edit_takes_the_outcomes_away(self) -> None:
        self.sweep(126_600, 126_603)
        self.wait_text("#sweep-said", "4 of 4 turns")
        self.type_line("drop 3")
        self.browser.wait("document.querySelector('#sweep-found').textContent === ''")

    def test_a_wrong_form_is_told(self) -> None:
        self.sweep(126_600, 5)
        self.wait_text("#sweep-said", "two turns")
        for line, said in (
            ("drop 3", "Ask a question"),
            ("undo", "Ask a question"),
            ("", "Ask a question"),
            ("regs 2000000000", "refused 7 TurnTooLarge"),
            ("mem 1000000000 1001 1", "refused 3 OddAddress"),
        ):
            self.fill("#sweep-question", line)
            self.sweep(126_600, 126_603)
            self.wait_text("#sweep-said", said)
        self.assertEqual(self.edits(), [])

    def test_an_event_that_is_gone_is_no_other(self) -> None:
        self.wait_text("#sweep-chosen", "key 66 '6' at 126967")
        self.type_line("drop 15")
        self.wait_text("#sweep-chosen", "no event")
        self.sweep(126_600, 126_603)
        self.wait_text("#sweep-said", "No event has this number")

    def test_the_form_is_emptied_with_the_session(self) -> None:
        path = self.folder() / "other.session"
        path.write_text("at 5 tick\nregs 9\n")
        self.give(path)
        self.wait_text("#session-name", "other")
        fields = "['event', 'from', 'to', 'question'].map(it => `#sweep-${it}`)"
        values = f"{fields}.map(it => document.querySelector(it).value)"
        self.assertEqual(self.browser.value(values), ["", "", "", "text 9"])
