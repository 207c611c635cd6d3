"""Edits: the lost deposit comes back by dragging a key, typing a line, or keys alone."""
import json
import re

from .browser import ALT, CONTROL, SHIFT
from .page_case import KEY, LOST, SAFE, PageCase, ledger_lines, replies_of


class TheLostDeposit(PageCase):
    def test_the_page_tells_what_to_drag(self) -> None:
        self.balance(LOST)
        sentences = self.browser.value("document.querySelectorAll('#sentences li').length")
        self.assertEqual(sentences, 3)
        self.assertIn("Drag the key 6", re.sub(r"\s+", " ", self.browser.text("#sentences")))

    def test_a_drag_brings_the_deposit_back(self) -> None:
        self.balance(LOST)
        self.browser.drag(KEY, 110)
        self.balance(SAFE)
        self.browser.wait("document.querySelectorAll('#edits li').length === 1")
        (line,) = self.edits()
        self.assertRegex(line, r"^alter 15 127\d\d\d key 66$")
        self.assertIn("000145", self.wait_text("#text", "000145"))
        asked = ["text 238614", line, "text 238614"]
        before, _, after = replies_of([*ledger_lines()[:-2], *asked])[-3:]
        self.assertIn("=000137", before)
        self.assertIn("=000145", after)

    def test_a_finger_drags_too(self) -> None:
        self.balance(LOST)
        x, y = self.browser.middle(KEY)
        self.browser.touch("touchStart", (x, y))
        for by in range(10, 111, 20):
            self.browser.touch("touchMove", (x + by, y))
        self.browser.touch("touchEnd")
        self.balance(SAFE)
        self.browser.wait("document.querySelectorAll('#edits li').length === 1")

    def test_the_balance_changes_while_the_key_is_dragged(self) -> None:
        self.balance(LOST)
        self.wait_still()
        self.browser.drag(KEY, 110, is_let_go=False)
        self.balance(SAFE)
        self.assertEqual(self.edits(), [])
        self.assertIn("lanes are those before", self.browser.text("#sampled"))
        self.browser.key("Escape")
        self.balance(LOST)
        self.wait_still()
        self.assertNotIn("lanes", self.browser.text("#sampled"))
        self.assertEqual(self.edits(), [])

    def test_undo_and_redo(self) -> None:
        self.browser.drag(KEY, 110)
        self.browser.wait("document.querySelectorAll('#edits li').length === 1")
        (line,) = self.edits()
        self.browser.click("#undo")
        self.balance(LOST)
        self.browser.wait("document.querySelectorAll('#edits li').length === 0")
        self.browser.click("#redo")
        self.balance(SAFE)
        self.assertEqual(self.edits(), [line])

    def test_keys_alone(self) -> None:
        """A key that is held is one move: each time a turn, with shift 64, and one edit."""
        self.browser.value(f"document.querySelector('{KEY}').focus()")
        for _ in range(20):
            self.browser.key("ArrowRight", ALT, is_up=False)
        self.browser.key("ArrowRight", ALT, is_down=False)
        self.browser.wait("document.querySelectorAll('#edits li').length === 1")
        self.browser.key("Alt", is_up=False)
        for _ in range(4):
            self.browser.key("ArrowRight", ALT | SHIFT, is_up=False)
        self.balance(SAFE)
        self.browser.key("Alt", is_down=False)
        self.browser.wait("document.querySelectorAll('#edits li').length === 2")
        self.assertEqual(self.edits(), ["alter 15 126987 key 66", "alter 15 127243 key 66"])
        self.browser.wait("document.activeElement.dataset.event === '15'")
        self.browser.click("#undo")
        self.browser.click("#undo")
        self.browser.wait("document.querySelectorAll('#edits li').length === 0")
        self.balance(LOST)

    def strike(self, *keys: tuple[str, str]) -> None:
        """Strikes keys at a mark, without a pause: each is a kind of event and a name."""
        self.browser.value(
            f"(() => {{ const it = document.querySelector('{KEY}'); it.focus();"
            f"for (const [kind, key] of {json.dumps(keys)}) {{"
            "it.dispatchEvent(new KeyboardEvent(kind, {key, altKey: true, bubbles: true}));"
            "} })()"
        )

    def test_keys_in_quick_succession_are_one_move(self) -> None:
        self.strike(*20 * [("keydown", "ArrowRight"), ("keyup", "ArrowRight")])
        self.browser.wait("document.querySelectorAll('#edits li').length > 0")
        self.assertEqual(self.edits(), ["alter 15 126987 key 66"])

    def test_a_move_right_after_a_move(self) -> None:
        """The next move begins where the last one ended, though that edit is still under way."""
        self.strike(*3 * [("keydown", "ArrowRight"), ("keyup", "Alt")])
        self.browser.wait("document.querySelectorAll('#edits li').length === 3")
        self.assertEqual(self.edits()[-1], "alter 15 126970 key 66")

    def test_the_old_past_stays_in_grey(self) -> None:
        self.browser.drag(KEY, 110)
        self.wait_text("#difference", "Drive 0")
        rows = self.browser.value(
            "[...document.querySelectorAll('#difference tr')].map(it =>"
            "[...it.cells].map(cell => cell.textContent))"
        )
        self.assertIn(["word", "was", "is now"], rows)
        self.assertIn(["0000000", "000170", "000176"], rows)
        self.assertIn(["030000", "000170", "000176"], rows)
        self.assertEqual(self.wait_text(".mark.ghost", "6"), "6")
        self.wait_text("#difference", "first differ before turn ")
        line = self.edits()[0]
        found = re.search(r"before turn (\d+)", self.browser.text("#difference"))
        assert found
        turn = int(found[1])
        asked = [f"regs {turn - 1}", f"regs {turn}", line, f"regs {turn - 1}", f"regs {turn}"]
        replies = replies_of([*ledger_lines()[:-2], *asked])[-5:]
        self.assertEqual(replies[0], replies[3])
        self.assertNotEqual(replies[1], replies[4])

    def test_the_old_past_ends_where_both_are_the_same(self) -> None:
        """The key comes while the disk reads, and is taken a little later: nothing else changes."""
        self.skip_if_older("fades 5 drop 1")
        for line in ("alter 15 127100 key 66", "alter 15 127164 key 66"):
            self.type_line(line)
        self.wait_text("#difference", "From turn 127179 on the run is the old one again.")
        self.type_line("alter 15 127250 key 66")
        self.wait_text("#difference", "0000000000170000176")
        self.assertNotIn("again", self.browser.text("#difference"))

    def test_the_old_past_ends_where_a_patch_fades(self) -> None:
        """The disk is the first to write the word."""
        self.skip_if_older("fades 5 core 0 0")
        self.type_line("core 30000 5")
        self.wait_text("#difference", "From turn 18523 on the run is the old one again.")

    def skip_if_older(self, line: str) -> None:
        if "refused 10" in self.type_line(line):
            self.skipTest("search.wasm is older than this line fades")


class Lines(PageCase):
    def test_an_event_is_typed(self) -> None:
        said = self.type_line("alter 15 127165 key 66")
        self.assertIn(": ok", said)
        self.balance(SAFE)

    def test_a_refused_line_changes_nothing(self) -> None:
        said = self.type_line("alter 99 5 key 66")
        self.assertIn("refused 5 NoSuchEvent", said)
        self.balance(LOST)
        self.assertEqual(self.edits(), [])

    def test_a_question_is_answered(self) -> None:
        said = self.type_line("dsk 238614 0 1")
        self.assertIn("dsk 000170", said)

    def test_an_event_that_was_taken_out_is_the_same_again(self) -> None:
        """With its number the story has its steps, its target, and what it says of the balance."""
        def shown() -> list[str]:
            self.wait_text("#verdict", "a deposit of 6 is lost; it should be 145")
            self.browser.wait("document.querySelectorAll('#steps li').length === 4")
            self.wait_still()
            texts = "['events', 'steps', 'verdict', 'difference'].map(it => find(it).textContent)"
            asked = f"[...{texts}, find('line').placeholder, find('happened').hidden]"
            return list(self.browser.value(f"(find => {asked})(it => document.getElementById(it))"))

        before, events = shown(), self.type_line("events")
        self.browser.value("""document.querySelector('[data-name="take out 6"]').click()""")
        self.browser.wait("document.querySelectorAll('#edits li').length === 1")
        self.assertEqual(self.edits(), ["drop 6"])
        self.browser.click("#undo")
        self.wait_text("#reply", "undone")
        self.assertEqual([*shown(), self.type_line("events")], [*before, events])

    def test_typed_undo_and_redo_are_those_of_the_buttons(self) -> None:
        before = self.type_line("events")
        self.type_line("drop 15")
        for line, said, edits in (("undo", "undone", []), ("redo ", "made again", ["drop 15"])):
            self.fill("#line", line)
            self.browser.key("Enter")
            self.wait_text("#reply", said)
            self.assertEqual(self.edits(), edits)
            self.assertEqual(self.type_line("events") == before, edits == [])

    def test_edits_of_before_a_machine_that_begins_anew_are_made_again(self) -> None:
        for line in ("version 2", "drop 15"):
            self.type_line(line)
        for button, said in (("undo", "undone"), ("redo", "made again")):
            for _ in range(2):
                self.browser.value("document.querySelector('#reply').textContent = ''")
                self.browser.click(f"#{button}")
                self.wait_text("#reply", said)
        self.assertEqual(self.edits(), ["version 2", "drop 15"])
        self.wait_text("#events-count", "26 events")
        self.browser.click("#edits li:nth-child(1) input")
        said = self.wait_text("#reply", "switched off")
        self.assertEqual(said, "version 2: switched off")
        self.wait_text("#events-count", "26 events")

    def test_all_edits_are_undone_and_made_again(self) -> None:
        """No line takes back a tape, or an event that was taken out."""
        count = "document.querySelectorAll('#edits li').length === {}"
        number = self.type_line("at 5 key 101").split()[-1]
        lines = ["disk 0 200", "tape 101", "core 1000 0", f"alter {number} 6 key 102", "drop 3"]
        for line in [*lines, "delay disk 300"]:
            self.type_line(line)
        self.browser.wait(count.format(7))
        self.wait_still()
        asked = "regs 238614"
        edited = self.type_line(asked)
        for left in range(6, -1, -1):
            self.browser.click("#undo")
            self.browser.wait(count.format(left))
        self.balance(LOST)
        self.assertIn("000170", self.type_line("dsk 238614 0 1"))
        for done in range(1, 8):
            self.browser.click("#redo")
            self.browser.wait(count.format(done))
        self.assertEqual(self.type_line(asked), edited)

    def wait_edits(self, count: int) -> None:
        self.browser.wait(f"document.querySelectorAll('#edits li').length === {count}")

    def test_control_z_undoes_and_control_y_makes_again(self) -> None:
        """Wherever the focus is; but in a field what was typed and isn't entered comes first."""
        for line in ("disk 0 101", "disk 0 102"):
            self.type_line(line)
        self.browser.key("z", CONTROL)
        self.wait_edits(1)
        self.browser.click("#events [data-turn='3000']")
        self.browser.key("z", CONTROL)
        self.wait_edits(0)
        self.browser.click("#turns")
        self.browser.key("y", CONTROL)
        self.wait_edits(1)
        self.browser.key("Z", CONTROL | SHIFT)
        self.wait_edits(2)
        self.fill("#line", "regs 5")
        self.browser.key("z", CONTROL)
        self.browser.wait("document.querySelector('#line').value !== 'regs 5'")
        self.wait_still()
        self.assertEqual(self.edits(), ["disk 0 101", "disk 0 102"])
        while self.browser.value("document.querySelector('#line').value"):
            self.browser.key("z", CONTROL)
        self.browser.key("z", CONTROL)
        self.wait_edits(1)

    def test_the_last_undo_keeps_the_focus(self) -> None:
        self.type_line("disk 0 101")
        self.browser.click("#undo")
        self.wait_edits(0)
        self.wait_still()
        self.assertEqual(self.browser.value("document.activeElement.id"), "undo")
        self.browser.value("document.querySelector('#reply').textContent = 'as before'")
        self.browser.key("Enter")
        self.wait_still()
        self.assertEqual(self.browser.text("#reply"), "as before")
        self.browser.click("#redo")
        self.wait_edits(1)
        self.wait_still()
        self.assertEqual(self.browser.value("document.activeElement.id"), "redo")

    def test_enter_on_an_event_opens_it(self) -> None:
        self.browser.value(f"document.querySelector('{KEY}').focus()")
        self.browser.key("Enter")
        line = self.browser.value("document.querySelector('#line').value")
        self.assertEqual(line, "alter 15 126967 key 66")
