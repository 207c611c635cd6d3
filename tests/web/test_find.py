"""Searches in both directions, and steps over, out of and to an instruction."""
import re
from typing import Optional

from .page_case import PageCase, ledger_lines, replies_of

PAST = ledger_lines()[:-2]
END, CURSOR = 238_614, 126_967


def replies(*lines: str) -> list[str]:
    return replies_of([*PAST, *lines])[-len(lines) :]


class FindCase(PageCase):
    def look(self, kind: str, what: str, button: str, from_turn: int = CURSOR) -> Optional[int]:
        """The turn that is found from a turn on; None if none is."""
        self.browser.value(
            f"document.querySelector('#turn').value = '{from_turn}';"
            "document.querySelector('#turn-form').requestSubmit();"
            f"document.querySelector('#find-kind').value = '{kind}';"
            f"document.querySelector('#find-what').value = {what!r};"
            "document.querySelector('#find-said').textContent = ''"
        )
        self.browser.value(f"document.querySelector('{button}').click()")
        self.browser.wait("document.querySelector('#find-said').textContent !== ''")
        said = self.browser.text("#find-said")
        found = re.fullmatch(r"Turn (\d+)\.", said)
        if not found:
            self.assertIn("None ", said)
            return None
        self.assertEqual(self.turn(), int(found[1]))
        return int(found[1])

    def after(self, kind: str, what: str, turn: int = CURSOR) -> Optional[int]:
        return self.look(kind, what, "#find-form button:last-of-type", turn)

    def before(self, kind: str, what: str, turn: int = CURSOR) -> Optional[int]:
        return self.look(kind, what, "#find-before", turn)

    def test_instructions(self) -> None:
        first, last = replies(f"first {CURSOR + 1} {END} at 1346", f"latest 0 {CURSOR} at 1346")
        self.assertEqual(self.after("at", "TAKE"), int(first.split()[1]))
        self.assertEqual(self.before("at", "1346 kernel"), int(last.split()[1]))
        self.assertIsNone(self.after("at", "1346 user"))

    def test_writes_of_core(self) -> None:
        (last,) = replies(f"last {CURSOR} 30000")
        self.assertEqual(self.after("write", "clerk A's balance"), 127_125)
        self.assertEqual(self.before("write", "30000"), int(last.split()[1]))
        self.assertIsNone(self.before("write", "core 30000", 5))

    def test_writes_of_a_drive(self) -> None:
        """Back too: of all changes before the turn the last one."""
        changes: list[int] = []
        while True:
            begin = changes[-1] + 1 if changes else 0
            (reply,) = replies(f"change {begin} {END} 0")
            if reply == "change none":
                break
            changes.append(int(reply.split()[1]))
        middle = changes[len(changes) // 2]
        place = changes.index(middle)
        self.assertEqual(self.before("write", "disk 0", middle), changes[place - 1])
        self.assertEqual(self.after("write", "the ledger", middle), changes[place + 1])
        self.assertIsNone(self.before("write", "disk 0", changes[0]))

    def test_interrupts_and_traps(self) -> None:
        asked = [f"first {CURSOR + 1} {END} vector 100", f"latest 0 {CURSOR} trap 30"]
        clock, trap = (it.split()[1] for it in replies(*asked))
        self.assertEqual(self.after("vector", "clock"), int(clock))
        self.assertEqual(self.before("vector", "30"), int(trap) if trap != "none" else None)
        self.assertIsNone(self.after("vector", "reader"))

    def test_text_on_the_console(self) -> None:
        found = self.after("text", "=000137")
        assert found
        before, after = replies(f"text {found}", f"text {found + 1}")
        self.assertEqual(after.split(":", 1)[1], before.split(":", 1)[1] + "=")
        (whole,) = replies(f"text {found + 50 * 20}")
        self.assertTrue(whole.split(":", 1)[1].startswith(after.split(":", 1)[1] + "000137"))
        self.assertIsNone(self.after("text", "=000137", found))
        self.assertEqual(self.before("text", "=000137", found + 1), found)
        self.assertIsNone(self.before("text", "=000137", found))

    def test_conditions(self) -> None:
        where = "user and R0 = 6"
        first, last = replies(
            f"first {CURSOR + 1} {END} where {where}", f"latest 0 {CURSOR} where {where}"
        )
        self.assertEqual(self.after("where", where), int(first.split()[1]))
        wanted = None if last.endswith("none") else int(last.split()[1])
        self.assertEqual(self.before("where", where), wanted)

    def test_what_can_not_be_found_is_told(self) -> None:
        for kind, what, said in (
            ("at", "NOWHERE", "no symbol has this name"),
            ("vector", "lamp", "a vector is octal"),
            ("write", "disk 9", "a word is named"),
            ("where", "R9 = 5", "it isn't a line of the session language"),
        ):
            self.browser.value(
                f"document.querySelector('#find-kind').value = '{kind}';"
                f"document.querySelector('#find-what').value = {what!r};"
                "document.querySelector('#find-form').requestSubmit()"
            )
            self.wait_text("#find-said", said)
        self.assertEqual(self.turn(), CURSOR)


class Stepping(PageCase):
    fragment = "#turn=126840&from=126300&turns=2600"

    def go(self, turn: int) -> None:
        self.fill("#turn", str(turn))
        self.browser.key("Enter")
        self.wait_text("#instructions-turn", f"before turn {turn}")
        self.wait_still()

    def registers(self, turn: int) -> dict[str, int]:
        words = replies(f"regs {turn}")[0].split()
        return {name: int(word, 8) for name, word in zip(words[:-1:2], words[1::2])}

    def test_over_an_interrupt_and_out_of_it(self) -> None:
        """The keyboard's interrupt: both lead to where its routine has returned."""
        (found,) = replies(f"first 126830 {END} vector 60")
        turn = int(found.split()[1])
        before = self.registers(turn)
        after = next(
            it for it in range(turn + 1, turn + 400) if self.registers(it)["PC"] == before["PC"]
        )
        self.go(turn)
        self.browser.click("#step-over")
        self.browser.wait(f"document.querySelector('#turn').value === '{after}'")
        self.assertIn("interrupt 060 keyboard has returned", self.browser.text("#step-said"))
        self.go(turn + 3)
        self.browser.click("#step-out")
        self.browser.wait(f"document.querySelector('#turn').value === '{after}'")
        said = "after RTI, out of interrupt 060 keyboard."
        self.assertIn(said, self.wait_text("#step-said", "after"))

    def test_over_what_is_no_call(self) -> None:
        self.go(126_961)
        self.browser.click("#step-over")
        self.browser.wait("document.querySelector('#turn').value === '126962'")

    def test_on_to_an_instruction_and_back(self) -> None:
        turn = 126_966
        self.go(turn)
        on = "#instructions button[aria-label^='On to the instruction at 001514']"
        asked = [f"first {turn + 1} {END} at 1514 kernel", f"latest 0 {turn} at 1514 kernel"]
        first, last = (int(it.split()[1]) for it in replies(*asked))
        self.browser.click(on)
        self.browser.wait(f"document.querySelector('#turn').value === '{first}'")
        self.go(turn)
        self.browser.click(on.replace("On", "Back"))
        self.browser.wait(f"document.querySelector('#turn').value === '{last}'")
