"""Edits switched off and on one by one, and pasts compared by name."""
from .page_case import LOST, SAFE, PageCase, ledger_lines, replies_of

PAST = ledger_lines()[:-2]
ASKED = ("regs 131000", "dsk 238614 0 1")
# Workers that are made from now on get nothing until they are let go.
HOLD = """(() => {
  const Native = Worker, held = [];
  let isHeld = true;
  window.Worker = class extends Native {
    postMessage(...words) {
      if (isHeld) held.push(() => super.postMessage(...words));
      else super.postMessage(...words);
    }
  };
  window.letGo = () => {
    isHeld = false;
    held.splice(0).forEach(it => it());
  };
})()"""


class PastsCase(PageCase):
    def count(self, wanted: int) -> None:
        self.browser.wait(f"document.querySelectorAll('#edits > li').length === {wanted}")

    def is_of(self, *edits: str) -> None:
        """The machine is that of the session with these edits."""
        replies = replies_of([*PAST, *edits, *ASKED])[-2:]
        for line, reply in zip(ASKED, replies):
            self.assertEqual(self.type_line(line), f"{line}: {reply}")


class Switching(PastsCase):
    def switch(self, number: int, said: str) -> str:
        self.browser.value("document.querySelector('#reply').textContent = ''")
        self.browser.click(f"#edits > li:nth-child({number}) input")
        return self.wait_text("#reply", said)

    def states(self) -> list[bool]:
        boxes = "[...document.querySelectorAll('#edits input')]"
        found = self.browser.value(f"{boxes}.map(it => it.checked)")
        return list(found)

    def test_an_edit_is_switched_off_and_on(self) -> None:
        lines = ["disk 0 200", "alter 15 127165 key 66", "core 30000 5"]
        for line in lines:
            self.type_line(line)
        self.count(3)
        self.switch(1, "disk 0 200: switched off")
        self.assertEqual(self.states(), [False, True, True])
        self.assertEqual(self.edits(), lines)
        self.balance(SAFE)
        self.is_of(*lines[1:])
        self.switch(2, "switched off")
        self.balance(LOST)
        self.is_of(lines[2])
        self.switch(1, "switched on")
        self.assertEqual(self.states(), [True, False, True])
        self.is_of(lines[0], lines[2])
        self.switch(2, "switched on")
        self.is_of(*lines)
        self.browser.click("#undo")
        self.count(2)

    def test_what_needs_it_is_switched_off_with_it(self) -> None:
        number = self.type_line("at 126900 key 67").split()[-1]
        self.type_line(f"alter {number} 127400 key 67")
        self.type_line("alter 15 127165 key 66")
        self.switch(1, f"and with it off: alter {number} 127400 key 67")
        self.assertEqual(self.states(), [False, False, True])
        self.is_of("alter 15 127165 key 66")
        self.switch(1, "switched on")
        self.switch(2, "switched on")
        self.assertEqual(self.states(), [True, True, True])
        self.is_of("at 127400 key 67", "alter 15 127165 key 66")

    def test_what_is_off_outlives_a_reload(self) -> None:
        number = int(self.type_line("at 126900 key 67").split()[-1])
        self.type_line("at 126950 key 61")
        self.type_line(f"alter {number} 127400 key 67")
        self.switch(1, "and with it off: ")
        self.browser.reload()
        self.count(3)
        self.wait_still()
        self.assertEqual(self.states(), [False, True, False])
        self.is_of("at 126950 key 61")
        self.switch(1, "switched on")
        self.switch(3, "switched on")
        self.is_of("at 126950 key 61", "at 127400 key 67")


class Names(PastsCase):
    def keep(self, name: str) -> None:
        self.fill("#keep-name", name)
        self.browser.key("Enter")
        self.wait_text("#reply", f"Kept as {name}")

    def choose(self, place: int) -> None:
        self.browser.value(
            "(() => { const it = document.querySelector('#compared-with');"
            f"it.selectedIndex = {place}; it.dispatchEvent(new Event('change')); }})()"
        )
        self.wait_still()

    def difference(self) -> list[list[str]]:
        found = self.browser.value(
            "[...document.querySelectorAll('#difference tbody tr')].map(it =>"
            "[...it.cells].map(cell => cell.textContent))"
        )
        return [list(it) for it in found]

    def test_two_pasts_are_compared_by_name(self) -> None:
        self.type_line("alter 15 127165 key 66")
        self.balance(SAFE)
        self.keep("safe")
        self.type_line("alter 15 126700 key 66")
        self.balance("143")
        self.keep("early")
        self.choose(1)
        self.wait_text("#legend-old", "in safe")
        (safe, early) = (
            replies_of([*PAST, f"alter 15 {turn} key 66", "dsk 238614 0 1"])[-1].split()[1]
            for turn in (127_165, 126_700)
        )
        self.wait_text("#difference", "Drive 0")
        self.wait_still()
        self.assertIn(["0000000", safe, early], self.difference())
        self.browser.click("#undo")
        self.balance(SAFE)
        self.wait_text("#difference", "The registers don't differ")
        self.choose(2)
        self.wait_text("#difference", "Drive 0")
        self.wait_still()
        self.assertIn(["0000000", early, safe], self.difference())
        self.choose(0)
        self.wait_text("#legend-old", "before your edits")
        self.wait_text("#difference", "Drive 0")
        self.wait_still()
        self.assertIn(["0000000", "000170", safe], self.difference())

    def test_a_comparison_that_comes_late_is_dropped(self) -> None:
        """The old past's machine comes once the edit is taken back: there is nothing to compare."""
        self.browser.value(HOLD)
        self.type_line("alter 15 127165 key 66")
        self.wait_text("#difference", "Comparing ..")
        self.browser.click("#undo")
        self.count(0)
        self.balance(LOST)
        self.browser.value("letGo()")
        self.wait_still()
        said = "Once you make an edit, this says what it changed."
        self.assertEqual(self.browser.text("#difference"), said)

    def test_what_another_test_kept_is_gone(self) -> None:
        self.keep("kept")
        self.setUp()
        names = "document.querySelector('#compared-with').textContent"
        self.assertEqual(self.browser.value(names), "as it was opened")

    def test_a_past_needs_a_name(self) -> None:
        self.browser.value("document.querySelector('#keep-form').requestSubmit()")
        self.wait_text("#reply", "Give the past a name")
        self.assertEqual(self.browser.value("document.querySelector('#compared-with').length"), 1)
