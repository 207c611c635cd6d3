"""Pasts with names that outlive the page, and that can be gone to."""
from .page_case import LOST, SAFE, PageCase, ledger_lines, replies_of

PAST = ledger_lines()[:-2]
# A browser that keeps nothing: the page's script runs after this one.
REFUSES = (
    "Storage.prototype.setItem = Storage.prototype.getItem = () => { throw new Error('none'); }"
)


class Stored(PageCase):
    def keep(self, name: str) -> None:
        self.fill("#keep-name", name)
        self.browser.key("Enter")
        self.wait_text("#reply", f"Kept as {name}")

    def choose(self, name: str) -> None:
        self.browser.value(
            "(() => { const it = document.querySelector('#compared-with'); it.selectedIndex ="
            f"[...it.options].findIndex(option => option.text === {name!r});"
            "it.dispatchEvent(new Event('change')); })()"
        )
        self.wait_still()

    def names(self) -> list[str]:
        found = self.browser.value(
            "[...document.querySelectorAll('#compared-with option')].map(it => it.text)"
        )
        return list(found)

    def go(self, name: str) -> str:
        self.choose(name)
        self.browser.click("#past-go")
        said = self.wait_text("#reply", f"This is the past {name} now.")
        self.wait_still()
        return said

    def test_pasts_outlive_the_page(self) -> None:
        self.type_line("alter 15 127165 key 66")
        self.balance(SAFE)
        self.keep("safe")
        number = self.type_line("at 5 switches 1").split()[-1]
        self.type_line(f"alter {number} 6 switches 2")
        self.keep("switched")
        self.browser.open(self.address)
        self.wait_still()
        self.assertEqual(self.edits(), [])
        self.assertEqual(self.names(), ["as it was opened", "safe", "switched"])
        self.choose("safe")
        self.wait_text("#legend-old", "in safe")
        lines = ["dsk 238614 0 1", "alter 15 127165 key 66", "dsk 238614 0 1"]
        opened, _, safe = (it.split()[-1] for it in replies_of([*PAST, *lines])[-3:])
        self.wait_text("#difference", "Drive 0")
        self.wait_still()
        self.assertIn(opened, self.browser.text("#difference"))
        self.assertIn(safe, self.browser.text("#difference"))
        self.assertEqual(self.go("switched").count("."), 1)
        self.assertEqual(len(self.edits()), 3)
        self.balance(SAFE)
        (wanted,) = replies_of([*PAST, lines[1], "at 6 switches 2", "regs 131000"])[-1:]
        self.assertEqual(self.type_line("regs 131000"), f"regs 131000: {wanted}")

    def test_what_is_left_is_kept(self) -> None:
        self.type_line("alter 15 127165 key 66")
        self.keep("safe")
        self.browser.click("#undo")
        self.balance(LOST)
        self.type_line("disk 0 101")
        self.assertIn("is kept as what you left", self.go("safe"))
        self.balance(SAFE)
        self.assertNotIn("is kept", self.go("what you left"))
        self.assertEqual(self.edits(), ["disk 0 101"])
        self.assertNotIn("is kept", self.go("as it was opened"))
        self.assertEqual(self.edits(), [])

    def test_what_is_compared_with_stays_after_a_reload(self) -> None:
        """Also if there are no edits; a past that is gone is compared with no longer."""
        self.type_line("disk 0 101")
        self.keep("one")
        self.choose("one")
        self.browser.click("#undo")
        self.wait_text("#difference", "Drive 0")
        self.wait_still()
        chosen = "document.querySelector('#compared-with').selectedOptions[0].text"
        for name in ("one", "as it was opened"):
            self.browser.reload()
            self.wait_still()
            self.assertEqual(self.browser.value(chosen), name)
            self.browser.forget()
        self.assertEqual(self.browser.text("#legend-old"), "before your edits")

    def test_a_past_is_forgotten(self) -> None:
        self.type_line("disk 0 101")
        self.keep("one")
        self.choose("one")
        self.browser.click("#past-forget")
        self.wait_text("#reply", "Forgotten: one.")
        self.assertEqual(self.names(), ["as it was opened"])
        self.assertEqual(self.browser.value("document.activeElement.id"), "compared-with")
        self.assertTrue(self.browser.value("document.querySelector('#past-forget').disabled"))
        self.browser.open(self.address)
        self.assertEqual(self.names(), ["as it was opened"])

    def test_without_storage_they_stay_until_a_reload(self) -> None:
        self.browser.value(f"{REFUSES}; null")
        self.type_line("alter 15 127165 key 66")
        self.keep("safe")
        self.browser.click("#undo")
        self.balance(LOST)
        self.go("safe")
        self.balance(SAFE)
        self.assertIn("safe", self.names())

    def test_what_was_stored_by_others_is_left_out(self) -> None:
        self.type_line("disk 0 101")
        self.keep("one")
        self.browser.value(
            "for (const key of Object.keys(localStorage)) localStorage.setItem(key,"
            "JSON.stringify([{name: 'bad', lines: ['regs 5'], changes: [], end: 0}]))"
        )
        self.browser.open(self.address)
        self.assertEqual(self.names(), ["as it was opened"])
