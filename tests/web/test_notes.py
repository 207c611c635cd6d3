"""Notes: pinned to turns by pointer, keys and touch, kept by the tab, in saved sessions and pages;
one of another past says so."""
from .page_case import KEY, LOST, SAFE, PageCase

NOTES = (
    "[...document.querySelectorAll('#note-list li')].map(it =>"
    " [it.children[0].textContent, it.children[1].textContent])"
)
PINS = "[...document.querySelectorAll('.pin')].map(it => [it.dataset.turn, it.title])"
BEGUN = [
    ["turn 127125", "clerk A read 130"],
    ["turn 127131", "the tick of the clock came"],
    ["turn 127636", "clerk B read 130 and wrote 136"],
    ["turn 128066", "clerk A wrote 132 over it"],
]
OWN = ["turn 127300", "here it reads caf\u00e9"]


class Notes(PageCase):
    def notes(self) -> list[list[str]]:
        return [list(it) for it in self.browser.value(NOTES)]

    def note(self, turn: int, text: str) -> None:
        self.fill("#turn", str(turn))
        self.browser.key("Enter")
        self.fill("#note-text", text)
        self.browser.key("Enter")
        self.wait_text("#reply", f"Noted at turn {turn}.")

    def test_those_of_the_session(self) -> None:
        self.assertEqual(self.notes(), BEGUN)
        pins = [[turn, f"Note at turn {turn}: {text}"] for (_, turn), text in
                ((it[0].split(), it[1]) for it in BEGUN)]
        self.assertEqual(self.browser.value(PINS), pins)

    def test_a_pin_by_pointer_and_by_touch(self) -> None:
        self.browser.click(".pin:nth-child(3)")
        self.assertEqual(self.turn(), 127_636)
        self.assertEqual(self.browser.text("#noted"), "\u2691 clerk B read 130 and wrote 136")
        self.browser.size(400, 800)
        x, y = self.browser.middle(".pin:nth-child(4)")
        self.browser.touch("touchStart", (x, y))
        self.browser.touch("touchEnd")
        self.wait_text("#noted", "clerk A wrote 132 over it")
        self.assertEqual(self.turn(), 128_066)

    def test_by_keys(self) -> None:
        self.browser.key("m")
        self.assertEqual(self.browser.value("document.activeElement.id"), "note-text")
        self.browser.type("m it")
        self.browser.key("Enter")
        self.wait_text("#note-list", "m it")
        self.browser.value("document.querySelector('.pin').focus()")
        self.browser.key("ArrowRight")
        self.browser.key("Enter")
        self.wait_text("#noted", "clerk A read 130")
        self.assertEqual(self.turn(), 127_125)

    def test_one_is_added_and_taken_away(self) -> None:
        self.note(127_300, OWN[1])
        self.assertEqual(self.notes(), sorted([*BEGUN, OWN]))
        self.browser.click("#note-list li:nth-child(3) button:last-child")
        self.assertEqual(self.notes(), BEGUN)
        left = self.browser.value("document.querySelector('#note-text').value")
        self.assertEqual(left, OWN[1])

    def test_what_is_too_long_stays_in_the_field(self) -> None:
        text = "\u00e9" * 91
        self.fill("#note-text", text)
        self.browser.key("Enter")
        self.wait_text("#reply", "A note has at most 180 bytes, and this 182.")
        self.assertEqual(self.browser.value("document.querySelector('#note-text').value"), text)
        self.assertEqual(self.notes(), BEGUN)

    def test_one_of_another_past_says_so(self) -> None:
        self.browser.drag(KEY, 110)
        self.balance(SAFE)
        self.wait_still()
        others = [[turn, f"{text} (of another past)"] for turn, text in BEGUN]
        self.assertEqual(self.notes(), others)
        self.note(127_300, OWN[1])
        self.assertEqual(self.notes()[2], OWN)
        self.browser.click("#undo")
        self.balance(LOST)
        self.wait_still()
        self.assertEqual(self.notes()[:2] + self.notes()[3:], BEGUN)
        self.assertEqual(self.notes()[2], [OWN[0], f"{OWN[1]} (of another past)"])

    def test_they_are_kept_and_saved(self) -> None:
        self.note(127_300, OWN[1])
        wanted = sorted([*BEGUN, OWN])
        self.browser.reload()
        self.balance(LOST)
        self.assertEqual(self.notes(), wanted)
        session, page = self.saved("#save"), self.saved("#save-page")
        self.assertIn(f"# note 127300 {OWN[1]}", session.read_text().splitlines())
        self.browser.open(page.as_uri())
        self.balance(LOST)
        self.assertEqual(self.notes(), wanted)
        self.give(session)
        self.wait_still()
        self.assertEqual(self.notes(), wanted)
