"""Events without the language: made, moved and taken out by a form, a list and keys."""
from .browser import ALT
from .page_case import KEY, LOST, PageCase, ledger_lines, replies_of

PAST = ledger_lines()[:-2]
CURSOR = 126_967
ROWS = (
    "[...document.querySelectorAll('#events tbody tr')].map(it =>"
    "[...it.cells].map(cell => cell.textContent))"
)

MARKS_OF_THE_TURN = (
    f"[...document.querySelectorAll('button.mark')].filter(it => it.dataset.turn === '{CURSOR}')"
)
OVERLAPS = """(boxes => boxes.flatMap((one, at) => boxes.slice(at + 1).filter(other =>
  one.left < other.right && other.left < one.right && one.top < other.bottom
  && other.top < one.bottom)))([...document.querySelectorAll('.mark')]
  .map(it => it.getBoundingClientRect()))"""
# The last event of the cursor's turn is in the part of the list that is shown.
ADDED_IS_SEEN = f"""(() => {{
  const row = [...document.querySelectorAll("#events [data-turn='{CURSOR}']")].at(-1);
  const list = document.querySelector('#events').getBoundingClientRect();
  const {{top, bottom}} = row.getBoundingClientRect();
  return top >= list.top - 1 && bottom <= list.bottom + 1;
}})()"""


class Events(PageCase):
    def add(self, kind: str, value: str = "") -> None:
        self.browser.value(
            f"(() => {{ const it = document.querySelector('#event-kind'); it.value = '{kind}';"
            "it.dispatchEvent(new Event('change')); })()"
        )
        if value:
            self.fill("#event-value", value)
        self.browser.value("document.querySelector('#event-form').requestSubmit()")

    def rows(self) -> list[list[str]]:
        return list(self.browser.value(ROWS))

    def test_each_kind_is_added_at_the_cursor(self) -> None:
        wanted = []
        for kind, value, line in (
            ("key", "A", "key 101"),
            ("key", "Enter", "key 15"),
            ("key", "Ctrl-C", "key 3"),
            ("tick", "", "tick"),
            ("switches", "177777", "switches 177777"),
            ("continue", "", "continue"),
            ("disk", "", "disk"),
        ):
            self.add(kind, value)
            wanted.append(f"at {CURSOR} {line}")
            self.browser.wait(f"document.querySelectorAll('#edits li').length === {len(wanted)}")
        self.assertEqual(self.edits(), wanted)
        lines = [*PAST, *wanted, "regs 130000", "text 238614"]
        for line, reply in zip(lines[-2:], replies_of(lines)[-2:]):
            self.assertEqual(self.type_line(line), f"{line}: {reply}")

    def test_a_value_that_is_none_is_told(self) -> None:
        for kind, value, said in (
            ("key", "AB", "A key is one character"),
            ("key", "\u00e9", "A key is one character"),
            ("switches", "200000", "at most 177777"),
            ("switches", "9", "at most 177777"),
        ):
            self.browser.value("document.querySelector('#reply').textContent = ''")
            self.add(kind, "")
            self.browser.value(f"document.querySelector('#event-value').value = {value!r}")
            self.browser.value("document.querySelector('#event-form').requestSubmit()")
            self.wait_text("#reply", said)
        self.assertEqual(self.edits(), [])

    def test_delete_takes_an_event_out_and_undo_brings_it_back(self) -> None:
        self.browser.value(f"document.querySelector('{KEY}').focus()")
        self.browser.value(
            f"document.querySelector('{KEY}').dispatchEvent("
            "new KeyboardEvent('keydown', {key: 'Delete', bubbles: true}))"
        )
        self.browser.wait("document.querySelectorAll('#edits li').length === 1")
        self.assertEqual(self.edits(), ["drop 15"])
        self.browser.wait(f"document.querySelector('{KEY}') === null")
        self.assertEqual(self.browser.value("document.activeElement.id"), "turns")
        self.browser.click("#undo")
        self.browser.wait("document.querySelectorAll('#edits li').length === 0")
        self.balance(LOST)

    def test_the_list_has_each_event_with_links(self) -> None:
        lines = [it.split(maxsplit=2) for it in ledger_lines() if it.startswith("at ")]
        self.browser.wait(f"{ROWS}.length === {len(lines)}")
        shown = [(turn, what.split(" '")[0]) for turn, what, _ in self.rows()]
        self.assertEqual(shown, [(it[1], it[2]) for it in lines])
        said = self.browser.text("#events-count")
        self.assertEqual(said, f"{len(lines)} events, 1 in turn {CURSOR}")
        self.browser.click("#events tbody tr:nth-child(13) .link")
        self.browser.wait(f"document.querySelector('#turn').value === '{lines[12][1]}'")
        move = "#events tbody tr:nth-child(15) td:last-child .link"
        self.browser.click(move)
        self.browser.wait("document.querySelectorAll('#edits li').length === 1")
        self.assertEqual(self.edits(), [f"alter 15 {lines[12][1]} key 66"])
        self.wait_text("#events-count", f"2 in turn {lines[12][1]}")
        self.browser.click("#events tbody tr:nth-child(1) td:last-child .link:last-child")
        self.browser.wait("document.querySelectorAll('#edits li').length === 2")
        self.assertEqual(self.edits()[1], "drop 1")

    def test_many_events_of_one_turn_open_as_a_list(self) -> None:
        path = self.folder() / "many.session"
        path.write_text("at 500 tick\n" * 400 + "at 900 key 101\nregs 1000\n")
        self.give(path)
        self.wait_text(".marks", "\u00d7400")
        self.assertEqual(
            self.browser.value("document.querySelector('.mark.cluster').ariaLabel"),
            "400 events in turn 500: list them",
        )
        self.browser.click(".mark.cluster")
        self.browser.wait("document.querySelector('#turn').value === '500'")
        self.wait_text("#events-count", "401 events, 400 in turn 500")
        self.assertEqual(len(self.rows()), 40)
        self.assertIn("361 events after them", self.browser.text("#events"))
        self.browser.value("new Promise(it => setTimeout(it, 400))")
        self.assertEqual(self.browser.value("document.activeElement.dataset.turn"), "500")

    def test_marks_of_one_turn_lie_apart(self) -> None:
        """Two have marks of their own; more have one, which lists them."""
        for count, shown in ((2, 2), (3, 1), (5, 1)):
            while len(self.edits()) < count - 1:
                self.type_line(f"at {CURSOR} key {101 + count}")
            self.wait_still()
            self.assertEqual(self.browser.value(f"{MARKS_OF_THE_TURN}.length"), shown)
            self.assertEqual(self.browser.value(OVERLAPS), [], count)
        self.assertEqual(self.browser.text(".mark.cluster"), "\u00d75")
        self.browser.click(".mark.cluster")
        here = f"document.activeElement.dataset.turn === '{CURSOR}'"
        self.browser.wait(f"document.activeElement.closest('#events') && {here}")

    def test_the_focus_stays_at_an_event_that_joins_others(self) -> None:
        for key in ("101", "102"):
            self.type_line(f"at {CURSOR + 2} key {key}")
        self.wait_still()
        self.browser.value(f"document.querySelector('{KEY}').focus()")
        for _ in range(2):
            self.browser.key("ArrowRight", ALT, is_up=False)
        self.browser.key("Alt", is_down=False)
        self.browser.wait("document.querySelectorAll('#edits li').length === 3")
        self.wait_still()
        self.assertEqual(self.browser.value("document.activeElement.textContent"), "\u00d73")
        self.browser.key("Enter")
        self.browser.wait(f"document.activeElement.dataset.turn === '{CURSOR + 2}'")

    def test_what_is_added_is_in_sight(self) -> None:
        """The list scrolls to it, and no further; the page stays."""
        self.browser.click("#event-value")
        self.browser.type("A")
        page = self.browser.value("scrollY")
        scrolled = "document.querySelector('#events').scrollTop"
        for count in (1, 2):
            before = self.browser.value(scrolled)
            self.browser.key("Enter")
            self.browser.wait(f"document.querySelectorAll('#edits li').length === {count}")
            self.wait_still()
            self.assertTrue(self.browser.value(ADDED_IS_SEEN), count)
        self.assertLess(self.browser.value(scrolled), before + 30)
        self.assertEqual(self.browser.value("scrollY"), page)

    def test_a_move_by_keys_hides_what_was_told(self) -> None:
        self.browser.value(f"document.querySelector('{KEY}').focus()")
        self.browser.wait("!document.querySelector('#tip').hidden")
        self.browser.key("ArrowRight", ALT, is_up=False)
        self.browser.wait("document.querySelector('#tip').hidden")
        self.browser.key("Escape")
