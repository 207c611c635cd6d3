"""Links that hold edits, made by the page and opened in it."""
from .page_case import KEY, LOST, ROOT, SAFE, PageCase, packed_page

EXAMPLES = ROOT / "examples"
STATES = "[...document.querySelectorAll('#edits input')].map(it => it.checked)"
KEEPS = "alter 15 127165 key 66"


class LinksCase(PageCase):
    def setUp(self) -> None:
        super().setUp()
        if packed_page().startswith("http"):
            self.skipTest("the page isn't packed")

    def link(self) -> str:
        """The link that the page makes."""
        self.browser.click("#copy-link")
        self.browser.wait("document.querySelectorAll('#link input').length")
        return str(self.browser.value("document.querySelector('#link input').value"))

    def follow(self, fragment: str, said: str) -> str:
        """Puts a fragment into the address of the page that is open; what is said of it."""
        self.browser.value("document.querySelector('#linked').textContent = ''")
        self.browser.value(f"location.hash = {fragment!r}")
        found = self.wait_text("#linked", said)
        self.wait_still()
        return found


class Links(LinksCase):
    def test_a_link_holds_the_edits(self) -> None:
        """An event that another edit moves, one that came back by an undo, a drag, a patch."""
        self.type_line("at 5 switches 1")
        self.browser.click("#undo")
        self.browser.wait("!document.querySelectorAll('#edits li').length")
        self.browser.click("#redo")
        self.browser.wait("document.querySelectorAll('#edits li').length === 1")
        self.type_line("alter 28 6 switches 2")
        self.browser.drag(KEY, 110)
        self.balance(SAFE)
        self.browser.wait("document.querySelectorAll('#edits li').length === 3")
        self.type_line("disk 0 101")
        asked = ("regs 131000", "dsk 238614 0 1", "text 238614")
        before = [self.type_line(it) for it in asked]
        self.wait_still()
        link = self.link()
        self.assertLess(len(link.partition("#")[2]), 300)
        self.assertIn(f"4 edits: {len(link.partition('#')[2])} bytes", self.browser.text("#link"))
        self.type_line("disk 0 102")
        self.browser.wait("document.querySelector('#link').textContent === ''")
        self.browser.open(link)
        self.wait_still()
        self.assertIn("4 edits were made", self.browser.text("#linked"))
        self.assertEqual([self.type_line(it) for it in asked], before)
        self.assertNotIn("edits=", self.browser.value("location.hash"))
        self.browser.reload()
        self.assertEqual(self.browser.dialogs, [], "the link has what is here")
        self.assertEqual([self.type_line(it) for it in asked], before)
        for left in (3, 2, 1, 0):
            self.browser.click("#undo")
            self.browser.wait(f"document.querySelectorAll('#edits > li').length === {left}")
        self.balance(LOST)

    def test_a_link_holds_what_is_shown(self) -> None:
        """The watch list, notes, and the past that is compared with."""
        def shown() -> list[str]:
            self.balance(SAFE)
            self.open_tab("past")
            self.wait_text("#difference", "Drive 0")
            self.wait_text("#words", "QUEUE")
            self.wait_still()
            texts = "['words', 'note-list', 'difference', 'legend-old', 'edits', 'steps']"
            found = f"{texts}.map(it => document.getElementById(it).textContent)"
            return list(self.browser.value(found))

        self.type_line("disk 0 101")
        self.fill("#keep-name", "other")
        self.browser.key("Enter")
        self.wait_text("#reply", "Kept as other")
        self.browser.click("#undo")
        self.type_line(KEEPS)
        for name in ("2000", "R3"):
            self.fill("#watch", name)
            self.browser.key("Enter")
        self.fill("#note-text", "caf\u00e9 <b>")
        self.browser.key("Enter")
        self.browser.value(
            "(it => { it.selectedIndex = 1; it.dispatchEvent(new Event('change')); })"
            "(document.querySelector('#compared-with'))"
        )
        self.wait_text("#legend-old", "in other")
        before = shown()
        self.assertIn("caf\u00e9 <b>", before[1])
        link = self.link()
        self.browser.value("localStorage.clear(); sessionStorage.clear()")
        self.browser.open(link)
        self.assertEqual(shown(), before)
        self.assertNotIn("shown=", self.browser.value("location.hash"))
        cut = link.partition("#")[2].replace("&shown=", "&shown=0")
        self.browser.open(self.address)
        self.wait_still()
        self.follow(cut, "it was cut or changed on its way")

    def test_own_edits_are_switched_off_by_a_link(self) -> None:
        self.type_line("alter 15 127165 key 66")
        self.wait_still()
        fragment = self.link().partition("#")[2]
        self.browser.open(self.address)
        self.wait_still()
        self.type_line("at 7 key 103")
        self.type_line("alter 28 8 key 104")
        self.assertIn("Your own 2 edits", self.follow(fragment, "was made"))
        states = "[...document.querySelectorAll('#edits input')].map(it => it.checked)"
        self.assertEqual(self.browser.value(states), [False, False, True])
        self.balance(SAFE)
        self.browser.click("#edits > li:nth-child(1) input")
        self.wait_text("#reply", "at 7 key 103: switched on")
        self.assertIn("Your own edit ", self.follow(fragment, "was made"))
        self.assertEqual(self.browser.value(states), [False, False, True])

    def test_edits_that_are_off_stay_so_in_a_link(self) -> None:
        """Among those that are on, and one that names an event of another; each is switched on."""
        for line in ("at 5 switches 1", "alter 28 6 switches 2", "at 7 switches 3", KEEPS):
            self.type_line(line)
        for number, left in ((3, 1), (1, 3)):
            self.browser.click(f"#edits > li:nth-child({number}) input")
            self.browser.wait(f"document.querySelectorAll('#edits li.off').length === {left}")
        self.assertEqual(self.browser.value(STATES), [False, False, False, True])
        link = self.link()
        self.assertIn("1 edit, and 3 switched off: ", self.browser.text("#link"))
        self.browser.open(link)
        self.wait_text("#linked", "3 more are switched off in it.")
        self.assertEqual(self.browser.value(STATES), [False, False, False, True])
        self.balance(SAFE)
        self.browser.reload()
        self.assertEqual(self.browser.dialogs, [], "the link has what is here")
        for number in (1, 2, 3):
            self.switch_on(number)
        events = self.type_line("events")
        self.assertRegex(events, r"(?s) 6 switches 000002\n.* 7 switches 000003\n")
        self.assertNotIn(" 5 switches", events)

    def switch_on(self, number: int) -> None:
        self.browser.value("document.querySelector('#reply').textContent = ''")
        self.browser.click(f"#edits > li:nth-child({number}) input")
        self.wait_text("#reply", "switched on")

    def test_own_edits_and_those_of_a_link_keep_their_events_apart(self) -> None:
        """Both name the event 28, each its own."""
        for line in ("at 5 switches 1", "alter 28 6 switches 2"):
            self.type_line(line)
        self.browser.click("#edits > li:nth-child(2) input")
        self.wait_text("#reply", "switched off")
        fragment = self.link().partition("#")[2]
        self.browser.open(self.address)
        for line in ("at 8 switches 3", "alter 28 9 switches 4"):
            self.type_line(line)
        self.assertIn("Your own 2 edits", self.follow(fragment, "was made"))
        self.assertEqual(self.browser.value(STATES), [False, False, True, False])
        for number in (1, 2, 4):
            self.switch_on(number)
        events = self.type_line("events")
        self.assertRegex(events, r"(?s) 6 switches 000002\n.* 9 switches 000004\n")
        self.assertNotRegex(events, r" (?:5|8) switches")

    def test_a_broken_link_changes_nothing(self) -> None:
        self.type_line("alter 15 127165 key 66")
        self.wait_still()
        fragment = self.link().partition("#")[2]
        for broken, said in (
            (fragment.replace("127165", "127166"), "it was cut or changed"),
            (fragment[: fragment.index("&") - 1], "it was cut or changed"),
            ("edits=", "it was cut or changed"),
            (fragment.replace("ledger.", "bank."), "a session that this page doesn't have"),
            (fragment.replace("ledger.", "keys."), "another version of an example"),
        ):
            self.assertIn("Nothing was changed", self.follow(broken, said))
            self.assertEqual(self.edits(), ["alter 15 127165 key 66"])
        self.browser.open(self.address + "#edits=ledger.1.2.alter-15-1")
        self.assertIn("Nothing was changed", self.browser.text("#linked"))
        self.balance(LOST)

    def test_a_session_of_ones_own_is_left_after_a_yes(self) -> None:
        self.type_line("alter 15 127165 key 66")
        self.wait_still()
        fragment = self.link().partition("#")[2]
        self.give(EXAMPLES / "first-run.session")
        self.wait_still()
        self.browser.click("#copy-link")
        self.wait_text("#link", "none of the page's examples. A saved page has it all")
        self.saved("#link button")
        self.follow(fragment, "another session is open")
        self.assertIn("first-run", self.browser.text("#session-name"))
        self.browser.click("#linked button")
        self.wait_text("#linked", "edit was made")
        self.balance(SAFE)
        self.assertIn("ledger", self.browser.text("#session-name"))

    def test_a_link_of_another_example_opens_it(self) -> None:
        self.browser.click("#examples-menu summary")
        self.browser.click("[data-example='tape']")
        self.wait_text("#reply", "Opened: A paper tape of the absolute loader")
        self.wait_still()
        self.type_line("core 1026 42502")
        self.wait_text("#text", "BELLO")
        link = self.link()
        self.browser.open(link)
        self.wait_text("#text", "BELLO")
        self.assertEqual(self.browser.text("#session-name"), "hello.lda")
        self.browser.reload()
        self.wait_text("#text", "BELLO")
