"""Files: opened by the dialog and by a drop, saved as a session and as a page."""
import base64
import json
from pathlib import Path

from .page_case import KEY, LOST, ROOT, SAFE, PageCase, packed_page, replies_of

EXAMPLES = ROOT / "examples"


class FilesCase(PageCase):
    def drop(self, *paths: Path) -> None:
        """Drops files on the page, which opens them."""
        self.browser.value("document.querySelector('#reply').textContent = ''")
        self.drop_on("main", *paths)
        self.wait_text("#reply", "Opened: ")
        self.wait_still()

    def drop_on(self, selector: str, *paths: Path) -> None:
        """Drops files on an element."""
        held = {it.name: base64.b64encode(it.read_bytes()).decode() for it in paths}
        self.browser.value(
            "(() => { const data = new DataTransfer();"
            f"for (const [name, text] of Object.entries({json.dumps(held)})) {{"
            "const bytes = Uint8Array.from(atob(text), it => it.charCodeAt(0));"
            "data.items.add(new File([bytes], name)); }"
            "const event = new DragEvent('drop',"
            "{dataTransfer: data, bubbles: true, cancelable: true});"
            f"document.querySelector({json.dumps(selector)}).dispatchEvent(event); }})()"
        )


class Files(FilesCase):
    def test_a_session_is_dropped(self) -> None:
        self.drop(EXAMPLES / "who-wrote-this-word.session")
        self.wait_text("#session-name", "who-wrote-this-word.session")
        self.assertTrue(self.browser.value("document.querySelector('#story').hidden"))
        self.wait_still()
        self.assertIn("dsk 000107", self.type_line("dsk 40 0 1"))

    def test_a_session_with_its_disk_is_dropped(self) -> None:
        name = "text-from-disk"
        self.drop(EXAMPLES / f"{name}.session", EXAMPLES / f"{name}.disk")
        self.wait_text("#session-name", name)
        self.wait_still()
        lines = (EXAMPLES / f"{name}.session").read_text().splitlines()
        last = [it for it in lines if it.startswith("text")][-1]
        disk = str(EXAMPLES / f"{name}.disk")
        wanted = replies_of(lines, "--disk", disk)
        said = self.type_line(last)
        self.assertIn(said.partition(": ")[2], wanted)

    def test_a_disk_is_booted(self) -> None:
        """The bootstrap with its image and its options, dropped together."""
        names = ("boot-rk0.session", "boot-rk0.disk", "boot-rk0.args")
        self.drop(*(EXAMPLES / it for it in names))
        self.wait_text("#session-name", "boot-rk0")
        self.assertIn("BOOTED FROM RK0", self.type_line("text 1000"))
        self.wait_still()

    def test_files_are_chosen(self) -> None:
        self.give(EXAMPLES / "first-run.session")
        self.wait_text("#session-name", "first-run.session")

    def test_an_image_that_is_wrong_is_told(self) -> None:
        if packed_page().startswith("http"):
            self.skipTest("the page isn't packed")
        for name, size, why in (
            ("odd.disk", 3, "an image has an even number of them"),
            ("long.disk", 2_494_466, "a drive has 2494464"),
            ("odd.core", 5, "an image has an even number of them"),
            ("long.core", 253_954, "core has 253952"),
            ("long.tape", 1_048_577, "a tape has 1048576"),
        ):
            path = self.folder() / name
            path.write_bytes(b"a" * size)
            self.browser.give_files("#files", [str(path)])
            self.wait_text("#reply", f"{name} has {size} bytes, and {why}. Nothing was changed.")
        self.balance(LOST)

    def test_a_saved_session_has_the_same_replies(self) -> None:
        self.browser.drag(KEY, 110)
        self.balance(SAFE)
        self.browser.wait("document.querySelectorAll('#edits li').length === 1")
        path = self.saved("#save")
        lines = path.read_text().splitlines()
        self.assertIn("# name disk 0 the ledger", lines)
        asked = ["regs 150000", "mem 238614 30000 4", "dsk 238614 0 1", "text 238614"]
        native = replies_of([*lines, *asked])[-4:]
        for line, reply in zip(asked, native):
            self.assertEqual(self.type_line(line), f"{line}: {reply}")

    def test_a_saved_page_shows_what_was_shown(self) -> None:
        """Its edits, on and off, pasts, words that are drawn, and the cursor's turn."""
        self.type_line("alter 15 127000 key 66")
        self.fill("#keep-name", "early")
        self.browser.key("Enter")
        self.wait_text("#reply", "Kept as early")
        self.browser.click("#undo")
        for line in ("alter 15 127165 key 66", "drop 3", "at 230000 key 75"):
            self.type_line(line)
        self.browser.click("#edits li:nth-child(2) input")
        self.wait_text("#reply", "drop 3: switched off")
        self.fill("#watch", "2000")
        self.browser.key("Enter")
        self.wait_text("#words", "QUEUE (core 002000)")
        self.browser.value(
            "(it => { it.selectedIndex = 1; it.dispatchEvent(new Event('change')); })"
            "(document.querySelector('#compared-with'))"
        )
        self.wait_text("#legend-old", "in early")
        self.fill("#turn", "127000")
        self.browser.key("Enter")
        shown = self.shown()
        self.assertEqual(shown[0], "127000")
        path = self.saved("#save-page")
        if packed_page().startswith("http"):
            self.skipTest("the page isn't packed")
        self.browser.open(path.as_uri())
        self.assertEqual(self.shown(), shown)
        self.browser.reload()
        self.assertEqual((self.shown(), self.browser.dialogs), (shown, []))
        # what is undone here stays so
        for left in (1, 0):
            self.browser.click("#undo")
            self.browser.wait(f"document.querySelectorAll('#edits li:not(.off)').length === {left}")
        self.balance(LOST)
        self.browser.reload()
        self.balance(LOST)

    def test_a_saved_page_is_packed_too(self) -> None:
        """It has the page's elements, and one of what was shown; so has a page that it saves."""
        if packed_page().startswith("http"):
            self.skipTest("the page isn't packed")
        packed = Path(packed_page().removeprefix("file://")).read_text()
        first = self.saved("#save-page")
        self.browser.open(first.as_uri())
        self.balance(LOST)
        self.wait_still()
        for text in first.read_text(), self.saved("#save-page").read_text():
            self.assertEqual(text.count("<script "), packed.count("<script ") + 1)
            self.assertLess(len(text), len(packed) + 100_000)

    def shown(self) -> list[str]:
        """What is shown of a past with edits, once all is there."""
        self.balance(SAFE)
        self.open_tab("memory")
        self.wait_text("#difference", "Drive 0")
        self.wait_still()
        texts = self.browser.value(
            "['edits', 'words', 'text', 'difference', 'registers', 'verdict', 'story', 'steps',"
            "'events-count', 'compared-with', 'legend-old']"
            ".map(it => document.getElementById(it).textContent)"
        )
        ghosts = "[...document.querySelectorAll('.mark.ghost')].map(it => it.textContent).join()"
        turn = self.browser.value("document.querySelector('#turn').value")
        return [turn, *texts, self.browser.value(ghosts)]


class Kept(FilesCase):
    """What the tab keeps when the page is loaded again, and what it asks before it is left."""

    def count(self, wanted: int) -> None:
        self.browser.wait(f"document.querySelectorAll('#edits > li').length === {wanted}")

    def test_edits_outlive_a_reload(self) -> None:
        """An event that came back by an undo has its number again, after the reload too."""
        number = self.type_line("at 5 key 101").split()[-1]
        self.browser.click("#undo")
        self.count(0)
        self.browser.click("#redo")
        self.count(1)
        again = f"alter {number} 6 key 102"
        for line in (again, "alter 15 127165 key 66", "disk 0 101"):
            self.type_line(line)
        before = self.type_line("regs 238614")
        self.browser.reload()
        self.assertEqual(self.browser.dialogs, ["beforeunload"])
        self.count(4)
        self.assertEqual(self.edits()[1], again)
        self.assertEqual(self.type_line("regs 238614"), before)
        for left in (3, 2, 1, 0):
            self.browser.click("#undo")
            self.count(left)
        self.balance(LOST)
        self.browser.reload()
        self.assertEqual(self.browser.dialogs, [])
        self.assertEqual(self.edits(), [])

    def test_a_session_that_was_opened_outlives_a_reload(self) -> None:
        name = "text-from-disk"
        self.drop(EXAMPLES / f"{name}.session", EXAMPLES / f"{name}.disk")
        self.wait_text("#session-name", name)
        self.type_line("disk 0 101")
        self.drop(EXAMPLES / "ledger" / "kernel.sym")
        self.wait_text("#reply", "are made again: ")
        self.assertEqual(self.edits(), ["disk 0 101"])
        before = self.type_line("dsk 1 0 2")
        self.saved("#save")
        self.browser.reload()
        self.assertEqual(self.browser.dialogs, [], "nothing is lost that wasn't saved")
        self.assertIn(name, self.browser.text("#session-name"))
        self.count(1)
        self.assertEqual(self.type_line("dsk 1 0 2"), before)
        self.browser.click("#undo")
        self.count(0)
        self.assertNotEqual(self.type_line("dsk 1 0 2"), before)
        self.browser.click("#own")
        self.balance(LOST)
        self.browser.reload()
        self.assertIn("ledger", self.browser.text("#session-name"))
        self.assertTrue(self.browser.value("document.querySelector('#own').hidden"))

    def test_what_the_browser_does_not_keep_is_told(self) -> None:
        refuses = "Storage.prototype.setItem = () => { throw new Error('full'); }"
        self.browser.value(f"{refuses}; null")
        self.drop(EXAMPLES / "first-run.session")
        self.browser.wait("!document.querySelector('#session-kept').hidden")
        self.type_line("at 1 key 101")
        self.browser.wait("!document.querySelector('#edits-kept').hidden")
