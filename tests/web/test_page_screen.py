"""The console as the screen of a terminal, and keys that are pasted."""
from .page_case import PageCase, packed_page

TEXT = 0o1026
# ESC Y moves the cursor of a VT52 to a line and a column, each with 040 added.
PRINTED = b"ab\x1bY%'X\0"


class TerminalScreen(PageCase):
    def test_the_cursor_is_addressed(self) -> None:
        if packed_page().startswith("http"):
            self.skipTest("the page isn't packed")
        self.browser.click("#examples-menu summary")
        self.browser.click("[data-example='tape']")
        self.wait_text("#reply", "Opened: ")
        self.wait_still()
        for at in range(0, len(PRINTED), 2):
            word = int.from_bytes(PRINTED[at : at + 2], "little")
            self.type_line(f"core {TEXT + at:o} {word:o}")
        self.browser.click("#terminal-screen")
        self.browser.click("#terminal-run")
        text = self.wait_text("#terminal", "X")
        self.assertEqual(text.split("\n"), ["ab", *[""] * 4, "       X", *[""] * 18])
        self.browser.click("#terminal-screen")
        self.assertIn("ab", self.browser.text("#terminal"))
        self.assertNotIn("\n", self.browser.text("#terminal"))

    def test_pasted_text_is_struck(self) -> None:
        self.browser.click("#terminal-run")
        self.browser.wait("document.querySelector('#terminal-status').textContent !== ''")
        self.browser.value(
            "(() => { const data = new DataTransfer(); data.setData('text/plain', '12\\u20ac');"
            "const event = new ClipboardEvent('paste', {clipboardData: data, cancelable: true});"
            "document.querySelector('#terminal').dispatchEvent(event); })()"
        )
        self.browser.wait("document.querySelectorAll('#edits > li').length > 0")
        self.browser.wait("/61.*62/s.test(document.querySelector('#edits').textContent)")
        self.browser.key("Tab")
        self.assertEqual(len(self.edits()), 1)
