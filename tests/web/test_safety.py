"""What comes from outside is text: it never becomes HTML, and nothing leaves the page."""
from .page_case import PageCase, packed_page

EVIL = "<script>window.evil=1</script><img src=x onerror='window.evil=1'>\"'&"


# A script as the page's loader makes one, with another text.
ANOTHER = """(async () => {
  const script = document.createElement("script");
  script.type = "module";
  script.textContent = "window.evil = 1";
  document.head.append(script);
  script.remove();
  await new Promise(done => setTimeout(done, 200));
})()"""


class Safety(PageCase):
    def test_a_script_of_another_text_is_not_run(self) -> None:
        if packed_page().startswith("http"):
            self.skipTest("the page isn't packed")
        self.browser.value(ANOTHER)
        self.no_harm()
        self.assertIn("Content Security Policy", " ".join(self.browser.messages))
        self.browser.messages = []

    def no_harm(self) -> None:
        self.assertIsNone(self.browser.value("window.evil ?? null"))
        self.assertEqual(self.browser.value("document.querySelectorAll('img').length"), 0)
        scripts = "document.querySelectorAll('script:not([type])').length"
        self.assertEqual(self.browser.value(scripts), 0)

    def test_console_text(self) -> None:
        # each byte of the text is moved to the printer's buffer, once it is ready
        path = self.folder() / "evil.session"
        data = EVIL.encode() + b"\0\7\33[31m\r\n"
        lines = ["core 1000 12700", "core 1002 2000", "core 1004 12701"]
        lines += [f"core 1006 {len(data):o}", "core 1010 112037", "core 1012 177566"]
        lines += ["core 1014 105737", "core 1016 177564", "core 1020 100375", "core 1022 77106"]
        lines += ["core 1024 0"]
        padded = data + b"\0" * (len(data) % 2)
        for at in range(0, len(padded), 2):
            lines.append(f"core {0o2000 + at:o} {padded[at] | padded[at + 1] << 8:o}")
        path.write_text("\n".join([*lines, "text 2000", ""]))
        self.give(path)
        shown = self.wait_text("#text", "onerror")
        self.assertEqual(shown, EVIL + "\u00b7\u00b7\u00b7[31m\n")
        self.wait_still()
        self.no_harm()

    def test_names_of_files_and_lines(self) -> None:
        name = "<img src=x onerror=window.evil=1>\u202e\u200fgnp.session"
        path = self.folder() / name
        path.write_text(f"{EVIL}\nat 1 {EVIL}\ncore 1000 5\nregs 4\n")
        self.give(path)
        shown = self.wait_text("#session-name", "onerror")
        self.assertIn("\\u202e\\u200fgnp", shown)
        self.assertNotIn("\u202e", self.browser.value("document.body.innerText"))
        self.wait_still()
        self.no_harm()

    def test_symbols(self) -> None:
        folder = self.folder()
        (folder / "names.sym").write_text("a&lt 1000\na\u202eabc 1002\n")
        (folder / "it.session").write_text("core 1000 5\ncore 1002 5\nregs 3\n")
        self.give(folder / "it.session", folder / "names.sym")
        self.wait_text("#instructions", "a&lt")
        self.wait_text("#instructions", "a\\u202eabc")
        self.wait_still()
        self.no_harm()

    def test_a_line_that_is_typed(self) -> None:
        self.type_line("<b>bold</b>")
        self.assertEqual(self.browser.value("document.querySelectorAll('#reply b').length"), 0)
        self.no_harm()

    def test_nothing_leaves_the_page(self) -> None:
        self.wait_still()
        outside = [it for it in self.browser.requests if not it.startswith(("file:", "blob:"))]
        outside = [it for it in outside if not it.startswith(("data:", "about:"))]
        if self.address.startswith("http"):
            outside = [it for it in outside if not it.startswith(self.address)]
        self.assertEqual(outside, [])

    def test_only_this_tab_keeps_what_has_no_name(self) -> None:
        self.type_line("alter 15 127165 key 66")
        stored = self.browser.value(
            "(async () => { let count = document.cookie.length + localStorage.length;"
            "return count + ((await indexedDB.databases?.())?.length ?? 0); })()"
        )
        self.assertEqual(stored, 0)
        keys = self.browser.value("Object.keys(sessionStorage)")
        self.assertEqual([it for it in keys if not it.startswith("nezdrab ")], [])
