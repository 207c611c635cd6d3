"""What is opened: a session's options and files, the lines that are refused, and the story."""
import random
import shutil
from pathlib import Path

from nezdrab.core.options import option_lines, option_text

from .page_case import LEDGER, LOST, ROOT, PageCase, replies_of

EXAMPLES = ROOT / "examples"
STORY_IS_HIDDEN = "document.querySelector('#story').hidden"


class Refused(PageCase):
    def open_lines(self, text: bytes) -> str:
        path = self.folder() / "some.session"
        path.write_bytes(text)
        self.give(path)
        return self.browser.text("#reply")

    def test_each_refused_line_is_shown_as_pdp11_refuses_it(self) -> None:
        lines = ["# a comment", "Core 1000 12700", "core 1000 12700", "core 777561 0", ""]
        lines += ["at 400000000x tick", "regs 2000000000", "mem 5 1001 1", "regs 4", "trail 9 70"]
        lines += ["x" * 201, "regs 300000000 ", "dsk 999999999 4604000 1", "caf\u00e9"]
        said = self.open_lines("".join(f"{it}\n" for it in lines).encode())
        self.assertIn("9 of its 14 lines were refused.", said)
        shown = self.browser.text("#refused pre").split("\n")
        parts = [it.removeprefix("line ").split(": ") for it in shown]
        found = {int(it[0]): it[-1] for it in parts}
        asked = ["regs 4" if it == "regs 300000000 " else it for it in lines]
        asked[12] = "dsk 5 4604000 1"
        replies = replies_of([it for it in asked if it and not it.startswith("#")])
        wanted = [number for number, it in enumerate(lines, 1) if it and not it.startswith("#")]
        refused = {number: it for number, it in zip(wanted, replies) if it.startswith("refused")}
        self.assertEqual(found, refused)
        self.assertIn("caf\u00e9", shown[-1])

    def test_what_is_no_session(self) -> None:
        said = self.open_lines(random.Random(61).randbytes(1 << 20))
        self.assertIn("All of its lines were refused", said)
        shown = self.browser.text("#refused pre").split("\n")
        self.assertEqual(len(shown), 21)
        self.assertRegex(shown[-1], r"^and \d+ more$")


class Options(PageCase):
    def session(self, *names: str) -> Path:
        """The bootstrap with its options in a folder, and a file of its disk with each name."""
        folder = self.folder()
        text = (EXAMPLES / "boot-rk0.session").read_text()
        words = {"start": "2000", "disk": f"/some where/{names[0]}"}
        path = folder / "boot.session"
        path.write_text("".join(f"{it}\n" for it in [*option_lines(words), text]))
        for name in names:
            shutil.copy(EXAMPLES / "boot-rk0.disk", folder / name)
        return path

    def boots(self) -> None:
        self.assertIn("BOOTED FROM RK0", self.type_line("text 1000"))

    def test_the_options_of_a_session_are_taken(self) -> None:
        path = self.session("my disk.0")
        self.give(path, path.with_name("my disk.0"))
        self.boots()

    def test_a_missing_file_is_asked_for_by_its_name(self) -> None:
        path = self.session("my disk.0")
        self.browser.give_files("#files", [str(path)])
        said = self.wait_text("#reply", "isn't open yet")
        self.assertIn("my disk.0", said)
        self.balance(LOST)
        self.give(path.with_name("my disk.0"))
        self.boots()
        self.assertEqual(self.browser.text("#session-name"), "boot.session")

    def test_an_image_of_another_name_takes_its_place(self) -> None:
        path = self.session("one", "other.disk")
        self.give(path, path.with_name("other.disk"))
        self.boots()

    def test_a_saved_session_is_opened_again(self) -> None:
        path = self.session("my disk.0")
        self.give(path, path.with_name("my disk.0"))
        self.boots()
        saved = self.saved("#save")
        options = option_text(saved.read_text().split("\n"))
        self.assertEqual(options, "--start 2000 --disk 'my disk.0' ")
        self.give(EXAMPLES / "first-run.session")
        self.give(saved, path.with_name("my disk.0"))
        self.boots()

    def test_a_name_that_all_objects_have(self) -> None:
        for name in ("constructor", "__proto__"):
            path = self.session(name)
            self.browser.give_files("#files", [str(path)])
            self.wait_text("#reply", f"its options name {name}.")
            self.give(path, path.with_name(name))
            self.boots()

    def test_options_that_are_wrong(self) -> None:
        for text, why in (
            ("#! --start 2000 --start 1000", "--start stands there twice"),
            ("#! --speed 9", "'--speed' is no option of pdp11 with a value"),
            ("#! --disk 'a", "a quote in its options doesn't end"),
            ("#! --units 99", "--units is 1 to 31"),
            ("#! --start 2001", "--start is an address, octal and even"),
        ):
            path = self.folder() / "wrong.session"
            path.write_text(f"{text}\nregs 1\n")
            self.browser.give_files("#files", [str(path)])
            self.wait_text("#reply", why)
        self.balance(LOST)


class Story(PageCase):
    def test_it_belongs_to_what_the_session_has(self) -> None:
        folder = self.folder()
        other, same = folder / "ledger.session", folder / "bank.session"
        other.write_text("core 1000 5\nregs 3\n")
        shutil.copy(LEDGER / "ledger.session", same)
        self.give(other)
        self.assertTrue(self.browser.value(STORY_IS_HIDDEN))
        self.give(same)
        self.assertFalse(self.browser.value(STORY_IS_HIDDEN))
        self.balance(LOST)
