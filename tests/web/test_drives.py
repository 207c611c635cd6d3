"""Images of drives 0 to 7: chosen, dropped and taken away, and what the machine has of them."""
import struct
from pathlib import Path

from .page_case import LOST, packed_page, replies_of
from .test_page_files import FilesCase

BYTES_OF_A_DRIVE = 2_494_464
PATCHED = ["core 1000 777", "disk 1 111", "core 1002 0", "dsk 5 0 2", "regs 20"]
WORDS = [0o123456, 0o7, 0o177777]


class DrivesCase(FilesCase):
    is_first = True

    def setUp(self) -> None:
        """The page stays open for the next test, which opens another session."""
        if packed_page().startswith("http"):
            self.skipTest("the page isn't packed")
        if type(self).is_first:
            super().setUp()
            type(self).is_first = False
        self.session(PATCHED)

    @classmethod
    def tearDownClass(cls) -> None:
        cls.is_first = True

    def session(self, lines: list[str]) -> None:
        """Opens a session. The tab keeps the edits of one that was open before: this is none."""
        text = "".join(f"{it}\n" for it in [f"# {self.id()}", *lines])
        path = self.put("some.session", text.encode())
        self.give(path)
        self.wait_still()
        self.browser.value("document.querySelector('#drives').open = true")

    def put(self, name: str, data: bytes) -> Path:
        path = self.folder() / name
        path.write_bytes(data)
        return path

    def image(self, name: str, words: list[int]) -> Path:
        return self.put(name, struct.pack(f"<{len(words)}H", *words))

    def said(self, part: str) -> str:
        found = self.wait_text("#drives-said", part)
        self.wait_still()
        return found

    def choose(self, drive: int, path: Path, said: str) -> str:
        """Presses the button of a drive, and chooses a file."""
        self.browser.value("document.querySelector('#drives-said').textContent = ''")
        self.browser.click(f"[data-drive='{drive}'] .choose")
        self.browser.give_files("#drive-file", [str(path)])
        return self.said(said)

    def take(self, drive: int) -> str:
        self.browser.click(f"[data-drive='{drive}'] .take")
        return self.said(f"Drive {drive} has no image.")

    def row(self, drive: int) -> str:
        return self.browser.text(f"[data-drive='{drive}'] span")

    def rows(self) -> list[str]:
        return [self.row(it).partition(": ")[2] for it in range(8)]

    def lines(self) -> list[str]:
        """The lines of the session as it is saved."""
        return self.saved("#save").read_text().splitlines()


class Drives(DrivesCase):
    def test_a_drive_has_the_words_that_pdp11_finds(self) -> None:
        path = self.image("pack.disk", WORDS)
        self.assertEqual(self.rows(), ["no image"] * 8)
        self.assertIn("drive 0 alone", self.browser.text("#drives-version"))
        said = self.choose(3, path, "Drive 3 has pack.disk.")
        self.assertIn("The session is of version 2 now", said)
        self.assertNotIn("refused", said)
        self.assertEqual(self.row(3), "Drive 3: pack.disk, 6 bytes")
        self.assertTrue(self.browser.value("document.querySelector('#drives-version').hidden"))
        asked = ["dsk 5 3 0 4", "dsk 5 0 0 4", "dsk 5 2 0 1", "regs 20"]
        wanted = replies_of([*PATCHED, "version 2", *asked], "--disk3", str(path))[-4:]
        for line, reply in zip(asked, wanted):
            self.assertEqual(self.type_line(line), f"{line}: {reply}")
        self.assertIn("dsk 000000 000111", wanted[1])

    def test_inspect_shows_it(self) -> None:
        self.choose(3, self.image("pack.disk", WORDS), "Drive 3 has")
        for name, value in (("space", "disk"), ("from", "3 0"), ("count", "3")):
            self.browser.value(f"document.querySelector('#inspect-{name}').value = {value!r}")
        self.browser.value("document.querySelector('#inspect-form').requestSubmit()")
        shown = self.wait_text("#inspected tbody", "123456")
        self.assertIn("123456 000007 177777", " ".join(shown.split()))

    def test_a_drop_on_a_line(self) -> None:
        """The line alone takes it: the page would make it the image of drive 0."""
        pack, other = self.image("pack.disk", WORDS), self.image("other", WORDS[::-1])
        self.drop_on("[data-drive='0']", pack)
        self.said("Drive 0 has pack.disk.")
        self.drop_on("[data-drive='7'] .choose", other)
        self.said("Drive 7 has other.")
        wanted = ["pack.disk, 6 bytes", *["no image"] * 6, "other, 6 bytes"]
        self.assertEqual(self.rows(), wanted)
        self.assertIn("dsk 177777 000007 123456", self.type_line("dsk 0 7 0 3"))
        self.assertFalse(self.browser.value("Boolean(document.querySelector('.over'))"))
        self.drop_on("[data-drive='1']", pack, other)
        self.said("A drive takes one image.")
        self.assertEqual(self.rows(), wanted)

    def test_another_image_takes_its_place(self) -> None:
        self.choose(2, self.image("one.disk", WORDS), "Drive 2 has one.disk.")
        said = self.choose(2, self.image("one.disk", [0o5]), "Drive 2 has one.disk.")
        self.assertNotIn("version 2 now", said)
        self.assertEqual(self.row(2), "Drive 2: one.disk, 2 bytes")
        self.assertIn("dsk 000005 000000", self.type_line("dsk 0 2 0 2"))

    def test_two_files_with_one_name(self) -> None:
        """Another file has a name of its own; the same one is there once."""
        one, other = self.image("a.disk", WORDS), self.image("a.disk", [0o5])
        self.choose(1, one, "Drive 1 has a.disk.")
        self.choose(2, one, "Drive 2 has a.disk.")
        said = self.choose(4, other, "Drive 4 has a.disk.")
        self.assertIn("It is called disk4-a.disk here", said)
        self.take(1)
        self.assertEqual(self.row(2), "Drive 2: a.disk, 6 bytes")
        self.assertIn("dsk 123456", self.type_line("dsk 0 2 0 1"))
        self.assertIn("dsk 000005", self.type_line("dsk 0 4 0 1"))
        options = next(it for it in self.lines() if it.startswith("#!"))
        self.assertEqual(options, "#! --disk2 a.disk --disk4 disk4-a.disk")

    def test_an_image_is_taken_away(self) -> None:
        self.choose(0, self.image("zero.disk", WORDS), "Drive 0 has")
        self.choose(3, self.image("three.disk", WORDS), "Drive 3 has")
        self.take(3)
        self.assertEqual(self.rows()[0], "zero.disk, 6 bytes")
        self.assertEqual(self.rows()[1:], ["no image"] * 7)
        focused = self.browser.value("document.activeElement.ariaLabel")
        self.assertEqual(focused, "Choose the image of drive 3")
        self.assertIn("dsk 123456 000111", self.type_line("dsk 0 0 2"))
        self.take(0)
        self.assertIn("dsk 000000 000111", self.type_line("dsk 0 0 2"))
        self.assertFalse([it for it in self.lines() if it.startswith("#!")])


    def test_with_the_last_image_version_2_goes(self) -> None:
        """The page's line goes that it added; one of the session's own stays."""
        pack = self.image("pack.disk", WORDS)
        for drive in 3, 5:
            self.choose(drive, pack, f"Drive {drive} has")
        self.browser.reload()
        self.browser.value("document.querySelector('#drives').open = true")
        self.assertNotIn("version 1", self.take(3))
        self.assertIn("version 2", self.lines())
        self.assertIn("The session is of version 1 again.", self.take(5))
        self.assertNotIn("version 2", self.lines())
        self.assertFalse(self.browser.value("document.querySelector('#drives-version').hidden"))
        self.assertIn("dsk 000000 000111", self.type_line("dsk 0 0 2"))
        self.assertIn("version 2 now", self.choose(1, pack, "Drive 1 has"))
        self.session([*PATCHED, "version 2"])
        self.choose(1, pack, "Drive 1 has")
        self.assertNotIn("version", self.take(1))
        self.assertIn("version 2", self.lines())

    def test_an_edit_of_version_2_keeps_it(self) -> None:
        pack = self.image("pack.disk", WORDS)
        for edit in "disk 3 0 222", "version 2":
            self.choose(3, pack, "Drive 3 has")
            self.type_line(edit)
            said = f"The session stays one of version 2 by your edit {edit}."
            self.assertIn(said, self.take(3))
            self.assertEqual(self.edits(), [edit])
            self.assertIn("dsk 000000 000111", self.type_line("dsk 0 0 0 2"))
            self.browser.click("#undo")
            self.wait_text("#reply", "undone")

    def test_what_is_chosen_at_once_is_all_there(self) -> None:
        """Each begins while what was begun before it is under way: an edit, and another image."""
        self.browser.value(
            "document.querySelector('#line').value = 'at 5 key 101';"
            "document.querySelector('#edit-form').requestSubmit()"
        )
        self.drop_on("[data-drive='0']", self.image("zero.disk", WORDS[::-1]))
        self.drop_on("[data-drive='3']", self.image("three.disk", WORDS))
        self.said("Drive 3 has three.disk.")
        self.assertEqual(self.rows()[0], "zero.disk, 6 bytes")
        self.assertEqual(self.rows()[3], "three.disk, 6 bytes")
        self.assertEqual(self.edits(), ["at 5 key 101"])


class Refused(DrivesCase):
    def stays(self, drive: int, path: Path, *parts: str) -> None:
        """A file isn't taken, and what was open is as it was."""
        before, edits = self.rows(), self.edits()
        said = self.choose(drive, path, "Nothing was changed.")
        for part in parts:
            self.assertIn(part, said)
        self.assertEqual((self.rows(), self.edits()), (before, edits))

    def test_files_that_are_no_images(self) -> None:
        self.choose(1, self.image("good.disk", WORDS), "Drive 1 has")
        self.type_line("at 5 key 101")
        self.stays(1, self.put("odd.disk", b"abc"), "odd.disk has 3 bytes", "an even number")
        self.stays(2, self.put("long", bytes(BYTES_OF_A_DRIVE + 2)), "a drive has 2494464")
        self.stays(3, self.put("packed.gz", b"\x1f\x8b\x08\0" + bytes(96)), "packed.gz is ")
        self.assertEqual(self.edits(), ["at 5 key 101"])
        self.assertIn("dsk 123456", self.type_line("dsk 0 1 0 1"))
        whole = b"\x1f\x8b" + bytes(BYTES_OF_A_DRIVE - 2)
        self.choose(3, self.put("whole", whole), "Drive 3 has whole.")
        self.assertIn("dsk 105437", self.type_line("dsk 0 3 0 1"))
        self.assertEqual(self.edits(), ["at 5 key 101"])

    def test_an_edit_that_version_2_would_refuse(self) -> None:
        self.type_line("disk 0 222")
        pack = self.image("pack.disk", WORDS)
        self.stays(1, pack, "of version 1", "your edit disk 0 222", "as disk 0 0 222")
        self.browser.click("#edits input")
        self.wait_text("#reply", "switched off")
        self.stays(1, pack, "your edit disk 0 222")
        self.assertIn("dsk 000000 000111", self.type_line("dsk 0 0 2"))
        said = self.choose(0, pack, "Drive 0 has pack.disk.")
        self.assertNotIn("version 2", said)
        self.assertIn("dsk 123456 000111", self.type_line("dsk 0 0 2"))

    def test_an_edit_is_version_2_already(self) -> None:
        self.type_line("disk 0 222")
        self.type_line("version 2")
        said = self.choose(5, self.image("pack.disk", WORDS), "Drive 5 has")
        self.assertNotIn("version 2 now", said)
        self.assertEqual(self.edits(), ["disk 0 222", "version 2"])
        self.assertIn("dsk 123456", self.type_line("dsk 0 5 0 1"))
        self.assertIn("dsk 000222 000111", self.type_line("dsk 0 0 0 2"))


class Kept(DrivesCase):
    def test_a_reload_and_saved_files_have_them(self) -> None:
        zero, three = self.image("zero.disk", WORDS[::-1]), self.image("three.disk", WORDS)
        self.type_line("at 5 key 101")
        self.choose(0, zero, "Drive 0 has")
        self.choose(3, three, "Drive 3 has")
        self.assertIn("are made again", self.browser.text("#drives-said"))
        self.assertEqual(self.edits(), ["at 5 key 101"])
        asked = ["dsk 5 3 0 4", "dsk 5 0 0 4", "regs 20"]
        before = [self.type_line(it) for it in asked]
        rows = self.rows()
        saved, page = self.saved("#save"), self.saved("#save-page")
        options = ["--disk", str(zero), "--disk3", str(three)]
        native = replies_of([*saved.read_text().splitlines(), *asked], *options)[-3:]
        self.assertEqual(before, [f"{line}: {it}" for line, it in zip(asked, native)])
        self.browser.reload()
        self.has(rows, asked, before)
        self.session(["regs 1"])
        self.give(saved, zero, three)
        self.wait_still()
        self.has(rows, asked, before)
        self.browser.open(page.as_uri())
        self.has(rows, asked, before)
        type(self).is_first = True

    def has(self, rows: list[str], asked: list[str], before: list[str]) -> None:
        self.assertEqual(self.rows(), rows)
        self.assertEqual([self.type_line(it) for it in asked], before)

    def test_the_page_s_own_session_gets_a_drive(self) -> None:
        self.browser.click("#own")
        self.balance(LOST)
        self.wait_still()
        said = self.choose(3, self.image("pack.disk", WORDS), "Drive 3 has pack.disk.")
        self.assertNotIn("refused", said)
        self.assertIn("dsk 123456", self.type_line("dsk 238614 3 0 1"))
        self.browser.click("#own")
        self.wait_still()
        self.browser.wait("document.querySelector('#drives-count').textContent === 'no image'")
        self.assertEqual(self.rows(), ["no image"] * 8)
