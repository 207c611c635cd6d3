"""Programs that are opened: tapes of the absolute loader and a.outs, with their symbols, and
listings. Core and symbols are compared with what explore's readers find in the same files."""
import os
import random
import struct
from pathlib import Path

from nezdrab.core.aout import aout_of
from nezdrab.core.symbol_files import symbol_file
from nezdrab.shell.absolute_tape import tape_of
from tests import processes
from tests.explore.media import PROGRAM, TAPE, tape, words

from .page_case import LOST, ROOT, packed_page, replies_of
from .test_page_files import FilesCase

MEDIA = ROOT / "examples" / "media"
LDA, AOUT, LISTING = (MEDIA / f"hello.{it}" for it in ("lda", "aout", "lst"))
PRINTS = "text 7:HELLO"
KEPT = "at 5 switches 1"
SYMBOLS = (
    "[...document.querySelectorAll('#instructions tbody tr')].map(it => it.lastChild.textContent)"
)


class LoadingCase(FilesCase):
    def setUp(self) -> None:
        super().setUp()
        if packed_page().startswith("http"):
            self.skipTest("the page isn't packed")

    def empty(self) -> None:
        """Opens a session without lines."""
        path = self.folder() / "empty.session"
        path.write_text("")
        self.give(path)
        self.wait_still()

    def symbols(self) -> list[str]:
        """The symbols that stand beside the instructions."""
        self.open_tab("machine")
        return list(self.browser.value(SYMBOLS))

    def loads(self, *paths: Path) -> str:
        self.give(*paths)
        self.wait_still()
        return self.browser.text("#reply")

    def count(self, wanted: int) -> None:
        self.browser.wait(f"document.querySelectorAll('#edits > li').length === {wanted}")
        self.wait_still()

    def words(self, at: int, count: int) -> list[int]:
        """Words of core at power-up, as the page's machine has them."""
        reply = self.type_line(f"mem 0 {at:o} {count}").partition(": mem ")[2]
        return [int(it, 8) for it in reply.split()]

    def has(self, placed: dict[int, int]) -> None:
        """Core has these bytes at power-up, and the other byte of a word is 0."""
        first, last = min(placed) & ~1, max(placed)
        places = range(first, last + 1, 2)
        wanted = [placed.get(it, 0) | placed.get(it + 1, 0) << 8 for it in places]
        self.assertEqual(self.words(first, len(places)), wanted)

    def put(self, name: str, data: bytes) -> Path:
        path = self.folder() / name
        path.write_bytes(data)
        return path


class Loading(LoadingCase):
    def test_a_tape_and_its_listing(self) -> None:
        self.empty()
        said = self.loads(LDA)
        self.assertIn("3 blocks: 1000 to 1035 in core, 14 patches, start 1000.", said)
        self.has(tape_of(LDA.read_bytes()).bytes)
        self.assertIn(PRINTS, self.type_line("text 1000"))
        said = self.loads(LISTING)
        self.assertIn("7 symbols of a MACRO-11 listing", said)
        self.count(1)
        places = {it.value: it.name for it in symbol_file(LISTING.read_text()).symbols}
        self.fill("#turn", "0")
        self.browser.key("Enter")
        self.wait_text("#instructions", "START")
        shown = [it for it in self.symbols() if it]
        self.assertEqual(shown[0], places[0o1000])
        self.assertTrue({"LOOP", "WAIT", "LOOP+2"} <= set(shown), shown)
        self.fill("#find-what", "DONE")
        self.browser.key("Enter")
        found = replies_of([*self.edits_of(LDA), "first 1 1000 at 1024"])[-1]
        self.wait_text("#find-said", f"Turn {found.split()[-1]}.")
        self.fill("#inspect-from", "TEXT")
        self.browser.key("Enter")
        self.wait_text("#inspected", "001026")

    def edits_of(self, path: Path) -> list[str]:
        placed = tape_of(path.read_bytes()).bytes
        places = sorted({it & ~1 for it in placed})
        return [f"core {at:o} {placed[at] | placed.get(at + 1, 0) << 8:o}" for at in places]

    def test_an_aout_has_its_symbols_and_its_start(self) -> None:
        self.empty()
        program = aout_of(AOUT.read_bytes())
        said = self.loads(AOUT)
        self.assertIn(f"a.out 0407, {program.parts}: 0 to 35 in core", said)
        self.assertIn("start 0 (Undo leaves it so), 5 symbols.", said)
        self.has(program.bytes)
        self.assertIn("PC 000000", self.type_line("regs 0"))
        self.assertIn(PRINTS, self.type_line("text 1000"))
        places = {it.name for it in program.symbols if not it.is_constant}
        names = {it.partition("+")[0] for it in self.symbols()}
        self.assertLessEqual(names, places | {""})
        self.assertIn("wait", names)
        lines = self.saved("#save").read_text().splitlines()
        self.assertEqual(lines[1], "#! --start 0")
        self.assertIn(PRINTS, "\n".join(replies_of(lines, "--start", "0")))

    def test_undo_takes_a_load_back_and_a_reload_keeps_it(self) -> None:
        """Beside edits of one's own: they stay, and what was there before comes back."""
        lines = [f"core {0o1000 + 2 * it:o} {0o401 * it:o}" for it in range(16)]
        self.loads(self.put("own.session", "".join(f"{it}\n" for it in lines).encode()))
        self.type_line("core 1002 777")
        self.count(1)
        before = self.words(0o1000, 16)
        self.assertEqual(before[:3], [0, 0o777, 0o1002])
        data = tape((0o1000, words(*range(5, 13))), (0o1021, b"A"), start=0o2000)
        self.assertIn("start 2000 (Undo leaves it so)", self.loads(self.put("a.lda", data)))
        now = [*range(5, 13), before[8] & 0o377 | 0o101 << 8, *before[9:]]
        self.assertEqual(self.words(0o1000, 16), now)
        self.assertIn("PC 002000", self.type_line("regs 0"))
        self.count(2)
        self.browser.reload()
        self.count(2)
        self.assertEqual(self.words(0o1000, 16), now)
        self.browser.click("#edits > li:nth-child(2) input")
        self.wait_text("#reply", "switched off")
        self.assertEqual(self.words(0o1000, 16), before)
        self.browser.click("#edits > li:nth-child(2) input")
        self.wait_text("#reply", "switched on")
        self.assertEqual(self.words(0o1000, 16), now)
        self.browser.click("#undo")
        self.count(1)
        self.assertEqual(self.words(0o1000, 16), before)
        self.browser.click("#redo")
        self.count(2)
        self.assertEqual(self.words(0o1000, 16), now)

    def test_a_program_is_loaded_over_a_session_that_is_dropped_with_it(self) -> None:
        session = self.put("own.session", b"#! --units 2\ncore 1000 5\ncore 3000 7\nregs 10\n")
        said = self.loads(session, LDA)
        self.assertIn("own.session, hello.lda", said)
        self.assertEqual(self.browser.text("#session-name"), "own.session")
        self.assertEqual(self.words(0o3000, 1), [7])
        self.has(tape_of(LDA.read_bytes()).bytes)
        self.count(1)

    def test_wrong_files_are_told_and_nothing_is_lost(self) -> None:
        self.type_line(KEPT)
        place = TAPE.index(b"\1\0") + 6
        for name, data, said in (
            ("a.lda", TAPE[:place] + b"\1" + TAPE[place + 1 :], "the checksum is"),
            ("a.lda", TAPE[:50], "a.lda: the tape ends"),
            ("a.lda", b"core 1000 5\n", "it is text, and no tape"),
            ("a", PROGRAM[:30], "by its head at least 62; if it is an image"),
            ("a.out", words(0o411) + bytes(14), "link it without -i"),
            ("v6.tape.gz", b"\x1f\x8b\0", "is a gzip: gunzip it first"),
            ("a.lst", b"nothing here at all\n", "a.lst: it has no symbol"),
            ("a", bytes(100), "is no session, no tape of the absolute loader and no a.out"),
        ):  # fmt: skip
            self.browser.value("document.querySelector('#reply').textContent = ''")
            self.browser.give_files("#files", [str(self.put(name, data))])
            self.assertIn("Nothing was ", self.wait_text("#reply", said))
            self.assertEqual(self.edits(), [KEPT])
            self.assertIn("ledger", self.browser.text("#session-name"))
        self.balance(LOST)
        small = self.put("small.session", b"#! --units 1\nregs 0\n")
        far = self.put("far.lda", tape((0o20000, words(1)), start=0o2000))
        self.browser.give_files("#files", [str(small), str(far)])
        self.wait_text("#reply", "far.lda: it goes on to 20001, and core ends at 17777. Nothing was")
        self.assertIn("ledger", self.browser.text("#session-name"))
        self.assertEqual(self.edits(), [KEPT])
        self.assertIn("PC 001000", self.type_line("regs 0"))

    def test_a_program_of_all_of_core_takes_no_long_time(self) -> None:
        """At most a minute of the processor, or on a slow one 40 times what a sixteenth takes."""
        short = self.seconds_of(0o7000)
        self.assertLess(self.seconds_of(0o160000), max(60, 40 * short))

    def seconds_of(self, size: int) -> float:
        """What of the processor it takes to load a program of this size, take it back, and have it
        there again."""
        self.empty()
        data = random.Random(size).randbytes(size)
        parts = [(at, data[at : at + 0o1000]) for at in range(0, size, 0o1000)]
        before = processes.seconds(os.getpid())
        self.loads(self.put("all.lda", tape(*parts)))
        self.assertEqual(self.words(size - 2, 1), list(struct.unpack("<H", data[-2:])))
        self.browser.click("#undo")
        self.count(0)
        self.assertEqual(self.words(size - 2, 1), [0])
        self.browser.click("#redo")
        self.count(1)
        self.browser.reload()
        self.count(1)
        self.assertEqual(self.words(0, 1), list(struct.unpack("<H", data[:2])))
        shown = self.browser.value("document.querySelectorAll('#edits code').length")
        self.assertLess(shown, 300)
        seconds = processes.seconds(os.getpid()) - before
        self.browser.click("#undo")
        self.count(0)
        return seconds


class Alone(LoadingCase):
    """Programs on a machine of their own."""

    def begin(self, *paths: Path) -> str:
        self.browser.value("document.querySelector('#reply').textContent = ''")
        self.browser.give_files("#boot-file", [str(it) for it in paths])
        said = self.wait_text("#reply", "Loaded: ")
        self.wait_still()
        return said

    def test_a_tape_and_an_aout(self) -> None:
        self.type_line(KEPT)
        self.begin(LDA, LISTING)
        self.assertEqual(self.browser.text("#session-name"), "hello.lda")
        self.assertEqual(self.edits(), [])
        self.has(tape_of(LDA.read_bytes()).bytes)
        self.wait_text("#text", "HELLO")
        self.assertIn("START", self.symbols())
        self.begin(AOUT)
        self.has(aout_of(AOUT.read_bytes()).bytes)
        self.assertIn("PC 000000", self.type_line("regs 0"))
        self.assertIn("start", self.symbols())
        self.browser.reload()
        self.wait_text("#text", "HELLO")
        self.browser.click("#own")
        self.wait_text("#session-name", "ledger")
        self.wait_text("#edits", KEPT)

    def test_what_begins_nothing(self) -> None:
        for paths, said in (
            ([self.put("a.lda", TAPE[:50])], "the tape ends"),
            ([LISTING, self.put("a.disk", b"ab")], "what begins here is one image"),
            ([LDA, self.put("a.disk", b"ab")], "what begins here is one image"),
        ):
            self.browser.give_files("#boot-file", [str(it) for it in paths])
            self.wait_text("#reply", said)
            self.assertIn("ledger", self.browser.text("#session-name"))
