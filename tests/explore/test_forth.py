"""The Forth of examples/forth: its files are what its sources make, and it can be sat at."""
import os
import shutil
import subprocess
from pathlib import Path

from media.make_forth import kernel_of, words_of
from nezdrab import Machine

from .explore_case import BUILT, ROOT, Case
from .terminal import AtTerminal

FORTH = ROOT / "examples" / "forth"
SOURCES = sorted(it.name for it in FORTH.glob("*.mac")) + ["forth.fth"]
HUNTED = "./explore examples/forth/long/lost-note.session\n"
NO_INSTRUCTION = "there is no instruction 'MOVE' of the PDP-11/40"
NO_INCLUDE = "a source that is included can't include another"
MADE = ("forth.disk", "forth.lst", "kernel.sym")


# A file of the source, a text in it, another in its place, and what is said of its line.
FAULTS = (
    ("threads.mac", "MOV     (R5)+,-(SP)", "MOVE R5", NO_INSTRUCTION),
    ("devices.mac", "JSR     PC,TAKE\n        CMP", "JSR PC,TOOK\n CMP", "there is no symbol TOOK"),
    ("forth.mac", ".=400\n", ".=100\n", ".=100 goes back from 104"),
    ("forth.mac", '.TEXT   "ok"', ".ASCIZ /ok/", "there is no .ASCIZ /ok/"),
    ("compiler.mac", "ABORT ABORT", "QUIT ABORT", "QUIT is there already"),
    ("dictionary.mac", "; ---- The dictionary.", '.INCLUDE "forth.mac"', NO_INCLUDE),
    ("forth.fth", "block 17\n", "block 16\n", "block 16 is there already"),
    ("forth.fth", "32 CONSTANT BL", "1 " * 50, "a line has up to 64 characters of ASCII"),
)


class Sources(Case):
    """What make forth makes of sources."""

    def make(self, *words: str) -> "subprocess.CompletedProcess[str]":
        command = [str(ROOT / "tools" / "make"), "forth", *words]
        return subprocess.run(command, cwd=self.folder, capture_output=True, text=True)

    def copied(self) -> Path:
        folder = self.folder / "mine"
        folder.mkdir()
        for name in SOURCES:
            shutil.copy(FORTH / name, folder)
        return folder

    def says(self, name: str, old: str, new: str, said: str) -> None:
        """What is said of the sources with another text in one of them."""
        folder = self.copied()
        self.addCleanup(shutil.rmtree, folder, True)
        text = (folder / name).read_text()
        self.assertEqual(text.count(old), 1, old)
        (folder / name).write_text(text.replace(old, new))
        ended = self.make("mine")
        line = text[: text.index(old)].count("\n") + 1
        self.assertEqual(ended.stderr, f"make forth: mine/{name}: line {line}: {said}\n")
        self.assertEqual((ended.returncode, ended.stdout), (1, ""))
        self.assertEqual(sorted(it.name for it in folder.iterdir()), sorted(SOURCES))
        shutil.rmtree(folder)

    def test_the_stored_files_are_what_it_makes(self) -> None:
        self.assertEqual(self.make("examples/forth", ".").returncode, 0)
        for name in MADE:
            self.assertEqual((self.folder / name).read_bytes(), (FORTH / name).read_bytes(), name)

    def test_the_stored_words_are_those_in_core(self) -> None:
        labels = kernel_of(FORTH, BUILT.disassembler).labels
        session = FORTH / "long" / "lost-note.session"
        with Machine.of_session(session, program=BUILT.program) as machine:
            self.assertEqual(words_of(machine, labels), (FORTH / "words.sym").read_text())

    def test_faults_have_their_place(self) -> None:
        for it in FAULTS:
            self.says(*it)

    def test_a_block_has_16_lines(self) -> None:
        folder = self.copied()
        (folder / "forth.fth").write_text("block 8\n" + "1\n" * 17)
        self.assertIn("line 18: a block has up to 16 lines", self.make("mine").stderr)
        (folder / "forth.fth").write_text("block 8\n" + "1\n" * 16)
        self.assertEqual(self.make("mine").stderr, "")
        held = (folder / "forth.disk").read_bytes()
        self.assertEqual(held[8192:], (b"1" + b" " * 63) * 16)

    def test_what_it_cannot_read(self) -> None:
        for words, status in (((), 2), (("--words",), 2), (("a", "b", "c"), 2), (("-x",), 2)):
            self.assertEqual(self.make(*words).returncode, status, words)
        self.assertIn("No such file", self.make("nowhere").stderr)
        folder = self.copied()
        (folder / "forth.fth").write_bytes(b"block 8\n\xff\n")
        ended = self.make("mine")
        self.assertEqual((ended.returncode, ended.stderr.count("\n")), (1, 1))


class Hunt(Case):
    """The hunt as README.md has it."""

    def test_its_lines_are_those_of_the_script(self) -> None:
        text = (FORTH / "README.md").read_text()
        block = text[text.index(HUNTED) :].partition("```")[0].splitlines()[1:]
        typed = [it.split("  ")[0].rstrip() for it in block]
        script = (FORTH / "hunt.explore").read_text().splitlines()
        left_out = [it for it in script if not it.startswith("#") and it not in typed]
        self.assertEqual([it for it in typed if it not in script], [])
        said = ["where", "sweep", "alter", "dsk", "undo"]  # what the others lead to
        self.assertEqual([it.split()[0] for it in left_out], said)


class Sitting(AtTerminal):
    """A person at the console, who also pastes, and types badly."""

    def shows(self, keys: bytes, text: bytes) -> None:
        os.write(self.ours, keys)
        self.wait_for(text)

    def test_it_is_sat_at(self) -> None:
        self.begin("examples/forth/forth.session")
        self.type("console rate 1000000\n")
        self.wait_for(b"Forth on a PDP-11/40\r\nok\r\n")
        self.shows(b"2 3 + .\r", b"2 3 + . 5  ok\r\n")
        lines = [b": EVEN 2 MOD 0= ;", b": EVENS 0 DO I EVEN IF I . THEN LOOP ;", b"9 EVENS"]
        pasted = [*lines, b"20 LIST 0 PUT of a paste", b"FLUSH 20 BLOCK 10 TYPE"]
        self.shows(b"\r".join(pasted) + b"\r", b"9 EVENS 0 2 4 6 8  ok\r\n")
        self.wait_for(b"FLUSH 20 BLOCK 10 TYPE of a paste ok\r\n")
        self.shows(b"\x1b[A\t\x01\x7f\x7f\x7f\x7f\x7f\r", b" ok\r\n")
        self.shows(b"nothing of it\r", b"nothing of it nothing ?\r\n")
        self.shows(b": L BEGIN AGAIN ; L\r", b"AGAIN ; L ")
        self.shows(b"\x03", b"L ? stopped\r\n")
        self.shows(b"BYE\r", b"[the processor is halted; Ctrl-E leaves]")
        self.shows(b"\x05", b"events 1 to ")
        self.type("quit!\n")
        self.assertEqual(self.child.wait(), 0)
