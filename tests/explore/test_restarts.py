"""The program that is started again, images that are written, and the examples of media."""
import os
import signal
import subprocess
import sys
from typing import Sequence
from unittest import mock

from nezdrab.core.engine import Machine
from nezdrab.core.program import Program

from .explore_case import ROOT, SECONDS
from .machines import OnMachine
from .media import Media, tape, words
from .terminal import AtTerminal

MEDIA = ROOT / "examples" / "media"
SETUP = (
    "setup version 1 units 31 start 001000 stride 64 printer 1 reader 4 punch 4 disk 10 clock 0"
    " tape 0"
)


EDITS = ("at 3 key 101", "core 1000 777", "at 3 tick", "tape 1 2", "delay disk 7", "alter 1 2 tick")


class MadeAgain(OnMachine):
    """Edits that were taken back are made again by the program, which has them, as long as it
    does."""

    def past(self, machine: Machine) -> list[object]:
        told = [machine.read(it) for it in ("events", "patches", "setup", "devices 9")]
        return [machine.journal[:], machine.replies[:], *told]

    def sent(self, machine: Machine, edits: Sequence[str]) -> list[str]:
        """What is sent to make the edits again."""
        found: list[str] = []
        replies = Program.replies

        def noted(program: Program, lines: Sequence[str]) -> list[str]:
            found.extend(lines)
            return replies(program, lines)

        with mock.patch.object(Program, "replies", noted):
            machine.make_again(edits)
        return found

    def test_the_program_makes_them_again(self) -> None:
        machine = self.explorer("", EDITS).machine
        for count in range(1, len(EDITS) + 1):
            past = self.past(machine)
            machine.take_back(count)
            half = list(EDITS[-count:])[: (count + 1) // 2]
            self.assertEqual(self.sent(machine, half), ["redo"] * len(half))
            rest = list(EDITS[-count:])[len(half) :]
            self.assertEqual(self.sent(machine, rest), ["redo"] * len(rest))
            self.assertEqual(self.past(machine), past)

    def test_they_are_sent_if_the_program_lacks_them(self) -> None:
        for between in ("restart", "another edit", "version 2"):
            machine = self.explorer("", EDITS).machine
            edits = list(EDITS[-2:])
            if between == "version 2":
                edits = [*edits, "version 2"]
                machine.ask("version 2")
            past = self.past(machine)
            machine.take_back(len(edits))
            if between == "restart":
                machine.restart()
            elif between == "another edit":  # which is taken back as well
                machine.ask("core 2000 5")
                machine.take_back(1)
            sent = self.sent(machine, edits)
            self.assertEqual(sent[-len(edits) :], edits, between)
            self.assertNotIn("redo", sent)
            self.assertEqual(self.past(machine), past, between)


class Starts(Media):
    """The program that is started again."""

    TAPE = tape((0o2000, words(0o12700, 5, 0)), start=0o2000)

    def test_undo_and_redo(self) -> None:
        self.put("it", self.TAPE)
        lines = "core 3000 1\nload it\nregs 2\nundo\nregs 0\npatches\nredo\nregs 2\n"
        lines += "undo\nundo\nregs 0\n"
        written = self.explore(lines).splitlines()
        self.assertIn("R0 000005", written[2])
        self.assertEqual(written[3], "taken back: load it (2 edits)")
        self.assertIn("PC 001000", written[4])
        self.assertEqual(written[5:7], ["patches 1", "core 003000 000001"])
        self.assertEqual(written[7:9], ["made again: load it (2 edits)", written[2]])
        self.assertIn("PC 001000", written[-1])

    def test_a_load_that_changes_the_start_alone(self) -> None:
        self.put("it", tape((0o2000, words(0)), start=0o2000))
        written = self.explore("load it\nregs 0\nundo\nregs 0\nredo\nregs 0\n").splitlines()
        self.assertIn("0 patches, start 2000 (started again)", written[0])
        starts = [it.split("PC ")[1][:6] for it in written if "PC " in it]
        self.assertEqual(starts, ["002000", "001000", "002000"])

    def test_the_journal_has_the_start(self) -> None:
        self.put("it", self.TAPE)
        self.put("my.session", b"core 3000 1\n")
        lines = "core 3002 2\nload it\nregs 2\npatches\n"
        written = self.explore(lines, "--journal", "mine", "my.session")
        asked = "".join(written.splitlines(True)[2:])
        self.assertTrue((self.folder / "mine").read_text().startswith("#! --start 2000\n# session"))
        again = self.explore("regs 2\npatches\nundo\nregs 0\n", "--resume", "mine")
        self.assertIn("3 edits taken up", again)
        self.assertIn(asked, again)

    def test_undo_writes_the_journal_too(self) -> None:
        self.put("it", self.TAPE)
        self.explore("core 3002 2\nload it\nundo\ncore 3004 3\n", "--journal", "mine")
        again = self.explore("regs 0\npatches\n", "--resume", "mine")
        self.assertIn("PC 001000", again)
        self.assertIn("core 003002 000002\ncore 003004 000003\n", again)

    def test_save_has_the_start(self) -> None:
        self.put("it", self.TAPE)
        written = self.explore("load it\nsave my.session\nregs 2\n")
        self.assertTrue((self.folder / "my.session").read_text().startswith("#! --start 2000\n"))
        self.assertIn(self.explore("regs 2\n", "my.session"), written)

    def test_the_journal_leaves_no_other_file(self) -> None:
        self.put("it", self.TAPE)
        (self.folder / "kept").mkdir()
        self.explore("core 3002 2\nload it\n", "--journal", "kept/mine")
        self.assertIn("--start 2000", (self.folder / "kept" / "mine").read_text())
        self.assertEqual([it.name for it in (self.folder / "kept").iterdir()], ["mine"])

    def test_a_program_that_refuses_the_patches(self) -> None:
        """A stand-in answers the second patch as if memory were short: nothing is loaded."""
        stand_in = self.folder / "stand-in"
        stand_in.write_text(
            f"#!{sys.executable}\n"
            "import sys\n"
            "for line in sys.stdin:\n"
            "    word, *rest = line.split()\n"
            "    if word == 'mem': print('mem', *['000000'] * int(rest[2]), flush=True)\n"
            "    elif line.startswith('core 2002'): print('refused 1 NoMemory', flush=True)\n"
            "    elif word == 'core': print('ok', flush=True)\n"
            f"    elif word == 'setup': print({SETUP!r}, flush=True)\n"
            "    else: print('R0', sys.argv[1:], flush=True)\n"
        )
        stand_in.chmod(0o755)
        self.put("it", self.TAPE)
        written = self.explore("load it\nregs 0\nundo\n", "--program", str(stand_in)).splitlines()
        self.assertEqual(
            written[0], "load: it: core 2002 5: refused 1 NoMemory; nothing was changed"
        )
        self.assertNotIn("--start", written[1])
        self.assertTrue(written[2].startswith("undo: no edit was made here"), written[2])


class Killed(AtTerminal):
    """A run at a terminal that is killed after a load."""

    def test_it_is_taken_up_with_its_start(self) -> None:
        (self.folder / "it").write_bytes(Starts.TAPE)
        self.begin("examples/first-run.session")
        self.type("core 3000 1\n")
        self.wait_for(b"ok")
        self.type("load it\n")
        self.wait_for(b"start 2000 (started again)")
        self.type("regs 2\n")
        self.wait_for(b"R0 000005")
        self.wait_for(b"explore> ")
        os.killpg(self.child.pid, signal.SIGKILL)
        self.child.wait(SECONDS)
        self.seen = b""
        self.begin("--resume")
        self.wait_for(b"3 edits taken up")
        self.type("undo\n")
        self.wait_for(b"taken back: load it (2 edits)")
        self.type("redo\n")
        self.wait_for(b"made again: load it (2 edits)")
        self.type("regs 2\n")
        self.wait_for(b"R0 000005")
        self.type("mem 2 3000 1\n")
        self.wait_for(b"mem 000001")
        self.end()


class Full(Media):
    """A disk without room for the journal. The limit of a file's size stands in for its end."""

    def test_the_options_wait(self) -> None:
        self.put("it", tape((0o2000, words(0)), start=0o2000))
        edits = "core 2774 177777\ncore 2776 177777\n"
        edits += "".join(f"core {it:o} 5\n" for it in range(0o3000, 0o3000 + 2 * 29, 2))
        lines = f"{edits}load it\nregs 0\nundo\nload it\ncore 3000 5\nsave my.session\nquit!\n"
        limited = ["bash", "-c", 'ulimit -f 1; trap "" XFSZ; exec "$@"', "bash"]
        ended = subprocess.run(
            [*limited, *self.command("--journal", "mine")],
            input=lines,
            cwd=self.folder,
            env=self.full_disk(),
            capture_output=True,
            text=True,
            timeout=SECONDS,
        )
        self.assertEqual(ended.stderr, "")
        written = ended.stdout.splitlines()[31:]
        full = "the journal can't be written: File too large; edits are in memory alone"
        self.assertIn("0 patches, start 2000 (started again)", written[0])
        self.assertEqual(written[1], full)
        self.assertIn("PC 002000", written[2])
        self.assertEqual(written[3], "taken back: load it")
        self.assertEqual(written[5], full)
        self.assertIn("--start 2000", (self.folder / "my.session").read_text()[:20])
        self.assertFalse([it for it in self.folder.iterdir() if it.name.startswith(".explore")])


class Images(Media):
    """`core FILE at N` and `disk FILE at N`."""

    def test_core(self) -> None:
        written = self.explore("core 1000 12700\ncore 1002 5\ncore it at 2\nmem 2 1000 3\n")
        self.assertIn("core before turn 2 is in it: 253952 bytes", written)
        self.assertEqual((self.folder / "it").stat().st_size, 253_952)
        asked = self.explore("mem 0 1000 3\n", "--core", "it")
        self.assertIn(asked, written)

    def test_a_drive(self) -> None:
        session = "examples/who-wrote-this-word.session"
        written = self.explore("disk it at 40\nexport all.ini at 40\ndsk 40 0 4\n", session)
        self.assertIn("drive 0 before turn 40 is in it: 2494464 bytes\n", written)
        image = (self.folder / "it").read_bytes()
        self.assertEqual(image, (self.folder / "all.rk0").read_bytes())
        self.assertIn(self.explore("dsk 0 0 4\n", "--disk", "it"), written)

    def test_eight_drives(self) -> None:
        lines = "version 2\ndisk 3 5 777\ndisk 3 three at 0\ndisk zero at 0\ndisk 3 at 0\n"
        self.explore(lines)
        self.assertEqual((self.folder / "three").read_bytes()[10:12], words(0o777))
        self.assertEqual((self.folder / "zero").read_bytes(), bytes(2_494_464))
        self.assertEqual((self.folder / "3").read_bytes(), bytes(2_494_464))
        self.assertIn("version 1 has one drive", self.explore("disk 3 it at 0\n"))

    def test_a_file_of_others(self) -> None:
        for word in ("core", "disk"):
            mine = self.put("mine", b"mine")
            refused = f"{word}: mine is there already; {word}! overwrites it\n"
            self.assertEqual(self.explore(f"{word} mine at 0\n"), refused)
            self.assertIn("in mine: ", self.explore(f"{word}! {mine} at 0\n"))
        self.assertEqual(self.explore("core . at 0\n"), "core: . is a folder\n")
        self.assertIn("above 1000000000", self.explore("core it at 1000000001\n"))
        self.assertFalse((self.folder / "it").exists())

    def test_the_lines_of_the_language_go_through(self) -> None:
        lines = "core 1000 5\ndisk 0 5\ncore at 5\ncore 1000 at 5 5\ndrop 3 at 5\npatches\n"
        written = self.explore(lines).splitlines()
        self.assertEqual(written[:2], ["ok", "ok"])
        self.assertIn("patches 2", written)
        self.assertIn("  drop E: 'at' is too much", written)


class Examples(Media):
    """The media in examples/media."""

    def test_they_are_what_the_script_makes(self) -> None:
        making = [str(ROOT / "tools" / "make"), "media", "."]
        subprocess.run(making, cwd=self.folder, check=True)
        made = sorted(it.name for it in self.folder.glob("hello.*"))
        self.assertEqual(made, ["hello.aout", "hello.bytes", "hello.lda", "hello.lst"])
        for name in made:
            self.assertEqual((self.folder / name).read_bytes(), (MEDIA / name).read_bytes(), name)
