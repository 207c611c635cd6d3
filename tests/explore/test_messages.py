"""What is refused is refused by name, and what people type is known."""
import subprocess
import sys
from unittest import mock

from nezdrab.analysis.compare import parts_of_texts
from nezdrab.analysis.disassembly import Disassemble, Disassembler
from nezdrab.analysis.search import not_found
from nezdrab.core.engine import LAST_TURN
from nezdrab.core.errors import ExploreError

from .explore_case import BUILT, SECONDS, Case

ABOVE = "is above 1000000000"
LAST = "the turns 5 to 999999999"


class Messages(Case):
    """Numbers, words and bytes."""

    def refuses(self, line: str, message: str, *words: str) -> None:
        written = self.explore(f"{line}\n", *words)
        self.assertIn(message, written, line)
        self.assertEqual(self.error, "")

    def test_turns_that_are_too_large(self) -> None:
        for line in (
            "until PC 5 from 5000000000",
            "next 1000 to 9999999999",
            "first core 1000 = 5 from 1000000001",
            "sweep tick from 0 to 9999999999: regs 5",
            "type x from 9999999999",
            "compare from 1000000001",
            "see 1000000001",
            "show 9999999999",
            "screen 9999999999",
            "list 1000 3 at 9999999999",
            "dump 1000 3 at 9999999999",
            "diff 0 9999999999",
            "where disk 5 9999999999",
            "export it at 9999999999",
            "drop from 9999999999",
            "page it.html to 1000000001",
        ):
            turn = line.split(":")[0].split()[-1]
            self.refuses(f"core 0 1\n{line}", f"{line.split()[0]}: turn {turn} {ABOVE}\n")

    def test_turns_that_never_run(self) -> None:
        """Each is refused at once: a run up to the end takes a while."""
        end = "turn 1000000000 is the end of the run: the last turn is 999999999\n"
        for line in (
            "until PC 5 from 1000000000",
            "next 1000 to 1000000000",
            "first disk 5 = 5 from 1000000000",
            "compare from 1000000000",
        ):
            self.refuses(f"core 0 1\n{line}", f"{line.split()[0]}: {end}")
        self.assertEqual(not_found(range(5, LAST_TURN), "it"), f"not in {LAST}; the run ends there")

    def test_what_is_no_number(self) -> None:
        """A digit of another script, and more digits than Python takes."""
        three, many = "\u0663", "9" * 5000
        for line in (
            f"show {three}",
            f"page it.html to {three}",
            f"sweep -j {three} tick from 1 to 2: regs 5",
            f"sweep -j {many} tick from 1 to 2: regs 5",
            f"sweep {many} from 1 to 2: regs 5",
        ):
            written = self.explore(f"{line}\n")
            self.assertRegex(written, "^(show|page|sweep): .*(form is: |N of -j is 1 to 256)")

    def test_a_key_that_comes_after_the_last_turn(self) -> None:
        # TSTB @#177560; BPL .-4; MOVB @#177562,R0; BR: each key is taken
        words = ("105737", "177560", "100375", "113700", "177562", "772")
        taking = "".join(f"core {0o1000 + 2 * at:o} {it}\n" for at, it in enumerate(words))
        message = "type: turn 1000000010 is above 1000000000; 1 of 2 keys are typed\n"
        self.refuses(f"{taking}type ab from 11 every 999999999", message)

    def test_a_drive_in_version_1(self) -> None:
        for line in ("first disk 3 5 = 0", "where disk 3 5 60"):
            self.refuses(line, "version 1 has one drive, which isn't named; see version 2\n")
        self.assertIn("disk 3 0000005", self.explore("version 2\nfirst disk 3 5 = 0\n"))

    def test_a_tab_between_words(self) -> None:
        session = "examples/first-run.session"
        self.assertEqual(self.explore("see\t2\n", session), self.explore("see 2\n", session))

    def test_numbers_with_commas(self) -> None:
        self.refuses("regs 1,000", "N, a turn: 1,000 is written 1000, without")
        message = "see: 1,000,000 is written 1000000, without commas; see [N [C]] [operands]"
        self.refuses("see 1,000,000", message)
        for line in (
            "page it.html to 1,000",
            "sweep tick from 1 to 1,000: regs 5",
            "type x from 1,000",
        ):
            self.refuses(line, f"{line.split()[0]}: 1,000 is written 1000, without commas; ")

    def test_type_begins_after_the_last_event(self) -> None:
        self.refuses("at 30 tick\ntype a", "event 2 at 31 key 141\n")

    def test_bytes_that_are_no_text(self) -> None:
        ended = subprocess.run(
            self.command("--echo"),
            input=b"core \377 5\ntype \377\n",
            cwd=self.folder,
            env={**self.environment(), "LC_ALL": "C.UTF-8"},
            capture_output=True,
            timeout=SECONDS,
        )
        self.assertEqual(ended.stderr, b"")
        self.assertIn(b"is octal, and '\\377' has '\\377'", ended.stdout)
        self.assertIn(b"event 1 at 0 key 377\n", ended.stdout)

    def test_characters_that_the_terminal_lacks(self) -> None:
        ended = subprocess.run(
            self.command("--echo"),
            input="core \u20ac 5\ntype \u20ac\n".encode(),
            cwd=self.folder,
            env={**self.environment(), "PYTHONIOENCODING": "ascii", "PYTHONUTF8": "0"},
            capture_output=True,
            timeout=SECONDS,
        )
        self.assertEqual((ended.returncode, ended.stderr), (0, b""))
        self.assertIn(b"has '\\u20ac'", ended.stdout)
        self.assertIn(b"is no byte", ended.stdout)

    def test_a_fault_of_explore_is_one_line(self) -> None:
        """A program that answers what no program does stands in for a fault."""
        wrong = self.folder / "wrong"
        wrong.write_text(
            f"#!{sys.executable}\n"
            "import sys\n"
            "for line in sys.stdin:\n"
            "    print('ok' if line.startswith('core') else 'R0 9 run', flush=True)\n"
        )
        wrong.chmod(0o755)
        lines = "core 0 1\nshow 5\nregs 0\n"
        written = self.explore(lines, "--program", str(wrong), "--journal", "mine").splitlines()
        self.assertEqual(self.error, "")
        self.assertTrue(written[1].startswith("show: a fault of explore, please report it: "))
        self.assertTrue(written[1].endswith("; the edits are in mine"), written[1])
        self.assertEqual(written[2:], ["R0 9 run"])

    def test_words_of_other_debuggers(self) -> None:
        lines = "show 1\nstep\nback 2\nback\nstep 2\nstep 999999999\nrun\nrun 1000\n"
        written = self.explore(lines, "examples/first-run.session")
        turns = [int(it.split()[2][:-1]) for it in written.splitlines() if it.startswith("before")]
        self.assertEqual(turns, [1, 2, 0, 2])
        self.assertIn("back: that is before turn 0: the current turn is 0\n", written)
        self.assertIn("step: that is after turn 1000000000: the current turn is 2\n", written)
        self.assertEqual(written.count("each turn is there already: show N"), 2)

    def test_texts_that_part(self) -> None:
        """What is left out of a text is marked, and no byte is cut in two."""
        same, ours, theirs = "\\015" * 30, "a" * 50, "b"
        found = parts_of_texts(f"text 80:{same}{ours}", f"text 31:{same}{theirs}")
        self.assertEqual(found, f"..{same[:80]}{ours[:40]}.. | ..{same[:80]}{theirs}")

    def test_a_listing_ends_with_core(self) -> None:
        written = self.explore("list 37776 3 at 0\n", "--units", "2")
        self.assertEqual(written, "037776  000000                HALT\n040000  no core is there\n")

    def test_a_disassembler_that_is_stopped(self) -> None:
        """A reply that nobody read isn't that to the next line."""
        disassembler = Disassembler(BUILT.disassembler)
        self.addCleanup(disassembler.close)
        with mock.patch.object(Disassemble, "line", side_effect=KeyboardInterrupt):
            with self.assertRaises(KeyboardInterrupt):
                disassembler.instruction(0o1000, [0o240, 0, 0])
        self.assertEqual(disassembler.instruction(0o1000, [0, 0, 0]).text, "HALT")
        assert disassembler.texts.child
        disassembler.texts.child.process.kill()
        killed = "^disassemble: the program ended with status -9$"
        with self.assertRaisesRegex(ExploreError, killed):
            disassembler.instruction(0o1002, [0, 0, 0])
        self.assertEqual(disassembler.instruction(0o1002, [0, 0, 0]).text, "HALT")

    def test_words_that_end(self) -> None:
        for word in ("quit", "q", "exit"):
            self.assertEqual(self.explore(f"{word}\nregs 0\n"), "")
