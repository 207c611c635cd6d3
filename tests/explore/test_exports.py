"""`export` of a range of turns: lines of a listing for genhtml; what is refused, asked, stopped."""
import re
import shutil
import subprocess
import unittest
from pathlib import Path

from nezdrab.core.replies import Mode

from .explore_case import SECONDS
from .systems import LEDGER, OfSystems
from .terminal import AtTerminal
from .test_profiles import LISTING, counts_of

GENHTML = shutil.which("genhtml")
LEDGER_LISTING = "examples/ledger/ledger.lst"
BOTH = f"with {LEDGER_LISTING} and {LEDGER_LISTING} at 160000 user"
TURNS = range(100, 3_100)
SPAN = f"from {TURNS.start} to {TURNS.stop - 1}"


class Lines(OfSystems):
    """Files for genhtml."""

    def test_counts_are_those_of_each_turn(self) -> None:
        (self.folder / "k.sym").write_text("SAVE 1110\nKEY 1232\nWRITE 1430\n")
        line = f"symbols k.sym kernel\nexport it.lcov {SPAN} {BOTH}\n"
        said = self.explore(line, *LEDGER).splitlines()
        text = (self.folder / "it.lcov").read_text()
        counts = {int(at): int(count) for at, count in re.findall(r"DA:(\d+),(\d+)\n", text)}
        listing = (self.folder / LEDGER_LISTING).resolve()
        ran = counts_of(self.machine(LEDGER), TURNS)
        wanted = {it: 0 for it in counts}
        numbers = {it[:6]: at for at, it in enumerate(listing.read_text().splitlines(), 1)}
        for place, count in ran.items():
            base = 0 if place.mode == Mode.KERNEL else 0o20000
            wanted[numbers[f"{place.address + base:06o}"]] += count
        self.assertEqual(counts, wanted)
        hit = sum(1 for it in counts.values() if it)
        self.assertIn(f"\nLF:{len(counts)}\nLH:{hit}\nend_of_record\n", text)
        self.assertIn(f"TN:\nSF:{listing}\nFN:", text)
        names = {name: count for count, name in re.findall(r"FNDA:(\d+),(\w+)\n", text)}
        begins = {"SAVE": "001110", "KEY": "001232", "WRITE": "001430"}
        self.assertEqual(names, {it: str(counts[numbers[at]]) for it, at in begins.items()})
        turns = f"the turns {TURNS.start} to {TURNS.stop - 1} are in it.lcov"
        self.assertEqual(said[1], f"{turns}: {hit} of {len(counts)} instructions ran")

    @unittest.skipUnless(GENHTML, "lcov's genhtml isn't installed")
    def test_genhtml_reads_it(self) -> None:
        said = self.explore(f"export it.lcov {SPAN} {BOTH}\n", *LEDGER)
        ended = subprocess.run(
            [str(GENHTML), "-o", "pages", "it.lcov"],
            cwd=self.folder,
            capture_output=True,
            text=True,
            timeout=SECONDS,
        )
        self.assertEqual(ended.returncode, 0, ended.stderr)
        ran, count = re.findall(r": (\d+) of (\d+) instructions ran", said)[0]
        self.assertRegex(ended.stdout, rf"\({ran} of {count} lines\)")
        self.assertTrue((self.folder / "pages" / "index.html").exists())


class Refusals(OfSystems):
    """What isn't written, and says what to type."""

    def test_what_is_refused(self) -> None:
        (self.folder / "it.lst").write_text(LISTING)
        form = "export FILE at N  or  export [-y] FILE from N to M [with ..]"
        after = "after with: LISTING [at A] [kernel|user] [and LISTING ..]"
        refused = (
            ("it", f"the form is: {form}"),
            ("it.vcd from 5", f"the form is: {form}"),
            ("it.vcd from 0 to 5 with", f"the form is: {form}"),
            ("it.vcd from 9 to 5", "turn 5 comes before turn 9"),
            ("it.vcd from 9 to 1000000000", "turn 1000000000 is the end of the run"),
            ("it.txt from 0 to 5", "FILE ends in .vcd, .callgrind, .folded or .lcov; the form"),
            ("it.vcd from 1 to 2000001", "2000001 turns are more than 2000000; the first: from 1"),
            ("it.folded from 0 to 20000000", "20000001 turns are more than 20000000; the first"),
            ("it.vcd from 0 to 5 with 30001", "mem 0 30001 1: refused 3 OddAddress"),
            ("it.vcd from 0 to 5 with 760000", "mem 0 760000 1: refused 2 OutsideCore"),
            ("it.vcd from 0 to 5 with NONE", "there is no symbol 'NONE'"),
            (f"it.vcd from 0 to 5 with{' 0' * 33}", "33 words are more than 32"),
            ("it.lcov from 0 to 5", "an .lcov counts lines of a listing: .. to M with LISTING"),
            ("it.lcov from 0 to 5 with none", "none: No such file or directory"),
            ("it.lcov from 0 to 5 with it.lst at", after),
            ("it.lcov from 0 to 5 with it.lst and", after),
            ("it.callgrind from 0 to 5 with it.lst at 1", "A is odd: 1"),
            ("it.callgrind from 0 to 5 with it.lst user kernel", after),
            ("it.folded from 0 to 5 with it.lst", "nothing stands after `to M` for a .folded"),
            ("no/it.vcd from 0 to 5", "no/it.vcd can't be written: No such file or directory"),
            ("it.vcd from 0 to 1999999", "2000000 turns take some 33 s and 90 MB; export -y .. "),
            ("it.folded from 0 to 1999999", "2000000 turns take some 20 s; export -y .. does them"),
        )
        lines = "".join(f"export {it}\n" for it, _ in refused)
        written = self.explore(lines, "--echo", *LEDGER)
        for part, (line, said) in zip(re.split("^explore> ", written, flags=re.M)[1:], refused):
            self.assertIn(f"export {line}\nexport: {said}", part)
        self.assertEqual(sorted(it.name for it in self.folder.glob("it*")), ["it.lst"])

    def test_a_file_that_is_there(self) -> None:
        (self.folder / "it.vcd").write_text("mine\n")
        written = self.explore("export it.vcd from 0 to 5\nexport! it.vcd from 0 to 5\n", *LEDGER)
        self.assertIn("export: it.vcd is there already; export! overwrites it\n", written)
        self.assertIn("$enddefinitions", (self.folder / "it.vcd").read_text())

    def test_a_full_disk(self) -> None:
        """The limit of a file's size stands in for the end of a disk."""
        limited = ["bash", "-c", 'ulimit -f 1; trap "" XFSZ; exec "$@"', "bash", *self.command()]
        more = {".lcov": BOTH, ".callgrind": BOTH}
        endings = (".vcd", ".callgrind", ".lcov")
        lines = [f"export it{it} {SPAN} {more.get(it, '')}" for it in endings]
        ended = subprocess.run(
            [*limited, "--no-journal", *LEDGER],
            input="".join(f"{it}\n" for it in lines),
            cwd=self.folder,
            env=self.full_disk(),
            capture_output=True,
            text=True,
            timeout=SECONDS,
        )
        said = [f"export: {it.split()[1]} can't be written: File too large" for it in lines]
        self.assertEqual(ended.stdout.splitlines(), said, ended.stderr)
        self.assertEqual([it.name for it in self.left()], [])

    def left(self) -> list[Path]:
        """The files that there are besides those of the test."""
        return [it for it in self.folder.iterdir() if it.name not in ("examples", "state")]


class AtThePrompt(AtTerminal):
    """What takes long."""

    def answer(self, text: str) -> None:
        """What is typed at a question."""
        self.seen = b"explore> "
        self.type(text)

    def test_it_is_asked_before_and_ctrl_c_leaves_no_file(self) -> None:
        self.begin("--no-journal", *LEDGER)
        said = b"1900000 turns take some 32 s and 86 MB; begin? (y or n) "
        for answer in ("n\n", "\x04"):
            self.type("export it.vcd from 0 to 1899999\n")
            self.wait_for(said)
            self.answer(answer)
            self.wait_for(b"export: not begun\r\n")
        for line in ("export it.vcd from 0 to 1899999", "export -y it.folded from 0 to 19999999"):
            self.type(f"{line}\n")
            if "-y" not in line:
                self.wait_for(said)
                self.answer("y\n")
            self.wait_for(b" turns, ")  # the bar
            self.interrupt()
            self.wait_for(b"export: stopped; the edits are all there\r\n")
            self.settle()
        self.type("export it.folded from 0 to 20\n")
        self.wait_for(b"the turns 0 to 20 are in it.folded: 1 stack\r\n")
        self.end()
        self.assertEqual(sorted(it.name for it in self.folder.glob("it*")), ["it.folded"])
        self.assertEqual(list(self.folder.glob(".explore-*")), [])
