"""tools/check jumps and each-turn, on a script that stands in the place of the program, and
bench/jumps, on a program in C."""
import os
import shutil
import subprocess
import tempfile
import unittest
from pathlib import Path

from .linked import LACKING, SCRIPT, Linked, chosen
from .tree import ROOT, SECONDS

# R0 counts the turns. In {wrong} `turn` is the one asked about, `last` the one asked before it.
PROGRAM = """\
#!/usr/bin/env python3
import sys
last, off = 0, 0
for line in sys.stdin:
    print(line.strip(), file=open(sys.argv[0] + ".lines", "a"))
    if line.startswith("regs"):
        turn = int(line.split()[1])
        off += {wrong}
        print("R0", turn + off)
        last = turn
    else:
        print("ok")
"""
TRANSCRIPT = "regs 2\nR0 2\nregs 3\nR0 3\ncore 0 1\nregs 1\nR0 1\n"
WITH_EACH_TURN = """\
regs 1
regs 0
regs 2
regs 0
regs 2
regs 3
regs 0
regs 3
core 0 1
regs 1
regs 0
regs 1
"""


class EachTurn(unittest.TestCase):
    def setUp(self) -> None:
        folder = tempfile.TemporaryDirectory()
        self.addCleanup(folder.cleanup)
        self.folder = Path(folder.name).resolve()
        (self.folder / "stored").mkdir()
        (self.folder / "stored" / "three.transcript").write_text(TRANSCRIPT)

    def last_line(self, wrong: str, name: str) -> str:
        program = self.folder / "pdp11"
        program.write_text(PROGRAM.format(wrong=wrong))
        program.chmod(0o755)
        ran = subprocess.run(
            [str(ROOT / "tools" / "check"), name, "--skipped", "0", "stored"],
            env={**os.environ, "TESTED_PDP11": str(program)},
            capture_output=True,
            text=True,
            timeout=SECONDS,
            cwd=self.folder,
        )
        return ran.stdout.splitlines()[-1]

    def test_which_questions_are_asked(self) -> None:
        self.assertEqual(self.last_line("0", "each-turn"), "1 passed, 0 failed")
        self.assertEqual((self.folder / "pdp11.lines").read_text(), WITH_EACH_TURN)

    def test_a_turn_that_is_wrong_from_a_loaded_state(self) -> None:
        wrong = "last == 0 and turn == 3"
        self.assertEqual(self.last_line(wrong, "jumps"), "1 passed, 0 failed")
        self.assertEqual(self.last_line(wrong, "each-turn"), "0 passed, 1 failed")

    def test_a_program_that_stops(self) -> None:
        self.assertEqual(self.last_line("1 // 0", "each-turn"), "0 passed, 1 failed")


BURST, PLACE = chosen()
# The turns that are asked for, each a call of the burst, whose jump ends BEFORE + 2 bytes past its
# begin. Of two functions of 16 bytes one isn't at a multiple of 32 by chance.
TURNS = r"""
#include <stdlib.h>
#include <string.h>
#include <unistd.h>
#define FUNCTION(name, label, code) \
    void name(void) __asm__(label); __attribute__((naked)) void name(void) { __asm__(code "ret"); }
FUNCTION(one, "pdp_word::one", ".skip 15, 0x90\n")
FUNCTION(two, "pdp_word::two", ".skip 15, 0x90\n")
FUNCTION(burst, BURST, ".skip " BEFORE ", 0x90\n jmp 1f\n 1: ")
int main(void) {
    static char lines[4096];
    char *asked = read(0, lines, sizeof lines - 1) < 0 ? 0 : strstr(lines, "regs ");
    if (!asked) asked = strstr(lines, " 0 ") - 2;
    long turns = atol(asked + 5);
    for (one(), two(); turns > 0; turns--) burst();
    return 0;
}
"""
TOOLS = [f"{it} isn't on PATH" for it in ("valgrind", "objdump", "nm") if not shutil.which(it)]
WITHOUT = ", ".join([LACKING] if LACKING else TOOLS)


@unittest.skipIf(WITHOUT, WITHOUT)
class SlowJumps(Linked):
    def setUp(self) -> None:
        super().setUp()
        self.with_kit()
        for name in "bench/jumps", "bench/measure.py":
            self.copy(name)
        self.write("bench/programs/loop.session", "core 1000 000777\n")

    def counted(self, before: int) -> "subprocess.CompletedProcess[str]":
        for name in "pdp11", "search":
            self.built(name, TURNS, f'-DBURST="{BURST}"', f'-DBEFORE="{before}"')
        linked = self.run_in("tools/release-static", "out/static", "pdp11", "search", kit=True)
        self.assertEqual(linked.returncode, 0, self.said)
        return self.run_in("bench/jumps", "100")

    def assertShows(self, ended: "subprocess.CompletedProcess[str]", slow: int) -> None:
        """The jump of the burst is slow if it begins at one of the places."""
        counts = "  ".join(f"{it:2} {1 if it == slow else 0:6.2f}" for it in range(0, 32, 8))
        lines = ended.stdout.splitlines()
        asked = ["first 0 N at 157700", "writes 0 N 157700", "first 0 N where USP = 157701"]
        self.assertEqual(lines[::3], ["pdp11, regs N", *(f"search, {it}" for it in asked)])
        self.assertEqual(lines[2::3], 4 * [f"{BURST} begins at {PLACE}: {counts}"])
        for line in lines[1::3]:
            self.assertRegex(line, r"^loop +\d+\.\d\d ")

    def test_a_burst_in_the_best_place(self) -> None:
        other = (PLACE + 16) % 32
        ended = self.counted((30 - other) % 32)
        self.assertEqual((ended.returncode, ended.stderr), (0, ""))
        self.assertShows(ended, other)

    def test_a_burst_that_another_place_is_better_for(self) -> None:
        ended = self.counted((30 - PLACE) % 32)
        wanted = f"{BURST} has fewer at {0 if PLACE else 8}: choose that in {SCRIPT}\n"
        self.assertEqual((ended.returncode, ended.stderr), (1, 4 * f"jumps: {wanted}"))
        self.assertShows(ended, PLACE)

    def test_a_program_that_is_linked_without_the_script(self) -> None:
        """By the kit after it was by tools/release-static, or by a script that says nothing."""
        self.counted(14)
        self.by_rattle_link("pdp11")
        self.assertRefused("crates/pdp11/out/pdp11", self.run_in("bench/jumps", "100"))
        os.remove(self.tree / "crates/pdp11/out/pdp11")
        self.write(SCRIPT, "SECTIONS {}\nINSERT BEFORE .init;\n")
        self.assertRefused("out/static/pdp11", self.counted(14))

    def assertRefused(self, path: str, ended: "subprocess.CompletedProcess[str]") -> None:
        self.assertEqual((ended.returncode, ended.stdout), (1, ""))
        wrong = f"^jumps: {path} isn't linked by {SCRIPT}: pdp_word::(one|two) isn't at a multiple"
        self.assertRegex(ended.stderr, wrong)
