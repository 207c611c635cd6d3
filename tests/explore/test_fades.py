"""From which turn on the run after an edit is the one before it again."""
from pathlib import Path

from nezdrab.analysis.fades import Fading
from nezdrab.core.engine import Machine, Start
from nezdrab.main import read_session

from .explore_case import BUILT, SECONDS, Case
from .terminal import AtTerminal

LEDGER = "examples/ledger/ledger.session"
# Event 15 is the key 6, in turn 126967. The kernel takes it at the same turn if it comes in turn
# 127100, and a little later in turn 127164.
SAME, LATER = "alter 15 127100 key 66", "alter 15 127164 key 66"
EARLIER = "alter 15 126400 key 66"
SWITCHES = "at 127000 switches 0"  # as they are
PATCH = "core 30000 5"  # the disk is the first to write the word, in turn 18522
SAME_TURNS = "the old run again from turns 126968 to 127151 on"
AGAIN, NOT_AGAIN = "the old run again from turn {} on", "not the old run again before turn {}"
# A program without the line: what it is given goes to the one that is tested.
OLDER = """#!/bin/sh
sed -u 's/^fades/none/' | {program} "$@"
"""


class Fades(Case):
    """Edits on a machine of this process."""

    def setUp(self) -> None:
        super().setUp()
        self.machine = Machine(Start(BUILT.program, [], Path.cwd()))
        self.addCleanup(self.machine.close)
        read_session(self.machine, self.folder / LEDGER)
        self.fading = Fading()

    def said(self, *lines: str) -> list[str]:
        """What is said once these edits are made, one after the other."""
        for reply in self.fading.make(self.machine, lines):
            self.assertRegex(reply, "^(ok|event [0-9]+)$")
        return self.fading.said(self.machine)

    def test_edits_together(self) -> None:
        """Each is asked about on the run that the ones before it have made."""
        self.machine.read("regs 128500")
        self.assertEqual(self.said(LATER), [AGAIN.format(127179)])
        these = "with these 2 edits "
        self.assertEqual(self.said(SAME), [these + AGAIN.format(127179)])
        self.machine.read("regs 128500")
        self.assertEqual(self.said(LATER, SWITCHES), [these + AGAIN.format(127179)])
        self.machine.read("regs 128500")
        self.assertEqual(self.said(SWITCHES, EARLIER), [these + NOT_AGAIN.format(128500)])
        # back again, which isn't found out
        self.assertEqual(self.said(LATER), [])
        self.machine.read("regs 128500")
        self.assertEqual(self.said(SAME), [AGAIN.format(127179)])

    def test_nothing_is_said_of_what_was_not_asked(self) -> None:
        self.assertEqual(self.said(SAME), [])  # no question came before
        self.machine.read("regs 127164")
        self.assertEqual(self.said(LATER), [])  # the edit's turn wasn't run
        self.machine.read("regs 128500")
        self.assertEqual(self.said("delay punch 5"), [])
        self.assertEqual(self.said(SAME), [])  # the line of the delay is among them
        self.machine.read("regs 128500")
        self.assertEqual(self.said(SWITCHES), [AGAIN.format(127001)])
        self.machine.ask("at 60000 key 60")  # as other commands make edits
        self.assertEqual(self.said(SWITCHES), [])
        self.machine.read("regs 128500")
        self.machine.take_back(1)
        self.assertEqual(self.said(LATER), [])  # the question was about another past

    def test_patches(self) -> None:
        """They count from turn 0. One of a value that the word has anyway changes nothing."""
        self.assertEqual(self.said(PATCH), [])  # nothing was run
        self.machine.read("regs 20000")
        self.assertEqual(self.said("core 30000 6"), [AGAIN.format(18523)])
        these = "with these 2 edits "
        self.assertEqual(self.said("disk 0 100"), [these + AGAIN.format(18523)])
        self.machine.read("regs 20000")
        self.assertEqual(self.said("core 60000 0", "disk 100 1"), [these + NOT_AGAIN.format(20000)])
        self.machine.read("regs 20000")
        self.assertEqual(self.said("core 60000 0"), [AGAIN.format(0)])
        self.fading = Fading(15_000)
        further = "; no further turn was looked at"
        self.assertEqual(self.said("core 30000 5"), [NOT_AGAIN.format(15_000) + further])

    def test_edits_have_a_bound(self) -> None:
        self.machine.read("regs 128500")
        self.fading = Fading(150)
        self.assertEqual(self.said(SAME), [AGAIN.format(127101)])
        self.assertEqual(self.said(LATER), [])  # the first one has taken it all
        self.machine.read("regs 128500")
        further = "; no further turn was looked at"
        self.assertEqual(self.said("alter 15 127250 key 66"), [NOT_AGAIN.format(127314) + further])


class Shown(AtTerminal):
    """What is shown with an edit that is typed."""

    def shown(self, *words: str) -> str:
        """What is shown after these words begin, for an edit that fades."""
        self.begin(LEDGER, *words)
        self.type("regs 128500\n")
        self.type(f"{LATER}\n")
        self.wait_for(f"{LATER}\r\n".encode())
        shown = self.wait_for(b"explore> ")
        self.end_with(b"explore> ")
        return shown

    def end_with(self, prompt: bytes) -> None:
        self.seen = prompt + self.seen
        self.type("quit!\n")
        self.assertEqual(self.child.wait(SECONDS), 0)

    def test_at_a_terminal(self) -> None:
        said = f"ok\r\n{AGAIN.format(127179)}\r\n"
        self.assertTrue(self.shown().endswith(said))

    def test_an_older_program_says_nothing_of_it(self) -> None:
        older = self.folder / "older"
        older.write_text(OLDER.format(program=BUILT.program))
        older.chmod(0o755)
        self.assertEqual(self.shown("--program", str(older)), "ok\r\n")
        line = "sweep --fades 15 from 127000 to 127000: regs 128500\n"
        written = self.explore(line, LEDGER, "--program", str(older))
        edit = "alter 15 127000 key 66"
        self.assertEqual(written, f"sweep: {edit}: the program doesn't say whether it fades\n")

    def test_lines_of_a_pipe_give_what_they_gave(self) -> None:
        replies = self.explore(f"regs 128500\n{LATER}\n", LEDGER).splitlines()
        self.assertEqual(replies[1:], ["ok"])


class Told(Case):
    """The commands that tell it."""

    def test_compare_ends_there(self) -> None:
        written = self.explore(f"{SAME}\ncompare\n{EARLIER}\ncompare to 127500\n", LEDGER)
        first, second = written.split("ok\n")[1:]
        self.assertIn("registers: no difference in the turns 126967 to 127100\n", first)
        self.assertTrue(first.endswith("\nthe same from turn 127101 on\n"))
        self.assertIn("registers part in turn ", second)
        self.assertNotIn("the same", second)

    def test_compare_of_a_patch_ends_there(self) -> None:
        written = self.explore(f"{PATCH}\ncompare\ndisk 0 100\ncompare\n", LEDGER)
        first, second = written.split("ok\n")[1:]
        self.assertIn("registers: no difference found in the turns 0 to 18522, of which", first)
        self.assertTrue(first.endswith("\nthe same from turn 18523 on\n"))
        self.assertTrue(second.endswith("\nthe same from turn 0 on\n"))

    def test_the_line_has_symbols(self) -> None:
        (self.folder / "names").write_text("BALANCE 30000\ncore 20000\n")
        lines = [f"fades 20000 {it}" for it in ("core BALANCE 5", "disk core 5", "uncore BALANCE")]
        written = self.explore("\n".join(["symbols names", *lines, ""]), LEDGER)
        why = "  the form is: fades N EDIT, and EDIT is a line of core, disk, at, alter, drop"
        refused = ["refused 10 BadLine", why]
        self.assertEqual(written.splitlines()[1:], ["fades 18523", *refused, *refused])

    def test_a_sweep_of_edits_that_fade(self) -> None:
        line = "15 from 126950 to 127250 step 100: dsk 128500 0 1"
        written = self.explore(f"sweep --fades -j 2 -o kept {line}\nsweep --gather kept\n", LEDGER)
        wanted = [
            f"turns 126950 to 127150 step 100: dsk 000132; {SAME_TURNS}",
            f"turn 127250: dsk 000140; {NOT_AGAIN.format(128500)}",
            "4 turns, 2 runs of equal replies",
        ]
        swept, gathered = written.split("# sweep --fades key 66 moved from turn 126967: ")
        self.assertEqual(swept.splitlines(), wanted)
        self.assertEqual(gathered.splitlines()[1:], wanted)
        # without the option it is another sweep
        self.assertIn("of another sweep", self.explore(f"sweep -o kept {line}\n", LEDGER))

    def test_a_sweep_looks_up_to_the_last_turn_of_a_search(self) -> None:
        for search in ("transfers {}", "writes {} 20000", "first {} at 0"):
            asked = search.format("128000 128500")
            written = self.explore(f"sweep --fades 15 from 127250 to 127250: {asked}\n", LEDGER)
            self.assertIn(f"; {NOT_AGAIN.format(128500)}\n", written)
