"""The fewest events of a reply, against runs of their own for subsets; and at a terminal."""
import os
import random
import signal
import subprocess
from typing import Iterable, Sequence

from nezdrab.analysis.sought_reply import is_reply
from nezdrab.core.engine import Machine
from nezdrab.core.twins import Reduction

from .explore_case import ROOT
from .machines import LEDGER, OnMachine
from .terminal import AtTerminal

WAREHOUSE = ROOT / "examples" / "who-wrote-this-word.session"
EVENTS = ("key 101", "key 102", "tick", "disk", "switches 5", "continue", "printer")
QUESTIONS = ("regs {}", "dsk {} 0 1", "devices {}", "last {} 2000", "trail {} 5", "mem {} 2000 4")


class BruteForce(OnMachine):
    def past(self, chance: random.Random) -> list[str]:
        """The warehouse with random events, some of which come in one turn."""
        lines = WAREHOUSE.read_text().split("\nat ")[0].splitlines()
        patches = [it for it in lines if it.startswith(("core", "disk", "delay"))]
        turns = [chance.randrange(50) for _ in range(4)]
        return [*patches, *(f"at {chance.choice(turns)} {chance.choice(EVENTS)}" for _ in range(9))]

    def reply(self, past: Sequence[str], gone: Iterable[int], question: str) -> str:
        """What a session of its own replies, in which these events are dropped."""
        lines = [*past, *(f"drop {it}" for it in gone), "regs 0", question, ""]
        program, text = [self.command("")[2]], "\n".join(lines)
        ran = subprocess.run(program, input=text, capture_output=True, text=True, check=True)
        return ran.stdout.split(" run\n", 1)[1].rstrip("\n")

    def check(self, seed: int) -> int:
        """Compares a reduction with sessions. Returns how many events could go."""
        chance = random.Random(seed)
        past = self.past(chance)
        explorer = self.explorer(edits=past)
        machine, question = explorer.machine, chance.choice(QUESTIONS).format(chance.randrange(60))
        reply, before = machine.read(question), list(machine.script)
        twin = machine.twin()
        self.addCleanup(twin.close)
        reduction = Reduction(twin, [question], lambda it: it == [reply], list(machine.script))
        for _ in reduction.steps():
            pass
        kept = {it.number for it in reduction.kept}
        gone = [it.number for it in before if it.number not in kept]
        self.assertEqual(self.reply(past, gone, question), reply, (seed, question))
        for number in kept:
            other = self.reply(past, [*gone, number], question)
            self.assertNotEqual(other, reply, (seed, question, number))
        self.assertEqual(machine.script, before)
        return len(gone)

    def test_no_event_that_is_left_can_go(self) -> None:
        gone = [self.check(seed) for seed in range(30)]
        self.assertGreater(len(set(gone)), 3)

    def test_the_order_of_events_in_a_turn(self) -> None:
        """Of the keys of one turn the last alone counts, whichever are tried before it."""
        past = ["core 1000 777", *(f"at 20 key {it}" for it in (101, 102, 103, 104)), "at 20 tick"]
        machine = self.explorer(edits=past).machine
        for wanted in ("000104", "000103", "000101"):
            edits = [f"alter 4 {19 if wanted != '000104' else 20} key 104"]
            edits += [f"alter 3 {19 if wanted == '000101' else 20} key 103"]
            edits += ["alter 2 19 key 102", "alter 1 20 key 101"] if wanted == "000101" else []
            machine.edit_all(edits)
            twin = machine.twin()
            self.addCleanup(twin.close)
            shows = f"TKB {machine.devices(22)['TKB']:06o}"
            reduction = Reduction(
                twin, ["devices 22"], lambda it: shows in it[0], list(machine.script)
            )
            for _ in reduction.steps():
                pass
            (left,) = reduction.kept
            self.assertEqual(f"TKB {int(left.text.split()[1], 8):06o}", shows)


class Replies(OnMachine):
    def test_which_reply_is_meant(self) -> None:
        same = (
            ("dsk 000140", "dsk 000140"),
            ("140", "dsk 000140"),
            ("dsk  140", "dsk 000140"),
            ("10 0", "mem 000010 000000"),
            ("..", "text 3:a b"),
            ("text 5:a  b c", "text 5:a  b c"),
            ("..b..", "text 5:a  b c"),
            ("R0 5 .. run", "R0 000005 R1 000000 run"),
            ("none", "first none"),
            ("..TKB 101..", "devices TKS 000000 TKB 000101 TPS 000200"),
            ("0 000000 0", "mem 000000 000000 000000"),
        )
        for sought, reply in same:
            self.assertTrue(is_reply(sought, reply), (sought, reply))
        other = (
            ("14", "dsk 000140"),
            ("140 0", "dsk 000140"),
            ("text 5:a b c", "text 5:a  b c"),
            ("a", "text 1:a"),
            ("1.0", "mem 000120"),
            ("text 5:a 7", "text 5:a 007"),
        )
        for sought, reply in other:
            self.assertFalse(is_reply(sought, reply), (sought, reply))

    def test_lines(self) -> None:
        session = f"examples/{LEDGER}"
        question = "first 0 130000 where core 30000 = 132"
        lines = (
            f"reduce 14 15: {question} = 127851",
            f"reduce 14 15: {question}",
            f"reduce 14 15: {question} = 5",
            "reduce 14: at 5 tick = 6",
            "reduce 99: regs 5",
            "reduce 14",
            "reduce : setup",
            "reduce : regs 5 6",
            "events",
        )
        written = self.explore("\n".join(lines) + "\n", session).splitlines()
        least = "2 events of 2 left after 3 tries; gone: none"
        self.assertEqual(written[3:5], [least, "without any one of them it isn't so"])
        self.assertEqual(written[:5], written[5:10])
        self.assertEqual(written[10], "reduce: = 5 isn't so: the reply is first 127851")
        said = ["an edit is no question", "no event has the number 99; events lists them"]
        said += ["the form is: reduce [E ..]: QUESTION [=|!= REPLY]"]
        self.assertEqual(written[11:14], [f"reduce: {it}" for it in said])
        self.assertTrue("reduce: 'setup' is no question" in written[14], written[14])
        self.assertTrue(written[15].startswith("reduce: regs 5 6: refused 10 BadLine"))
        self.assertEqual(written[16], "27 events")

    def test_another_reply_than_one(self) -> None:
        """R0 is 1 without keys; that done is set before turn 6 needs one of six."""
        past = "core 1000 5200\ncore 1002 777\n" + "".join(f"at {it} key 101\n" for it in range(9))
        asked = ("first 3 6 where R0 != 0 != none", "devices 6 != ..TKS 0 ..", "regs 5 !=")
        lines = past + "".join(f"reduce : {it}\n" for it in asked)
        written = self.explore(lines).splitlines()[11:]
        self.assertEqual(written[1], "0 events of 6 left after 1 try; gone: 1-6")
        (event,) = (it for it in written[2:] if it.startswith("event"))
        self.assertIn("key 101", event)
        self.assertIn("1 event of 6 left after", written[-3])
        self.assertEqual(written[-1], "reduce: the form is: reduce [E ..]: QUESTION [=|!= REPLY]")

    def test_what_is_left_when_the_program_ends(self) -> None:
        explorer = self.explorer(LEDGER)
        reduction = Reduction(
            explorer.machine.twin(), ["dsk 138071 0 1"], lambda _: True, explorer.machine.script[:9]
        )
        self.addCleanup(reduction.twin.close)
        steps = reduction.steps()
        next(steps)
        self.assertEqual(reduction.kept, [])
        self.assertEqual(list(steps), [])
        self.assertEqual((reduction.is_least, reduction.tried), (True, 1))


class AtPrompt(AtTerminal):
    """The bar, Ctrl-C, a program that is killed, and the past after each."""

    def programs(self) -> list[int]:
        """The processes of the program below explore."""
        path = f"/proc/{self.child.pid}/task/{self.child.pid}/children"
        with open(path, encoding="ascii") as file:
            return [int(it) for it in file.read().split()]

    def slow(self) -> str:
        """A line whose tries take long: a key each 100000 turns, of which none matters."""
        self.begin()
        for line in ("core 1000 5200", "core 1002 776"):
            self.type(f"{line}\n")
        for turn in range(1, 41):
            self.type(f"at {turn}00000 key 101\n")
        return "reduce : devices 40000000 = ..TKB 000101..\n"

    def test_ctrl_c_keeps_the_fewest(self) -> None:
        line = self.slow()
        self.type(line)
        self.wait_for(b" tries; ")
        self.interrupt()
        shown = self.wait_for(b"stopped: these are the fewest so far, and fewer may do\r\n")
        self.assertRegex(shown, r"[0-9]+ events? of 40 left after [0-9]+ tr(y|ies); gone: ")
        self.seen = b"explore> "
        self.type(line)
        self.wait_for(b" tries; ")
        self.interrupt()
        self.interrupt()
        self.settle()
        self.type("events\n")
        self.wait_for(b"40 events")
        self.end()

    def test_a_program_that_is_killed(self) -> None:
        line = self.slow()
        self.type("regs 5\n")
        self.wait_for(b" run\r\n")
        before = self.programs()
        self.type(line)
        self.wait_for(b" tries; ")
        (twin,) = [it for it in self.programs() if it not in before]
        os.kill(twin, signal.SIGKILL)
        self.wait_for(b"these are the fewest so far, and fewer may do")
        self.type("events\n")
        self.wait_for(b"40 events")
        self.end()
