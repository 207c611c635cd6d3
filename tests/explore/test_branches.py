"""The conditional branches before a turn: which there are, where they go, and what decided them,
against the words and the registers of each turn."""
import random
import re
from typing import Callable, NamedTuple

from nezdrab.core.engine import Machine
from nezdrab.core.replies import Registers
from nezdrab.dap.evaluate import Console, done

from .machines import LEDGER as OF_EDITOR, OnMachine
from .systems import KEYS, LEDGER, OfSystems
from .terminal import AtTerminal

# By the upper bits of the word, from bit 9 on: whether the branch with bit 8 set is taken.
TAKEN: dict[int, Callable[[int, int, int, int], int]] = {
    1: lambda n, z, v, c: z,
    2: lambda n, z, v, c: n ^ v,
    3: lambda n, z, v, c: z | n ^ v,
    0o100: lambda n, z, v, c: n,
    0o101: lambda n, z, v, c: c | z,
    0o102: lambda n, z, v, c: v,
    0o103: lambda n, z, v, c: c,
}
SOB, TURNS = 0o077, 600
ROW = re.compile(r" *([0-9]+)  .*  (taken|not taken)")
SOURCE = re.compile(r" +(.+): (?:turn ([0-9]+) .*|since .*)")


class Branch(NamedTuple):
    """A turn, and whether it is taken."""

    turn: int
    is_taken: bool


class BruteForce(OfSystems):
    def before(self, machine: Machine, end: int, count: int) -> list[Branch]:
        """The last branches before the turn, by each turn's word and codes."""
        found = list[Branch]()
        for turn in reversed(range(max(0, end - TURNS), end)):
            (act,) = machine.turns(turn, 1)
            if act.act != "instr" or len(found) == count:
                continue
            registers = machine.registers(turn)
            line = f"virtual {turn} {registers.mode.value} {act.pc:o} 1"
            word = int(machine.read(line).split()[1], 8)
            if word >> 9 in TAKEN:
                codes = (registers.ps >> it & 1 for it in (3, 2, 1, 0))
                found.append(Branch(turn, TAKEN[word >> 9](*codes) == (word >> 8 & 1)))
            elif word >> 9 == SOB:
                is_last = registers.words[f"R{word >> 6 & 7}"] == 1
                found.append(Branch(turn, not is_last))
        return found[::-1]

    def shown(self, line: str, words: tuple[str, ...]) -> tuple[list[Branch], list[str]]:
        written = self.explore(line, *words).splitlines()
        rows = (ROW.fullmatch(it) for it in written)
        branches = [Branch(int(it[1]), it[2] == "taken") for it in rows if it]
        return branches, written

    def test_branches_of_stored_systems(self) -> None:
        chance = random.Random(3)
        for words, turns in ((LEDGER, range(3_000, 238_000)), (KEYS, range(1_000, 20_000))):
            machine = self.machine(words)
            for end in chance.sample(turns, 4):
                wanted = self.before(machine, end, 6)
                found, written = self.shown(f"branches {end} 6\n", words)
                self.assertEqual(found[-len(wanted) :], wanted, end)
                self.assertEqual(len(found), 6)
                self.check_sources(machine, written)

    def check_sources(self, machine: Machine, written: list[str]) -> None:
        """Each value is that after the turn that is named, and before the branch."""
        turn = 0
        for line in written[1:]:
            row, source = ROW.fullmatch(line), SOURCE.fullmatch(line)
            turn = int(row[1]) if row else turn
            if source and source[2]:
                self.assertLess(int(source[2]), turn)
                before, after = machine.registers(turn), machine.registers(int(source[2]) + 1)
                self.assertEqual(said(before, source[1]), source[1], line)
                self.assertEqual(said(after, source[1]), source[1], line)

    def test_why_the_program_came_there(self) -> None:
        """The last branch, the turns since then that went elsewhere, and why its code was so."""
        chance, whys, others = random.Random(5), 0, 0
        for words, turns in ((LEDGER, range(3_000, 238_000)), (KEYS, range(1_000, 20_000))):
            machine = self.machine(words)
            for end in chance.sample(turns, 8):
                (branch,) = self.before(machine, end, 1)
                first, _, *shown = self.explore(f"why PC at {end}\n", *words).splitlines()
                self.assertEqual(first, f"PC before turn {end}: {machine.registers(end).pc:06o}")
                row = ROW.fullmatch(shown[0])
                self.assertEqual(row and (int(row[1]), row[2] == "taken"), branch, shown[0])
                rows = [it for it in shown[1:] if it[:10].strip().isdigit() and it[10:12] == "  "]
                found = [int(it.split()[0]) for it in rows]
                self.assertEqual(found, self.elsewhere(machine, range(branch.turn + 1, end)))
                others += len(found)
                codes = [it for it in shown if it.startswith(" " * 36)]
                if len(codes) == 1 and codes[0].split()[0] in "NZVC":
                    code = codes[0].split()[0]
                    why = self.explore(f"why {code} at {branch.turn}\n", *words).splitlines()
                    self.assertEqual(shown[-len(why) :], why)
                    whys += 1
        self.assertGreater(min(whys, others), 2)

    def elsewhere(self, machine: Machine, turns: range) -> list[int]:
        """The turns after which PC isn't right behind what it was, by the cycles that fetch."""
        found = list[int]()
        for turn in turns:
            (it,), _ = machine.accesses(range(turn, turn + 1))
            pc, after = it.turn.pc, machine.registers(turn + 1).pc
            place = next((cycle.address for cycle in it.cycles), None)
            fetched = {cycle.address for cycle in it.cycles}
            behind = 0
            while place is not None and place + behind in fetched and behind < 6:
                behind += 2
            is_next = after - pc in range(2, behind + 1, 2)
            found += [] if is_next or it.turn.act == "idle" else [turn]
        return found

    def test_why_pc_where_no_branch_is(self) -> None:
        said = self.explore("core 1000 777\nwhy PC\nwhy pc at 3\nwhy PC at 90\n").splitlines()[1:]
        row = "  kernel  001000  001000  BR 1000"
        rows = [f"{it:>10}{row}" for it in range(90)]
        start, none = "PC before turn {}: 001000", "no conditional branch in the turns 0 to {}"
        self.assertEqual(said[:2], [start.format(0), "no turn comes before"])
        self.assertEqual(said[2:7], [start.format(3), none.format(2), *rows[:3]])
        cut = "where PC went in the turns 0 to 25 isn't shown"
        self.assertEqual(said[7:], [start.format(90), none.format(89), cut, *rows[26:]])

    def test_what_decided_them(self) -> None:
        """MOV #3,R0; CLR R1; SOB R0,.-2; CMP R0,R1; BLE .+2; BHI .-2; SEC; BCS .; HALT."""
        words = "12700 3 5001 77002 20001 3401 101000 261 103400 0"
        past = "".join(f"core {0o1000 + 2 * at:o} {it}\n" for at, it in enumerate(words.split()))
        _, written = self.shown(f"{past}branches 12 3\nbranches 12 64\nbranches 1\n", ())
        shown = written[len(words.split()) :]
        source = " " * 36
        wanted = [
            "         6  kernel  001006  001006  SOB R0,1004  not taken",
            f"{source}R0 000001: turn 4 kernel 001006 SOB R0,1004, of R0",
            "         8  kernel  001012  001012  BLE 1016  taken",
            f"{source}Z 1, N 0, V 0: turn 7 kernel 001010 CMP R0,R1, of R0 R1",
            "        10  kernel  001020  001020  BCS 1022  not taken",
            f"{source}C 1: turn 9 kernel 001016 SEC",
        ]
        self.assertEqual(shown[1:7], wanted)
        none = "0 conditional branches in turn 0"
        self.assertEqual(shown[-2:], ["5 conditional branches in the turns 0 to 11", none])


class Elsewhere(OnMachine):
    def test_in_an_editors_console(self) -> None:
        """The lines of this and of other questions, as explore has them."""
        explorer, shown = self.explorer(OF_EDITOR), list[str]()
        console = Console(explorer, shown.append)
        for line in (
            "branches 3000 2",
            "why PC at 3000",
            "extremes 3000 3400",
            "first 0 200000 where disk 0 = 132",
            "changes TPB from 3000 to 3700",
            "log at 1110 from 3000 to 3100 : {R0}",
        ):
            wanted = self.explore(f"{line}\n", *LEDGER)
            self.assertEqual(f"{done(console, line, 5)}\n", wanted, line)


class Terminal(AtTerminal):
    def test_why_pc_before_the_current_turn(self) -> None:
        self.begin(*LEDGER)
        self.type("show 199980\n")
        self.type("why PC\n")
        self.wait_for(b"PC before turn 199980: 001122")
        self.wait_for(b"BEQ 1374  taken")
        self.wait_for(b"BR 1110")
        self.wait_for(b"Z before turn 199972: 1")
        self.type("show\n")
        self.wait_for(b"before turn 199980: ")
        self.end()


def said(registers: Registers, values: str) -> str:
    """These names with their values, as a line has them."""
    bits = {"N": 8, "Z": 4, "V": 2, "C": 1}
    names = [it.split()[0] for it in values.split(", ")]
    return ", ".join(
        f"{it} {int(bool(registers.ps & bits[it]))}" if it in bits
        else f"{it} {registers.words[it]:06o}"
        for it in names
    )
