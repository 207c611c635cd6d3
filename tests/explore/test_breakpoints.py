"""Breakpoints of each kind, forwards and backwards, against what the turns did one by one."""
import random
from typing import Optional

from nezdrab.analysis.explorer import Explorer
from nezdrab.core.engine import SHORT_SENT_AHEAD
from nezdrab.core.replies import Registers
from nezdrab.shell.command_table import COMMANDS

from .machines import OnMachine
from .terminal import AtTerminal
from .test_calls import HANOI, VECTORS, core

TURNS = range(6_000)
EMT, MOVES = 0o1062, 0o1276
LINES = {
    1: "break 1164",
    2: "break 1100 if R1 = 2 and R2 > 2",
    3: "break user 1164",
    4: "break kernel 1102 if KSP < 764",
    5: f"watch {MOVES:o}",
    6: "catch vector 100",
    7: "catch trap 30",
}


class Breakpoints(OnMachine):
    """On the towers of Hanoi."""

    def done(self, explorer: Explorer, line: str) -> list[str]:
        word, _, rest = line.partition(" ")
        return list(COMMANDS[word].lines(explorer, rest))

    def holding(self, explorer: Explorer) -> dict[int, set[int]]:
        """The numbers that hold at each turn."""
        machine = explorer.machine
        replies = machine.read_all([f"regs {turn}" for turn in TURNS], SHORT_SENT_AHEAD)
        registers = list(map(Registers.of, replies))
        words = [f"mem {turn} {MOVES:o} 1" for turn in range(TURNS.stop + 1)]
        moves = list(machine.read_all(words, SHORT_SENT_AHEAD))
        found: dict[int, set[int]] = {}
        for turn in machine.turns(0, len(TURNS)):
            at, before = turn.turn, registers[turn.turn].words
            pc = turn.pc if turn.act == "instr" else -1
            holds = {
                1: pc == 0o1164,
                2: pc == 0o1100 and before["R1"] == 2 and before["R2"] > 2,
                3: False,
                4: pc == 0o1102 and before["KSP"] < 0o764,
                5: moves[at] != moves[at + 1],
                6: turn.vector == 0o100,
                7: pc == EMT,
            }
            found[at] = {it for it, is_so in holds.items() if is_so}
        return found

    def test_each_kind(self) -> None:
        explorer = self.explorer("", [*VECTORS, *core(HANOI)])
        holding, chance = self.holding(explorer), random.Random(3)
        self.assertEqual(set().union(*holding.values()), set(LINES) - {3})
        for line in LINES.values():
            self.done(explorer, line)
        everything = list(explorer.breakpoints.points)
        for _ in range(150):
            kept = set(chance.sample(sorted(LINES), chance.randint(1, 3)))
            explorer.breakpoints.points[:] = [it for it in everything if it.number in kept]
            turn = chance.randrange(TURNS.stop)
            after = (it for it in range(turn + 1, TURNS.stop) if holding[it] & kept)
            before = (it for it in range(turn - 1, -1, -1) if holding[it] & kept)
            self.goes(explorer, turn, f"continue to {TURNS[-1]}", next(after, None), holding)
            self.goes(explorer, turn, "reverse-continue", next(before, None), holding)

    def goes(
        self, explorer: Explorer, turn: int, line: str, to: Optional[int],
        holding: dict[int, set[int]],
    ) -> None:
        explorer.turn = turn
        if turn == TURNS[-1] and not line.startswith("reverse"):
            return
        lines = self.done(explorer, line)
        kept = {it.number for it in explorer.breakpoints.points}
        if to is None:
            self.assertEqual((len(lines), explorer.turn), (1, turn), lines)
            return
        self.assertEqual(explorer.turn, to, (line, turn, kept))
        numbers = {int(it.split()[1].rstrip(":")) for it in lines[:-1]}
        self.assertEqual(numbers, holding[to] & kept)
        self.assertEqual(lines[-1], self.done(explorer, f"see {to + 1} 1")[1])


class AtPrompt(AtTerminal):
    """Typed at a terminal."""

    def test_ctrl_c_stops_continue_and_keeps_the_breakpoints(self) -> None:
        (self.folder / "my.session").write_text("\n".join([*core(HANOI), ""]))
        self.begin("my.session")
        self.type("break 1072\n")
        self.wait_for(b"breakpoint 1: break 1072")
        self.type("continue\n")
        self.wait_for(b"DEC R0")
        self.type("break 1 if R0 = 5\n")
        self.wait_for(b"breakpoint 2: break 1 if R0 = 5")
        self.type("delete 1\n")
        self.wait_for(b"breakpoint 1 is gone")
        self.type("continue\n")
        self.wait_for(b" turns, ")
        self.interrupt()
        self.wait_for(b"continue: stopped; the edits are all there")
        self.type("breakpoints\n")
        self.wait_for(b"breakpoint 2: break 1 if R0 = 5")
        self.assertEqual(self.turn, 6)
        self.type("reverse-continue\n")
        self.wait_for(b"no breakpoint holds in the turns 0 to 5")
        self.type("calls\n")
        self.wait_for(b"         5  kernel  001026  JSR                       001072")
        self.end()
