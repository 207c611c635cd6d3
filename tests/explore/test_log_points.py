"""The runs of an instruction with what a text names, `log at`, against all turns one by one."""
from pathlib import Path
from unittest import mock

from nezdrab.shell import log
from nezdrab.analysis.explorer import Explorer
from nezdrab.core.errors import ExploreError
from nezdrab.core.replies import INSTRUCTION, Registers
from nezdrab.shell.command_table import COMMANDS

from .machines import LEDGER, OnMachine
from .terminal import AtTerminal

TURNS = range(0, 3_000)


def lines_of(explorer: Explorer, line: str) -> list[str]:
    return list(COMMANDS["log"].lines(explorer, line))


class ByBruteForce(OnMachine):
    """Each turn is asked for its act, its registers, and the words at its stack."""

    def runs(self, explorer: Explorer, address: int) -> list[tuple[int, Registers]]:
        machine = explorer.machine
        acts = machine.turns(TURNS.start, len(TURNS))
        found = [it.turn for it in acts if it.act == INSTRUCTION and it.pc == address]
        return [(it, machine.registers(it)) for it in found]

    def test_all_registers(self) -> None:
        explorer = self.explorer(LEDGER)
        runs = self.runs(explorer, 0o1170)
        self.assertGreater(len(runs), 20)
        names = ("R0", "R1", "R2", "R3", "R4", "R5")
        wanted = [
            f"turn {turn}: {' '.join(f'{it} {of[it]:06o}' for it in names)} SP {of.sp:06o}"
            for turn, of in runs
        ]
        *shown, last = lines_of(explorer, "at 1170 from 0 to 2999")
        self.assertEqual(shown, wanted)
        self.assertEqual(last, f"{len(runs)} runs in the turns 0 to 2999")

    def test_words_conditions_and_modes(self) -> None:
        explorer = self.explorer(LEDGER)
        machine = explorer.machine
        all_runs = self.runs(explorer, 0o1170)
        process = all_runs[0][1].r5
        runs = [(turn, of) for turn, of in all_runs if of.r5 == process]
        self.assertTrue(0 < len(runs) < len(all_runs))
        wanted = [
            f"turn {turn}: {{{turn}}} {machine.word(turn, of.ksp + 2):06o}"
            f" {machine.word(turn, 0o30000):06o} {machine.devices(turn)['TKS']:06o}"
            for turn, of in runs
        ]
        text = "{{{turn}}} {2(SP)} {core 30000} {TKS}"
        condition = f"if R5 = {process:o}"
        *shown, _ = lines_of(explorer, f"at kernel 1170 from 0 to 2999 {condition} : {text}")
        self.assertEqual(shown, wanted)
        (none,) = lines_of(explorer, "at user 1170 to 2999")
        self.assertEqual(none, "0 runs in the turns 0 to 2999")

    def test_a_list_that_is_cut_goes_on(self) -> None:
        explorer = self.explorer("", ["core 1000 777"])
        line, turns = "at 1000 to 149: {R0}", list[int]()
        with mock.patch.object(log, "MOST_SHOWN", 64):
            while line:
                *shown, last = lines_of(explorer, line)
                turns += [int(it.split()[1][:-1]) for it in shown]
                line = last.partition("; on: log ")[2]
        self.assertEqual(turns, list(range(150)))
        self.assertEqual(last, "22 runs in the turns 128 to 149")

    def test_what_is_refused(self) -> None:
        explorer = self.explorer()
        for line in ("at", "at 1000: {nothing}", "at 1000: {", "at 1000: }", "at 1000 if x: y"):
            if line != "at":  # which is a file
                with self.assertRaises(ExploreError, msg=line):
                    lines_of(explorer, line)
        self.assertEqual(lines_of(explorer, "at 1000 to 0: {user 1} {700000}{{}}")[:-1],
                         ["turn 0: ------ 000000{}"])


class AtPrompt(AtTerminal):
    """Typed at a terminal."""

    def test_ctrl_c_keeps_what_was_found(self) -> None:
        self.begin("examples/ledger/ledger.session")
        self.type("log at 1234 to 999999999: {R0}\n")
        self.wait_for(b"0000000/1000000000 turns, ")
        self.interrupt()
        self.wait_for(b"turn 3039: ")
        self.wait_for(b"the turns from there on: stopped")
        self.type("log at.log\n")
        self.wait_for(b"the log is at.log")
        self.end()
        self.assertTrue(Path(self.folder / "at.log").exists())
