"""All values of a register, against the reply before each turn, and the cycles of each; and at a
terminal."""
import random
import re

from nezdrab.core.engine import Machine
from nezdrab.core.replies import CycleKind, Devices
from nezdrab.dap.evaluate import Console, done

from .machines import LEDGER as LEDGER_FILE, OnMachine
from .systems import KEYS, LEDGER, OfSystems
from .terminal import AtTerminal

ROW = re.compile(r" *([0-9]+)  ([0-7]{6}|-{6})  ([0-7]{6})  (\S.*)")
SHOWN = ("TKS", "TKB", "TPS", "LKS", "RKCS", "RKBA", "RKWC", "RKDA", "SWR")
TPB, TURNS = 0o777566, 1_500
Row = tuple[int, str, str]


class BruteForce(OfSystems):
    def shown(self, line: str, words: tuple[str, ...]) -> tuple[list[Row], list[str]]:
        written = self.explore(f"{line}\n", *words).splitlines()
        found = [it for it in map(ROW.fullmatch, written) if it]
        return [(int(it[1]), it[2], it[3]) for it in found], written

    def test_those_that_are_read(self) -> None:
        chance, compared = random.Random(4), set[str]()
        for words, first in ((LEDGER, 3_000), (KEYS, 1_000)):
            machine, turns = self.machine(words), range(first, first + TURNS)
            replies = [Devices.of(machine.read(f"devices {it}")) for it in (*turns, turns.stop)]
            for name in SHOWN:
                values = [f"{it[name]:06o}" for it in replies]
                wanted = [it for it in zip(turns, values, values[1:]) if it[1] != it[2]]
                typed = chance.choice((name, name.lower()))
                found, written = self.shown(f"changes {typed} from {first} to {turns[-1]}", words)
                self.assertEqual(found, wanted[:256], name)
                compared |= {name} if found else set()
                self.check_turns(machine, written)
        self.assertGreater(len(compared), 5)

    def check_turns(self, machine: Machine, written: list[str]) -> None:
        """Each event that a row names is one of its turn."""
        for row in filter(None, map(ROW.fullmatch, written)):
            events = [f"event {it.text}" for it in machine.script if it.turn == int(row[1])]
            named = [it for it in row[4].split("; ") if it.startswith("event ")]
            self.assertEqual([re.sub(" 0*", " ", it) for it in named], events, row[0])

    def test_one_that_is_written(self) -> None:
        machine, turns = self.machine(LEDGER), range(3_000, 4_500)
        wanted, before = list[Row](), "------"
        for turn in turns:
            (had,), _ = machine.accesses(range(turn, turn + 1))
            for it in had.cycles:
                if it.address == TPB and it.kind != CycleKind.READ and it.value is not None:
                    after = f"{it.value:06o}"
                    wanted += [(turn, before, after)] if after != before else []
                    before = after
        self.assertGreater(len(wanted), 5)
        found, written = self.shown(f"changes TPB from 3000 to {turns[-1]}", LEDGER)
        self.assertEqual(found, wanted)
        self.assertEqual(written[-1], f"{len(wanted)} changes in the turns 3000 to 4499")

    def test_pages_and_status(self) -> None:
        machine, turns = self.machine(LEDGER), range(0, 300)
        for name, line, at in (("UPAR1", "pages", -7), ("KPDR0", "pages", 4), ("PS", "regs", 19)):
            rows = [machine.read(f"{line} {it}").split() for it in (*turns, turns.stop)]
            at = rows[0].index("UPAR") + 2 if name == "UPAR1" else at
            at = rows[0].index("KPDR") + 1 if name == "KPDR0" else at
            values = [it[at] for it in rows]
            wanted = [it for it in zip(turns, values, values[1:]) if it[1] != it[2]]
            found, _ = self.shown(f"changes {name} from 0 to 299", LEDGER)
            self.assertEqual(found, wanted, name)
            self.assertGreater(len(wanted), 0)

    def test_a_list_that_is_cut_goes_on(self) -> None:
        found, written = self.shown("changes SR2 to 300", LEDGER)
        self.assertEqual(len(found), 256)
        line = written[-1].partition("; on: ")[2]
        further, last = self.shown(line, LEDGER)
        self.assertEqual(further[0][:2], (found[-1][0] + 1, found[-1][2]))
        self.assertTrue(last[-1].endswith(" to 300"), last)

    def test_what_is_no_list(self) -> None:
        for line, said in (
            ("changes SR1", "changes: SR1 always reads 0"),
            ("changes TKB 4", "changes: a register has no words behind it"),
            ("changes 777563", "changes: 777563 is odd"),
        ):
            self.assertTrue(self.explore(f"{line}\n", *LEDGER).startswith(said), line)


class Elsewhere(OnMachine):
    def test_in_an_editors_console(self) -> None:
        explorer, shown = self.explorer(LEDGER_FILE), list[str]()
        text = done(Console(explorer, shown.append), "changes TKB from 3000 to 3010", 5)
        self.assertIn("      3000  000000  000075  event key 075; kernel 001216", text)
        self.assertEqual(text.splitlines()[-1], "1 change in the turns 3000 to 3010")


class Terminal(AtTerminal):
    def test_ctrl_c_shows_what_was_found(self) -> None:
        self.begin(*LEDGER)
        self.type("changes TKB to 90000000\n")
        self.wait_for(b"turns, ")
        self.interrupt()
        self.wait_for(b"000000  000075  event key 075; kernel 001216 MOV (R5)+,R1")
        self.wait_for(b"; the turns from there on: stopped")
        self.end()
