"""Registers on the bus in `reads` and `writes`, and `log`: against the cycles of all turns."""
from typing import Union

from nezdrab import CycleKind, Machine, NezdrabError

from .machine_case import EXAMPLES, Case

TURNS = 600


class OfRegisters(Case):
    def stored(self) -> Machine:
        machine = Machine.of_session(EXAMPLES / "who-wrote-this-word.session")
        self.addCleanup(machine.close)
        return machine

    def test_reads_and_writes_by_name_and_by_number(self) -> None:
        m, kinds = self.stored(), {"reads": (CycleKind.READ,), "writes": (CycleKind.WRITE,)}
        turns = list(m.accesses(TURNS, TURNS))
        count = 0
        for name, place in (("TKS", 0o777560), ("tkb", 0o777562), ("RKCS", 0o777404)):
            for method, of in kinds.items():
                at = ((it.turn.turn, c) for it in turns for c in it.cycles if c.address == place)
                wanted = [(turn, c.value) for turn, c in at if c.kind in of]
                for address in (name, place):
                    found = getattr(m, method)(address, until=TURNS)
                    self.assertEqual([(it.turn, it.word) for it in found], wanted, (name, method))
                count += len(wanted)
        self.assertGreater(count, 2)
        wrong: tuple[Union[int, str], ...] = ("777563", 0o770000, "XYZ")
        for it in wrong:
            with self.assertRaises(NezdrabError):
                list(m.reads(it, until=5))

    def test_log(self) -> None:
        m = self.stored()
        runs = [it.turn for it in m.trail(TURNS, TURNS) if (it.pc, it.act) == (0o1046, "instr")]
        self.assertGreater(len(runs), 0)
        wanted = [
            (it, f"{{{it}}} {m.regs(it).r0:06o} {m.mem(it, 0o2000)[0]:06o}") for it in runs
        ]
        text = "{{{turn}}} {r0} {core 2000}"
        self.assertEqual(list(m.log(0o1046, text, until=TURNS)), wanted)
        some = [pair for pair in wanted if m.regs(pair[0]).r0 == 0o177404]
        held = m.log("1046", text, until=TURNS, mode="kernel", where="R0 = 177404")
        self.assertEqual(list(held), some)
        (first, shown), *_ = m.log(0o1046, until=TURNS)
        self.assertEqual((first, shown[:9]), (runs[0], f"R0 {m.regs(first).r0:06o}"))
        with self.assertRaises(NezdrabError):
            list(m.log(0o1046, "{nothing}", until=5))
