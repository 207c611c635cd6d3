"""`export FILE.vcd` against each turn, and as GTKWave's tools read it."""
import random
import re
import shutil
import subprocess
import unittest
from typing import Iterator, NamedTuple

from nezdrab.analysis.levels import call_in
from nezdrab.analysis.profile import NOT_NAMED
from nezdrab.core.engine import Machine
from nezdrab.core.replies import Mode

from .explore_case import SECONDS
from .systems import KEYS, LEDGER, OfSystems

VCD_TO_FST, FST_TO_VCD = shutil.which("vcd2fst"), shutil.which("fst2vcd")
REGISTERS = ("R0", "R1", "R2", "R3", "R4", "R5", "KSP", "USP", "PC", "PS")
DECLARED = re.compile(r"\$var (\w+) \d+ (\S+) (\S+) (?:\S+ )?\$end")
TRAP = re.compile(r"EMT .*|TRAP .*|BPT|IOT|trap .*")


class Waves(NamedTuple):
    """A value change dump: the changes of each signal by its time, those of an event without a
    value, and the last time."""

    changes: dict[str, dict[int, str]]
    end: int

    def at(self, name: str, turn: int) -> str:
        """The value before a turn."""
        return self.changes[name][max(it for it in self.changes[name] if it <= turn)]


def waves_of(text: str) -> Waves:
    """Reads a dump. A vector's value loses the zeros before it."""
    head, _, body = text.partition("$enddefinitions $end\n")
    declared = {short: (kind, name) for kind, short, name in DECLARED.findall(head)}
    changes: dict[str, dict[int, str]] = {name: {} for _, name in declared.values()}
    time = -1
    for line in body.splitlines():
        if line.startswith("#"):
            time = int(line[1:])
        elif line and not line.startswith("$"):
            value, short = line.split() if " " in line else (line[:1], line[1:])
            kind, name = declared[short]
            values = {"reg": f"{value[1:].lstrip('0'):0>1}", "string": value[1:], "event": ""}
            changes[name][time] = values.get(kind, value)
    return Waves(changes, time)


class WavesOfSystems(OfSystems):
    """Dumps of stored systems."""

    def dump(self, system: tuple[str, ...], turns: range, before: str = "", more: str = "") -> str:
        span = f"from {turns.start} to {turns.stop - 1}"
        written = self.explore(f"{before}export! it.vcd {span}{more}\n", *system)
        self.assertIn(f"the turns {turns.start} to {turns.stop - 1} are in it.vcd: ", written)
        return (self.folder / "it.vcd").read_text()

    def test_values_are_those_of_each_turn(self) -> None:
        """Some turns by chance, in both batches, and the first and the last one."""
        (self.folder / "k.sym").write_text("START 1000\nQUEUE 2000\nSAVE 1110\n")
        chance = random.Random(66)
        for system, first in ((LEDGER, 126_900), (KEYS, 200)):
            turns, machine = range(first, first + 5_000), self.machine(system)
            named = "symbols k.sym kernel\n"
            waves = waves_of(self.dump(system, turns, named, " with 30000 QUEUE"))
            self.assertEqual(waves.end, turns.stop)
            for turn in (turns[0], turns[-1], *chance.sample(turns, 12)):
                for name, value in self.values(machine, turn):
                    self.assertEqual(waves.at(name, turn), value, (name, turn))

    def values(self, machine: Machine, turn: int) -> Iterator[tuple[str, str]]:
        """What each signal has before a turn."""
        registers, devices = machine.registers(turn), machine.devices(turn)
        yield from ((it, f"{registers.words[it]:b}") for it in REGISTERS)
        yield "mode", registers.mode.value
        yield "previous_mode", Mode.previous(registers.ps).value
        yield "priority", f"{registers.priority:b}"
        yield "state", registers.state
        if registers.mode == Mode.KERNEL:
            pc, places = registers.pc, (("QUEUE", 0o2000), ("SAVE", 0o1110), ("START", 0o1000))
            names = (name for name, it in places if it <= pc < it + 0o10000)
            yield "function", next(names, NOT_NAMED.replace(" ", "_"))
        yield "rk_busy", str(int(not devices.disk_is_ready))
        function = devices.function.title.replace(" ", "_")
        yield "rk_function", "-" if devices.disk_is_ready else function
        for name, address in (("word_030000", 0o30000), ("QUEUE_002000", 0o2000)):
            yield name, f"{machine.word(turn, address):b}"

    def test_interrupts_and_traps_are_events(self) -> None:
        """Each of them, with its vector in this turn alone."""
        turns, machine = range(127_000, 127_300), self.machine(LEDGER)
        waves = waves_of(self.dump(LEDGER, turns))
        calls = {it: call_in(machine, it) for it in turns}
        kinds = {turn: it.kind for turn, it in calls.items() if it is not None}
        interrupts = {it for it, kind in kinds.items() if kind.startswith("interrupt ")}
        traps = {it for it, kind in kinds.items() if TRAP.fullmatch(kind)}
        self.assertTrue(interrupts and traps)
        self.assertEqual(waves.changes["interrupt"].keys(), interrupts)
        self.assertEqual(waves.changes["trap"].keys(), traps)
        for turn in turns:
            value = waves.at("vector", turn)
            self.assertEqual(value != "-", turn in interrupts | traps, turn)
            if turn in interrupts:
                self.assertEqual(f"interrupt {value}".replace("_", " "), kinds[turn])

    def test_it_is_the_same_each_time(self) -> None:
        first = self.dump(LEDGER, range(4_000, 9_000))
        self.assertEqual(self.dump(LEDGER, range(4_000, 9_000), "regs 20000\n"), first)
        self.assertIn("one unit of time, here a second, is one turn", first)

    @unittest.skipUnless(VCD_TO_FST and FST_TO_VCD, "GTKWave's vcd2fst and fst2vcd")
    def test_gtkwave_reads_it(self) -> None:
        waves = waves_of(self.dump(LEDGER, range(126_900, 128_300), "", " with 30000 40000"))
        for command in ([str(VCD_TO_FST), "it.vcd", "it.fst"], [str(FST_TO_VCD), "it.fst"]):
            ended = subprocess.run(
                command, cwd=self.folder, capture_output=True, text=True, timeout=SECONDS
            )
            self.assertEqual((ended.returncode, ended.stderr), (0, ""))
        theirs = waves_of(ended.stdout)
        self.assertEqual(theirs.changes, waves.changes)
        self.assertEqual(len(waves.changes), 22)
