"""Which turns read or write a register of a device, against the cycles of all turns by `accesses`:
in programs of random words with traps and mapping, and in stored systems."""
import random
from typing import Iterator
from unittest import mock

from nezdrab.analysis.explorer import Explorer
from nezdrab.core import register_search
from nezdrab.core.engine import MOST_TURNS_OF_A_TRAIL, Machine, Start
from nezdrab.core.errors import ExploreError
from nezdrab.core.hardware import IO_PAGE, NAMES_IN_THE_IO_PAGE
from nezdrab.core.places import place_of
from nezdrab.core.register_search import READ, WRITTEN, found_at
from nezdrab.core.replies import Mode, TurnAccesses
from nezdrab.core.symbol_files import Symbol
from nezdrab.core.symbols import Symbols
from nezdrab.shell.command_table import COMMANDS

from .explore_case import BUILT
from .machines import OnMachine
from .systems import LEDGER, OfSystems
from .test_turn_flow import program

PROGRAMS, TURNS, PLACES_OF_EACH = 12, 80, 4
KINDS = {"reads": READ, "writes": WRITTEN}


def each_turn(machine: Machine, turns: range) -> Iterator[TurnAccesses]:
    left = turns
    while left:
        found, _ = machine.accesses(left[:MOST_TURNS_OF_A_TRAIL])
        left = range(found[-1].turn.turn + 1, turns.stop)
        yield from found


class ByBruteForce(OfSystems):
    """Each turn that may have a cycle at the place is asked alone, from what was asked before."""

    def compare(self, machine: Machine, turns: range, places: list[int]) -> int:
        """How many cycles are at the places."""
        known = {it.turn.turn: it for it in each_turn(machine, turns)}
        count = 0
        for place in places or self.some_of(known, random.Random(len(known))):
            for name, kinds in KINDS.items():
                alone = mock.patch.object(
                    machine,
                    "accesses",
                    lambda left: ([known[left[0]]], range(left[0] + 1, left.stop)),
                )
                with alone, self.subTest(place=f"{place:o}", name=name):
                    search = found_at(machine, turns, place, kinds, 0)
                    found = [turn for part, _ in search for turn, _ in part]
                    at = (it for it in known if register_search.values_at(known[it], place, kinds))
                    self.assertEqual(found, sorted(at))
                    count += len(found)
        return count

    def some_of(self, known: dict[int, TurnAccesses], chance: random.Random) -> list[int]:
        reached = {it.address & ~1 for of in known.values() for it in of.cycles}
        places = sorted(it for it in reached if it >= IO_PAGE)
        return chance.sample(places, min(len(places), PLACES_OF_EACH)) + [0o777562]

    def test_random_programs(self) -> None:
        count = 0
        for seed in range(PROGRAMS):
            machine = Machine(Start(BUILT.program, ["--units", "4"], self.folder))
            self.addCleanup(machine.close)
            list(machine.ask_all(list(program(random.Random(seed))), 1000))
            with self.subTest(seed=seed):
                count += self.compare(machine, range(TURNS), [])
        self.assertGreater(count, 50)

    def test_a_kernel_that_maps_anew_and_its_devices(self) -> None:
        places = [0o777562, 0o777404, 0o777406, 0o777546, 0o777642]
        self.assertGreater(self.compare(self.machine(LEDGER), range(2_600, 3_600), places), 40)


class Named(OnMachine):
    """Registers by their names and numbers."""

    def lines(self, explorer: Explorer, line: str) -> list[str]:
        word, _, rest = line.partition(" ")
        return list(COMMANDS[word].lines(explorer, rest))

    def program(self, *words: int, units: int = 31) -> Explorer:
        explorer = self.explorer()
        machine = Machine(Start(BUILT.program, ["--units", str(units)], self.folder))
        self.addCleanup(machine.close)
        machine.edit_all([f"core {0o1000 + 2 * at:o} {it:o}" for at, it in enumerate(words)])
        explorer.machine = machine
        return explorer

    def test_each_name_and_each_kind_of_number(self) -> None:
        machine, symbols = self.program(units=7).machine, Symbols()
        for place, name in NAMES_IN_THE_IO_PAGE.items():
            for text in (name, name.lower(), f"{place:o}", f"{place - 0o600000:o}"):
                self.assertEqual(place_of(machine, symbols, text), place)
        self.assertEqual(place_of(self.program().machine, symbols, "177562"), 0o177562)
        for wrong in ("777563", "770000", "XYZ"):
            with self.assertRaises(ExploreError):
                place_of(machine, symbols, wrong)

    def test_a_symbol_comes_first_unless_it_is_the_register(self) -> None:
        machine, symbols = self.program().machine, Symbols()
        symbols.add([Symbol("TKB", 0o177562), Symbol("PS", 0o2000)], [Mode.KERNEL])
        self.assertEqual(place_of(machine, symbols, "TKB"), 0o777562)
        self.assertEqual(place_of(machine, symbols, "PS"), 0o2000)

    def test_a_poll_is_cut_and_goes_on(self) -> None:
        """TSTB @#TKS; BPL .-4: each even turn reads."""
        explorer, line, turns = self.program(0o105737, 0o177560, 0o100375), "readers TKS to 999", ""
        while line:
            *shown, last = self.lines(explorer, line)
            turns += " ".join(["", *(it.split()[1][:-1] for it in shown)])
            line = last.partition("; on: ")[2]
        self.assertEqual([int(it) for it in turns.split()], list(range(0, 1000, 2)))
        self.assertEqual(last, "244 reads in the turns 512 to 999")

    def test_values_and_bytes(self) -> None:
        """MOVB #101,@#TPB; MOV #R1 to TPS; TST (R1); INCB 2(R1)."""
        words = (0o112737, 0o101, 0o177566, 0o12701, 0o177564, 0o5711, 0o105261, 2, 0)
        explorer = self.program(*words)
        self.assertEqual(
            self.lines(explorer, "writers TPB to 20"),
            ["turn 0: cpu 000101, by kernel 001000 MOVB #101,@#177566"]
            + ["turn 3: cpu 000001, by kernel 001014 INCB 2(R1)", "2 writes in the turns 0 to 20"],
        )
        self.assertEqual(len(self.lines(explorer, "readers TPS to 20")), 2)

    def test_breakpoints_forwards_and_backwards(self) -> None:
        explorer = self.program(0o105737, 0o177560, 0o100375)
        self.assertEqual(self.lines(explorer, "rwatch TKS"), ["breakpoint 1: rwatch 777560 (TKS)"])
        for turn in (2, 4):
            first, _ = self.lines(explorer, "continue to 100")
            self.assertEqual(explorer.turn, turn)
        self.assertEqual(first, "breakpoint 1: rwatch 777560 (TKS): cpu 000000")
        self.lines(explorer, "reverse-continue")
        self.assertEqual(explorer.turn, 2)
        self.lines(explorer, "delete")
        self.lines(explorer, "watch 777566")
        (said,) = self.lines(explorer, "continue to 5000")
        self.assertEqual(said, "no breakpoint holds in the turns 3 to 5000")
