"""What turns write, by the rules of data, against the stamps of core, and what it is made of,
against the program's `moves`: in stored systems, and in programs of random words with traps,
mapping and stacks in bad places."""
import random
from typing import Iterable, Iterator

from nezdrab.analysis.cells import is_core
from nezdrab.analysis.turn_cycles import trap_of
from nezdrab.analysis.turn_flow import Flows
from nezdrab.core.engine import MOST_WORDS, Machine, Start
from nezdrab.core.errors import ExploreError
from nezdrab.core.hardware import OPERAND_TRAPS
from nezdrab.core.moves_of_turns import grouped, in_words
from nezdrab.core.replies import INSTRUCTION
from tests.checks.wide_flows import compared, made_by

from .explore_case import BUILT
from .machines import OnMachine
from .systems import KEYS, LEDGER, OfSystems

VECTORS = (0o4, 0o10, 0o14, 0o20, 0o30, 0o34, 0o60, 0o64, 0o250)
CODE, DATA = range(0o1000, 0o1400, 2), range(0o2000, 0o2100, 2)
BEGIN, TURNS, TOP = 0o3000, 80, 0o100000
TWO = (1, 2, 3, 4, 5, 6, 0o11, 0o12, 0o13, 0o14, 0o15, 0o16)
ONE = (*range(0o50, 0o64), 0o67, 3, 1, 0o64, 0o65, 0o66)
OTHERS = (2, 6, 0o200, 0o205, 0o206, 0o207, 0o240, 0o257, 0o277, 3, 4, 0o104000, 0o104400, 5)
PLACES = (0o2000, 0o1500, 0o177776, 0o400, 0o376, 0o1001, 0o3000, 0o177566, 0o160000, 0o100000)
PAGES = ((0o172300, 0o172340), (0o177600, 0o177640))
MOV_TO, MOV_TO_ADDRESS, JMP = 0o12700, 0o12737, 0o137


def word(chance: random.Random) -> int:
    """A word that is an instruction, most times, or an address."""
    kinds: tuple[int, ...] = (
        chance.choice(TWO) << 12 | chance.randrange(0o10000),
        chance.choice(ONE) << 6 | chance.randrange(0o100) | (chance.random() < 0.3) << 15,
        0o070000 | chance.randrange(0o10000),
        0o004000 | chance.randrange(0o1000),
        chance.choice(OTHERS),
        chance.choice((0o1000, 0o2000, 0o3000, 0o100000)) | chance.randrange(0o400),
        chance.choice(PLACES),
        chance.randrange(0o200000),
    )
    return chance.choices(kinds, (30, 20, 10, 10, 5, 5, 10, 10))[0]


def beginning(chance: random.Random) -> Iterator[int]:
    """Registers, and in every second program pages and a mode."""
    pointers = ((0o500, 0o700, 0o376, 0o402), (0o2000, 0o2001, 0, 0o1100), (0o2000, 0o177560))
    for register, values in zip((6, 0, 1), pointers):
        yield from (MOV_TO | register, chance.choice(values))
    if chance.random() < 0.5:
        for descriptors, frames in PAGES:
            for page in range(0, 0o20, 2):
                access = chance.choice((0o77406, 0o77406, 0o77402, 0o7406, 0o77416, 0))
                frame = 0o7600 if page == 0o16 and chance.random() < 0.5 else 0
                yield from (MOV_TO_ADDRESS, access, descriptors + page)
                yield from (MOV_TO_ADDRESS, chance.choice((0, 0, frame, 0o200)), frames + page)
        mode = chance.choice((0, 0o30000, 0o170000, 0o140000))
        yield from (MOV_TO_ADDRESS, 1, 0o177572, MOV_TO_ADDRESS, mode, 0o177776)
    yield from (JMP, CODE.start + 4)


def program(chance: random.Random) -> Iterator[str]:
    words = {it: word(chance) for it in CODE}
    words.update({it: chance.choice((*PLACES, chance.randrange(0o200000))) for it in DATA})
    words.update(zip(range(BEGIN, TOP, 2), beginning(chance)))
    words.update({CODE.start: JMP, CODE.start + 2: BEGIN})
    for vector in VECTORS:
        words[vector] = chance.choice((0o1100, 0o1200, 0o1300)) + 2 * chance.randrange(20)
        words[vector + 2] = chance.choice((0, 0o340, 0o140000, 0o30000, 0o20, 0o144000))
    yield from (f"core {address:o} {it:o}" for address, it in words.items())
    yield f"delay disk {chance.choice((1, 3, 10))}"
    yield f"at {chance.randrange(TURNS)} key {chance.randrange(0o200):o}"
    yield from (f"at {chance.randrange(TURNS)} continue" for _ in range(3))


class Writes(OfSystems):
    def foretold(self, machine: Machine, turns: range) -> dict[int, dict[int, str]]:
        """The writes of each word, up to a turn that the rules say they don't follow."""
        found: dict[int, dict[int, str]] = {}
        self.end = turns.start
        try:
            for flow in Flows(machine, turns):
                if flow.transfer is not None and flow.transfer.is_read:
                    for address in flow.transfer.in_core:
                        found.setdefault(address, {})[flow.turn] = "disk"
                for it in flow.moves:
                    if is_core(it.cell):
                        found.setdefault(it.cell & ~1, {})[flow.turn] = "cpu"
                self.end = flow.turn + 1
        except ExploreError as error:
            self.assertIn("isn't followed", str(error))
        return found

    def stamped(self, machine: Machine, turns: range, address: int) -> dict[int, str]:
        found: dict[int, str] = {}
        left = turns
        while left:
            lines, left = machine.writes(left, address)
            found.update((int(it.split()[0]), it.split()[1]) for it in lines)
        return found

    def changed(self, machine: Machine, turns: range, top: int) -> set[int]:
        """The words that the turns change."""
        found: set[int] = set()
        for first in range(0, top, 2 * MOST_WORDS):
            before = machine.words(turns.start, first, MOST_WORDS)
            after = machine.words(turns.stop, first, MOST_WORDS)
            found |= {first + 2 * at for at in range(MOST_WORDS) if before[at] != after[at]}
        return found

    def compare(self, machine: Machine, turns: range, top: int) -> int:
        """How many stamps were compared."""
        foretold, stamps = self.foretold(machine, turns), 0
        turns = range(turns.start, self.end)
        for address in self.changed(machine, turns, top) | foretold.keys():
            known = {turn: it for turn, it in foretold.get(address, {}).items() if turn in turns}
            stamps += len(known)
            self.assertEqual(known, self.stamped(machine, turns, address), f"{address:o}")
        return stamps

    def test_the_ledger(self) -> None:
        stamps = self.compare(self.machine(LEDGER), range(126_900, 129_000), 0o60000)
        self.assertGreater(stamps, 900)

    def test_a_system_that_boots(self) -> None:
        stamps = self.compare(self.machine(KEYS), range(0, 3_000), 0o60000)
        self.assertGreater(stamps, 500)

    def random_programs(self, seeds: range) -> Iterator[Machine]:
        machine = Machine(Start(BUILT.program, ["--units", "4"], self.folder))
        self.addCleanup(machine.close)
        for seed in seeds:
            machine.restart()
            replies = machine.ask_all(list(program(random.Random(seed))), 1000)
            self.assertFalse([it for it in replies if it.startswith("refused")], seed)
            with self.subTest(seed=seed):
                yield machine

    def test_programs_of_random_words(self) -> None:
        machines = self.random_programs(range(40))
        stamps = sum(self.compare(it, range(0, TURNS), TOP) for it in machines)
        self.assertGreater(stamps, 1200)

    def test_which_turns_trap(self) -> None:
        """Which turns trap is mostly seen by their registers: it must be what a search finds."""
        found, looked_at = set(), 0
        for machine in self.random_programs(range(40, 80)):
            try:
                for flow in Flows(machine, range(0, TURNS)):
                    if flow.act.act == INSTRUCTION:
                        seen = flow.vector if flow.vector in OPERAND_TRAPS else None
                        self.assertEqual(seen, trap_of(machine, flow.turn), flow.turn)
                        found.add(seen)
                        looked_at += 1
            except ExploreError as error:
                self.assertIn("isn't followed", str(error))
        self.assertEqual(found, {None, *OPERAND_TRAPS})
        self.assertGreater(looked_at, 1000)

    def test_turns_one_by_one(self) -> None:
        machine, turns = self.machine(LEDGER), range(127_300, 127_700)
        together = list(Flows(machine, turns))
        single = list(Flows(machine, *(range(it, it + 1) for it in turns[::3])))
        self.assertEqual(single, together[::3])
        self.assertTrue(any(it.transfer for it in single))

    def compare_moves(self, machine: Machine, turns: range) -> int:
        """How many turns were compared."""
        count = 0
        for turn, differences in compared(machine, turns):
            self.assertEqual(differences, [], turn)
            count += 1
        return count

    def test_moves_of_stored_systems(self) -> None:
        turns = self.compare_moves(self.machine(LEDGER), range(126_900, 129_000))
        self.assertEqual(turns, 2_100)
        self.assertEqual(self.compare_moves(self.machine(KEYS), range(0, 3_000)), 3_000)

    def test_moves_of_programs_of_random_words(self) -> None:
        machines = self.random_programs(range(80, 140))
        turns = sum(self.compare_moves(it, range(0, TURNS)) for it in machines)
        self.assertGreater(turns, 4_700)


TO_USER = "12706 700 12737 30000 177776 12746 {usp} 6606 3"  # USP is this, and then comes BPT
IN_USER = ("core 14 2000", "core 16 140000")
IN_RED = [
    "USP.1 of USP",
    "KSP, core 000002.1, core 000000 of nothing",
    "core 000002.0 of codes N Z V C",
    "codes N Z V C of core 000006.0",
]
# Instructions from 1000 on, other words, and what explore says of the last instruction.
CORNERS: tuple[tuple[str, tuple[str, ...], list[str]], ...] = (
    ("13700 177566", (), ["R0, codes N Z V of nothing"]),  # TPB reads 0
    (
        "4637 2000",  # a push onto PS: SP is USP then
        (),
        ["KSP.1 of KSP", "codes N Z V C of KSP.0", "USP of nothing"],
    ),
    (
        TO_USER.format(usp="20"),  # a push onto the vector
        IN_USER,
        ["USP.1 of USP", "core 000016.0 of codes N Z V C"]
        + ["core 000016.1, core 000014 of nothing", "codes N Z V C of core 000016.0"],
    ),
    (TO_USER.format(usp="21"), IN_USER, IN_RED),  # a push at an odd address
    (TO_USER.format(usp="0"), IN_USER, IN_RED),  # one onto PS, and one that times out
    # a red sequence that halts at page 0, with KSP as after two pushes
    (
        "240 12706 10 12737 77402 172300 12737 1 177572 3",
        ("core 14 2000",),
        ["KSP of nothing"],
    ),
    # In `moves` N is made of the whole operand, PRB of it and of PRB; and each code of all codes.
    (
        "52737 1 177550",
        (),
        ["code N of core 001002.1", "code Z of core 001002", "code V of nothing"],
    ),
    ("105037 177777", (), []),
)


TURNS_OF_A_CORNER = 5


def corner(words: str, edits: Iterable[str]) -> list[str]:
    """The lines of such a program."""
    return [*(f"core {0o1000 + 2 * at:o} {it}" for at, it in enumerate(words.split())), *edits]


class Corners(OnMachine):
    def test_what_they_make(self) -> None:
        for words, edits, made in CORNERS:
            machine = self.explorer("", corner(words, edits)).machine
            with self.subTest(words):
                turns = range(0, TURNS_OF_A_CORNER if edits else 1)
                self.assertEqual(list(compared(machine, turns)), [(it, []) for it in turns])
                (flow,) = Flows(machine, turns[-1:])
                found = {it: tuple(sorted(cells, key=str)) for it, cells in made_by(flow).items()}
                shown = [f"{in_words(it)} of {in_words(cells)}" for it, cells in grouped(found)]
                self.assertEqual(shown, made)
