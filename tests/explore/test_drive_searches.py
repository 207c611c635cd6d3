"""A CONDITION with words of a drive, against the words before each turn; and at a terminal."""
import operator
import random
from typing import Callable, NamedTuple, Optional

from nezdrab.core.drive_searches import FIRST_PART
from nezdrab.core.engine import Machine
from nezdrab.core.replies import Registers

from .systems import LEDGER, OfSystems
from .terminal import AtTerminal

PACKS = ("examples/copy-of-a-pack.session",)
RELATIONS: dict[str, Callable[[int, int], bool]] = {
    **{"=": operator.eq, "!=": operator.ne, "<": operator.lt, ">": operator.gt},
}
REGISTERS, PARTS = ("R0", "R4", "PS"), 3


class Values(NamedTuple):
    """What parts of a CONDITION are about, by their names, before each of some turns."""

    turns: range
    of: dict[str, list[int]]

    @classmethod
    def before(cls, machine: Machine, turns: range, words: list[str]) -> "Values":
        registers = [Registers.of(it) for it in machine.read_all([f"regs {n}" for n in turns])]
        found = {it: [r.words[it] for r in registers] for it in REGISTERS}
        for it in words:
            name, rest = it.split(" ", 1)
            kind = "mem" if name == "core" else "dsk"
            found[it] = list(machine.single_words([f"{kind} {n} {rest} 1" for n in turns]))
        return cls(turns, found)

    def part(self, chance: random.Random) -> tuple[str, list[bool]]:
        """A part of a CONDITION, and whether it holds before each turn."""
        name = chance.choice([it for it in self.of if it.startswith("disk")])
        values, other = self.of[name], chance.choice([*self.of, "", ""])
        if not other and chance.random() < 0.4:
            mask, wanted = chance.choice((0o7, 0o17, 0o177777)), chance.choice(values)
            text = f"{name} & {mask:o} = {wanted & mask:o}"
            return text, [it & mask == wanted & mask for it in values]
        word = chance.choice(values)
        others = self.of[other] if other else [word] * len(values)
        sign, left = chance.choice([*RELATIONS]), other or f"{word:o}"
        if other and chance.random() < 0.5:
            return f"{left} {sign} {name}", list(map(RELATIONS[sign], others, values))
        return f"{name} {sign} {left}", list(map(RELATIONS[sign], values, others))

    def condition(self, chance: random.Random) -> tuple[str, list[bool]]:
        texts, held = zip(*(self.part(chance) for _ in range(chance.randint(1, PARTS))))
        return " and ".join(texts), [all(it) for it in zip(*held)]


class BruteForce(OfSystems):
    def compared(self, words: tuple[str, ...], turns: range, named: list[str], seed: int) -> None:
        machine, chance = self.machine(words), random.Random(seed)
        values, lines, wanted = Values.before(machine, turns, named), [], list[str]()
        for _ in range(60):
            condition, holds = values.condition(chance)
            begin = chance.randrange(len(turns))
            end = chance.randint(begin, len(turns))
            held = [turns[at] for at in range(begin, end) if holds[at]]
            for word, found in (("first", held[:1]), ("latest", held[-1:])):
                span = f"{turns[0] + begin} {turns[0] + end}"
                lines.append(f"{word} {span} where {condition}")
                wanted.append(f"{word} {found[0] if found else 'none'}")
        shown = self.explore("\n".join(lines), *words).splitlines()
        for line, reply, it in zip(lines, shown, wanted):
            self.assertEqual(reply, it, line)
        self.assertEqual(len(shown), len(wanted))
        self.assertGreater(len({it for it in wanted if "none" not in it}), 20)

    def test_of_one_drive(self) -> None:
        named = ["disk 0", "disk 1", "disk 400", "core 30000"]
        self.compared(LEDGER, range(126_000, 129_000), named, 3)

    def test_of_eight_drives(self) -> None:
        named = ["disk 0 0", "disk 1 2", "disk 0 1", "disk 1 0", "core 2000"]
        self.compared(PACKS, range(0, 400), named, 5)

    def test_over_parts_that_are_searched_together(self) -> None:
        """The changes that the line `change` finds, over more turns than the first part has."""
        machine, turns = self.machine(LEDGER), range(0, 138_552 + 5)
        changes = self.changed(machine, turns)
        self.assertGreater(turns.stop, 4 * FIRST_PART)
        values = [machine.disk_word(it + 1, 0, 0) for it in changes]
        self.assertGreater(len(set(values)), 2)
        for value in set(values):
            first = changes[values.index(value)] + 1
            line = f"first 0 {turns.stop} where disk 0 = {value:o}"
            self.assertEqual(self.explore(f"{line}\n", *LEDGER), f"first {first}\n")
            last = max(at for at, it in enumerate(values) if it == value)
            end = turns.stop - 1 if last + 1 == len(values) else changes[last + 1]
            line = f"latest 0 {turns.stop} where disk 0 = {value:o}"
            self.assertEqual(self.explore(f"{line}\n", *LEDGER), f"latest {end}\n")

    def changed(self, machine: Machine, turns: range) -> list[int]:
        found = list[int]()
        turn: Optional[int] = machine.found("change", turns, "0")
        while turn is not None:
            found.append(turn)
            turn = machine.found("change", range(turn + 1, turns.stop), "0")
        return found


class AsALine(OfSystems):
    def first_lines(self, *lines: str) -> list[str]:
        written = self.explore("".join(f"{it}\n" for it in lines), *LEDGER).splitlines()
        return [it for it in written if not it.startswith("  ")]

    def test_refusals(self) -> None:
        for line, reply in (
            ("first 0 9 where disk 0 0 = 6", "refused 10 BadLine"),
            ("first 0 9 where disk 0 = 6 and", "refused 10 BadLine"),
            ("first 0 9 where disk 0 =", "refused 10 BadLine"),
            ("first 0 9 where disk = 6", "refused 10 BadLine"),
            ("first 0 x where disk 0 = 6", "refused 10 BadLine"),
            ("first 0 9 where disk 0 = 200000", "refused 10 BadLine"),
            ("first 9 3 where disk 4604000 = 1", "refused 8 CountOutOfRange"),
            ("latest 9 2000000000 where disk 0 = 1", "refused 7 TurnTooLarge"),
            ("first 0 9 where disk 0 = 1 and core 1 = 2", "refused 3 OddAddress"),
            ("latest 0 9 where disk 4604000 = 1", "refused 4 OutsideDisk"),
            (f"first 0 9 where disk 0 = 1{' and R0 = 1' * 4}", "refused 10 BadLine"),
        ):
            self.assertEqual(self.explore(f"{line}\n", *LEDGER).splitlines()[0], reply, line)
        blanks = "\t first  0 9\twhere disk  0 =  100\n"
        self.assertEqual(self.explore(blanks, *LEDGER), "first 0\n")
        self.assertEqual(
            self.explore("first 0 9 where disk 10 0 = 1\n", *PACKS).splitlines()[0],
            "refused 16 NoSuchDrive",
        )

    def test_in_breakpoints_and_logs(self) -> None:
        """The routine at 1110 runs when its words of the drive are there."""
        found = self.first_lines(
            "first 127637 200000 at 1110",
            "break 1110 if disk 0 = 136",
            "continue",
            "log at 1110 from 127000 to 128000 if disk 0 = 136 : {R0}",
            "log at 1110 from 127637 to 128000 : {R0}",
        )
        turn = found[0].split()[1]
        self.assertEqual(found[1], "breakpoint 1: break 1110 if disk 0 = 136")
        at = next(it for it in found if "continue" not in it and it.startswith("turn "))
        self.assertTrue(at.startswith(f"turn {turn}: "), found)
        logged = [it for it in found if it.startswith("turn ")]
        self.assertEqual(logged[: len(logged) // 2], logged[len(logged) // 2 :])


class Terminal(AtTerminal):
    def test_a_search_leads_to_its_turn(self) -> None:
        self.begin(*LEDGER)
        self.type("first 0 200000 where disk 0 = core 30000\n")
        self.wait_for(b"first 18523")
        self.type("show\n")
        self.wait_for(b"turn 18523")
        self.end()
