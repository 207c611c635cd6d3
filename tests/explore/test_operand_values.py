"""`see .. operands` against the registers and the words of core before and after each turn."""
import random
import re
import struct
from typing import Iterator

from nezdrab.analysis.disassembly import Disassembler
from nezdrab.analysis.explorer import Explorer
from nezdrab.analysis.listing import SeenTurn, seen
from nezdrab.analysis.operand_values import STATUS, Memory, OperandValue, Walk, operands_of
from nezdrab.analysis.operand_values import texts_of, walked, way_of
from nezdrab.core.engine import Machine, Start
from nezdrab.core.replies import INSTRUCTION, Mode

from .explore_case import BUILT
from .systems import SYSTEMS, OfSystems

VECTORS = (0o4, 0o10, 0o14, 0o20, 0o30, 0o34, 0o250)
CODE, TESTED_TURN, CORE_WORDS = 0o1000, 9, 4096
# Ranges of words with few of all words.
RARE = (
    *((0o005000, 0o1000), (0o105000, 0o1000), (0o006000, 0o1000), (0o106000, 0o400)),
    *((0o000100, 0o100), (0o004000, 0o1000), (0o000200, 0o10), (0o000300, 0o100)),
    *((0o070000, 0o10000), (2, 1), (6, 1)),
    # the register that is moved changes as the destination is found
    *((0o010121, 1), (0o110343, 1), (0o010535, 1), (0o010767, 1), (0o010646, 1)),
)


class Operands(OfSystems):
    """Each operand of some turns, by brute force."""

    def explorer_of(self, machine: Machine) -> Explorer:
        disassembler = Disassembler(BUILT.disassembler)
        self.addCleanup(disassembler.close)
        return Explorer(machine, disassembler)

    def check_turn(self, machine: Machine, it: SeenTurn) -> list[OperandValue]:
        """The operands of a turn, whose values are those of core and of the registers."""
        turn, found = it.turn.turn, list[OperandValue]()
        after = machine.registers(turn + 1)
        for operand in operands_of(machine, turn, it.registers, it.words[0], it.text):
            found.append(operand)
            if operand.register:
                word = after.words[operand.register] if operand.is_written else None
                self.assertEqual(operand.after, word)
                continue
            if operand.place is None or operand.place >= 0o760000:
                self.assertIsNone(operand.value)
                continue
            assert operand.mode is not None and operand.address is not None
            places = machine.places([(turn, operand.mode, operand.address)])
            self.assertEqual(operand.place, next(places))
            word = machine.word(turn, operand.place & ~1)
            self.assertEqual(operand.value, operand.of_word(word), (it, operand))
        self.check_modes(it, found)
        return found

    def check_modes(self, it: SeenTurn, found: list[OperandValue]) -> None:
        """The spaces of operands, and that each register is there once."""
        previous = Mode.previous(it.registers.ps)
        of_previous = {"MFPI": found[:1], "MTPI": found[1:]}.get(it.text.split()[0], [])
        for operand in found:
            if operand.address is not None:
                in_previous = operand in of_previous
                self.assertEqual(operand.mode, previous if in_previous else it.registers.mode)
        written = [operand.register for operand in found if operand.is_written]
        self.assertEqual(len(set(written)), len(written))

    def walk(self, machine: Machine, it: SeenTurn) -> Walk:
        registers = {**it.registers.words, "PC": (it.turn.pc + 2) % 0o200000}
        modes = it.registers.mode, Mode.previous(it.registers.ps)
        memory = Memory(machine, it.turn.turn, range(0))
        walk = Walk(memory, it.words[0], registers, *modes, texts_of(it.text))
        walked(walk)
        return walk

    def check_left(self, machine: Machine, it: SeenTurn, found: list[OperandValue]) -> None:
        """What the turn, which has no trap, has written: as the operands say, and nothing else."""
        turn, after = it.turn.turn, machine.registers(it.turn.turn + 1)
        written = {op.register for op in found if op.is_written}
        for name, word in self.walk(machine, it).registers.items():
            if name not in written | {"PC", "PS"}:
                self.assertEqual(after.words[name], word, (it, name))
        for op in found:
            if op.is_written and op.place is not None and op.place < 0o760000:
                last = machine.last(turn + 1, op.place & ~1)
                assert last is not None
                self.assertEqual((last.turn, last.writer), (turn, "cpu"), (it, op))
                self.assertEqual(op.after, op.of_word(last.word))
        moved = found[0].value if found and re.match("MOVB? ", it.text) else None
        if moved is not None and found[-1].after is not None:
            bits = 0o377 if "MOVB" in it.text else 0o177777
            self.assertEqual(found[-1].after & bits, moved & bits, it)

    def test_turns_of_stored_systems(self) -> None:
        chance, count = random.Random(71), 0
        for words, turns in SYSTEMS:
            machine = self.machine(words)
            explorer = self.explorer_of(machine)
            for first in (200, *(chance.randrange(1000, turns - 200) for _ in range(2))):
                listed = list(machine.turns(first, 60))
                for it in seen(explorer, listed):
                    if it.turn.act != INSTRUCTION or not it.words:
                        continue
                    found = self.check_turn(machine, it)
                    count += len(found)
                    if not has_trap(machine, it.turn.turn):
                        self.check_left(machine, it, found)
        self.assertGreater(count, 250)

    def test_what_the_disk_moves_in_the_turn(self) -> None:
        """A read ends in turn 13, and the instruction of that turn finds its word."""
        program = "12737 177777 177406 12737 2000 177410 5037 177412 12737 5 177404".split()
        program += ["240"] * 9
        for words, value in (
            ("13700 2000", 0o3000),  # MOV @#2000,R0
            ("17700 724", 0o5252),  # MOV @2000,R0
            ("5237 2000", None),  # INC @#2000
            ("5277 724", 0o5252),  # INC @2000
        ):
            machine = Machine(Start(BUILT.program, [], self.folder))
            self.addCleanup(machine.close)
            for at, word in enumerate((*program, *words.split())):
                machine.ask(f"core {CODE + 2 * at:o} {word}")
            machine.edit_all(["core 2000 7", "core 3000 5252", "disk 0 3000"])
            (it,) = seen(self.explorer_of(machine), list(machine.turns(13, 1)))
            found = operands_of(machine, 13, it.registers, it.words[0], it.text)
            (of_core,) = (op for op in found if not op.register)
            self.assertEqual(of_core.value, value)
            if of_core.value is None:
                self.assertEqual(of_core.after, 0o3001)
                self.assertIn("unknown, since the disk may have", of_core.line())
            elif found[-1].register:
                self.assertEqual(found[-1].after, of_core.value)
            else:
                self.assertEqual(of_core.after, of_core.value + 1)

    def image(self, chance: random.Random) -> None:
        """Core whose words are mostly even addresses of core."""
        words = [
            chance.choice((2 * chance.randrange(0o10000),) * 8 + (chance.randrange(0o200000),))
            for _ in range(CORE_WORDS)
        ]
        (self.folder / "it.core").write_bytes(struct.pack(f"<{CORE_WORDS}H", *words))

    def edits(self, chance: random.Random) -> Iterator[str]:
        """Registers and modes by chance, and then an instruction by chance."""
        some = (0, 0o336, 0o340, 0o342, 0o777, 0o157776, 0o177560, 0o177776)
        moved = [
            chance.choice((chance.randrange(0o10000) * 2,) * 12 + some) for _ in range(7)
        ]
        moved[6] = chance.choice((moved[6], 0o336, 0o340, 0o342, 0o344))
        status = chance.randrange(0o20) << 12
        words = [word for at, it in enumerate(moved) for word in (0o12700 + at, it)]
        words += [0o12737, status, 0o177776, 0o12706, chance.choice((moved[0], *moved[6:] * 2))]
        words += [instruction(chance), 2 * chance.randrange(0o400), chance.randrange(0o200000)]
        for at, word in enumerate(words):
            yield f"core {CODE + 2 * at:o} {word:o}"

    def test_instructions_by_chance(self) -> None:
        """The instruction traps if it can't reach an operand, and otherwise writes what the
        operands say, and nothing else."""
        chance, counts = random.Random(72), {"traps": 0, "ends": 0}
        self.image(chance)
        options = ["--core", "it.core", "--units", "1"]
        machine = Machine(Start(BUILT.program, options, self.folder))
        self.addCleanup(machine.close)
        explorer = self.explorer_of(machine)
        for _ in range(300):
            machine.edit_all(list(self.edits(chance)))
            (it,) = seen(explorer, list(machine.turns(TESTED_TURN, 1)))
            if it.turn.pc != CODE + 2 * 19 or it.turn.act != INSTRUCTION or not it.words:
                continue
            found = self.check_turn(machine, it)
            fault = found[-1].remark if found else ""
            if re.search("its address is in|^the register|^goes there", fault):
                continue
            if any(op.place == STATUS for op in found):
                continue
            is_trap = has_trap(machine, TESTED_TURN)
            self.assertEqual(is_trap, fault != "", (it, found))
            counts["traps" if is_trap else "ends"] += 1
            if not is_trap:
                self.check_left(machine, it, found)
                self.assertLessEqual(changed(machine), {(op.place or 0) & ~1 for op in found})
        self.assertGreater(min(counts.values()), 40, counts)


def instruction(chance: random.Random) -> int:
    begin, count = chance.choice((*RARE, *((0, 0o200000),) * 10))
    word = begin + chance.randrange(count)
    return word if way_of(word) else instruction(chance)


def has_trap(machine: Machine, turn: int) -> bool:
    one = range(turn, turn + 1)
    return any(machine.found("first", one, f"trap {it:o}") is not None for it in VECTORS)


def changed(machine: Machine) -> set[int]:
    """The words of core that the turn that is tested changes."""
    both = [
        [word for at in range(0, 2 * CORE_WORDS, 512) for word in machine.words(turn, at, 256)]
        for turn in (TESTED_TURN, TESTED_TURN + 1)
    ]
    return {2 * at for at, (before, after) in enumerate(zip(*both)) if before != after}
