"""What results are made of, against the machine: single instructions are run twice, the second time
with other values in cells that a result isn't made of, and the result must stay."""
import random
from dataclasses import dataclass, field
from typing import Callable
from unittest import mock

from nezdrab.analysis.cells import ALL_CODES, CODES, NAMES, register_cells, word_cells
from nezdrab.analysis.made_of import EXTENDED, ONE_OPERAND, TWO_OPERANDS, MadeRow, plan_of
from nezdrab.analysis.operands import Flow
from nezdrab.analysis.turn_flow import Flows
from nezdrab.core.engine import Machine

from .machines import OnMachine

START, INSTRUCTION_TURN = 0o1000, 8
FIRST, SECOND, STACK = 0o2000, 0o2010, 0o700
WORDS = (FIRST, SECOND, STACK, STACK + 2)
RESULTS = (*WORDS, STACK - 2)
FREE_REGISTERS = (0, 2, 4, 5)
EDGES = (0, 1, 0o177777, 0o100000, 0o077777, 0o200, 0o377, 0o177400, 2, 0o177776)
FREE = [
    *(cell for it in FREE_REGISTERS for cell in register_cells(it)),
    *(cell for it in WORDS for cell in word_cells(it)),
    *ALL_CODES,
]


@dataclass
class Program:
    """An instruction, and where R1 and R3 point to for it."""

    word: int
    pointers: dict[int, int] = field(default_factory=lambda: {1: FIRST, 3: SECOND})

    def operand(self, chance: random.Random, register: int, is_byte: bool) -> int:
        """The specifier of a register, or of the word that this one points to."""
        if chance.random() < 0.5:
            return chance.choice(FREE_REGISTERS)
        mode = chance.choice((1, 2, 4, 6))
        step = 1 if is_byte else 2
        self.pointers[register] += step if mode == 4 else 0
        if is_byte and chance.random() < 0.5:
            self.pointers[register] += 1
        return mode << 3 | register


def instruction(chance: random.Random) -> Program:
    program, kind = Program(0), chance.random()
    if kind < 0.4:
        operation = chance.choice((1, 2, 3, 4, 5, 6, 0o11, 0o12, 0o13, 0o14, 0o15, 0o16))
        is_byte = operation > 0o10 and operation != 0o16
        source = program.operand(chance, 1, is_byte)
        program.word = operation << 12 | source << 6 | program.operand(chance, 3, is_byte)
    elif kind < 0.7:
        operation = chance.choice((*range(0o50, 0o64), 0o67, 0o3))
        is_byte = 0o50 <= operation < 0o64 and chance.random() < 0.4
        program.word = operation << 6 | program.operand(chance, 3, is_byte) | is_byte << 15
    elif kind < 0.85:
        register = chance.choice(FREE_REGISTERS) << 6
        operation = chance.choice((0o70, 0o71, 0o72, 0o73, 0o74))
        program.word = operation << 9 | register | program.operand(chance, 1, False)
    else:
        others = (0o240 | chance.randrange(32), 0o004513, 0o000205, 0o077401, 2, 6)
        moved = (0o6500, 0o6600)
        program.word = chance.choice(others)
        if chance.random() < 0.4:
            program.word = chance.choice(moved) | program.operand(chance, 1, False)
    return program


@dataclass
class Ran:
    flow: Flow
    after: dict[int, int]

    def made(self) -> dict[int, frozenset[int]]:
        """The cells before the instruction that each cell after it is made of."""
        found: dict[int, frozenset[int]] = {}
        now: dict[int, frozenset[int]] = {}
        instant = -1
        for it in self.flow.moves:
            if it.instant != instant:
                found.update(now)
                now, instant = {}, it.instant
            parts = [found.get(cell, frozenset([cell])) for cell in it.values]
            now[it.cell] = frozenset().union(*parts)
        return {**found, **now}


def run(machine: Machine, program: Program, values: dict[int, int]) -> Ran:
    """Runs the instruction with these values of the free cells."""
    cells = {it: register_cells(it) for it in FREE_REGISTERS}
    registers = {it: values[low] | values[high] << 8 for it, (low, high) in cells.items()}
    registers.update({**program.pointers, 6: STACK})
    words = [it for number in range(7) for it in (0o012700 | number, registers[number])]
    codes = sum(values[it] << it - CODES for it in ALL_CODES)
    words += [0o012737, codes, 0o177776, program.word, 0, 0]
    lines = [f"core {START + 2 * at:o} {word:o}" for at, word in enumerate(words)]
    lines += [f"core {it:o} {values[it] | values[it + 1] << 8:o}" for it in WORDS]
    assert set(machine.ask_all(lines, 100)) == {"ok"}
    (flow,) = Flows(machine, range(INSTRUCTION_TURN, INSTRUCTION_TURN + 1))
    end = INSTRUCTION_TURN + 1
    found = machine.registers(end)
    after = {FREE[-4 + at]: found.ps >> 3 - at & 1 for at in range(4)}
    for number, name in enumerate(NAMES):
        after.update(zip(register_cells(number), halves(found.words[name])))
    for it in RESULTS:
        after.update(zip(word_cells(it), halves(machine.word(end, it))))
    return Ran(flow, after)


def halves(word: int) -> tuple[int, int]:
    """The low and the high byte."""
    return word & 0o377, word >> 8


def values_of(chance: random.Random) -> dict[int, int]:
    found = {it: chance.randrange(2) for it in ALL_CODES}
    for low, high in (*map(register_cells, FREE_REGISTERS), *map(word_cells, WORDS)):
        word = chance.choice(EDGES) if chance.random() < 0.4 else chance.randrange(0o200000)
        found[low], found[high] = halves(word)
    found[STACK], found[STACK + 1] = halves(chance.randrange(0, 0o200000, 2))
    return found


def differing(
    machine: Machine,
    chance: random.Random,
    count: int,
    programs: Callable[[random.Random], Program] = instruction,
) -> tuple[int, list[str]]:
    """How many results were compared, and those that aren't made of what was changed, and yet
    differ: of the first instruction that has any."""
    compared = 0
    wrong: list[str] = []
    while count and not wrong:
        count -= 1
        program, values, others = programs(chance), values_of(chance), values_of(chance)
        chosen = set(chance.sample(FREE, chance.randrange(1, 12)))
        changed = {it: others[it] if it in chosen else values[it] for it in FREE}
        differ = {it for it in FREE if changed[it] != values[it]}
        first, second = run(machine, program, values), run(machine, program, changed)
        made = first.made()
        for cell, value in first.after.items():
            if made.get(cell, frozenset([cell])) & differ:
                continue
            compared += 1
            if value != second.after[cell]:
                wrong.append(f"{program.word:06o}: cell {cell:o}")
    return compared, wrong


class MadeOf(OnMachine):
    def test_a_result_stays_while_what_it_is_made_of_stays(self) -> None:
        compared, wrong = differing(self.explorer().machine, random.Random(1), 250)
        self.assertEqual(wrong, [])
        self.assertGreater(compared, 4000)

    def test_a_row_that_lacks_a_cell_is_found(self) -> None:
        lacking = (
            (TWO_OPERANDS, 6, MadeRow("sd", "SD", "sSdD", "sSdD", "sSdD", "sSdD"), 0o060004),
            (ONE_OPERAND, 0o60, MadeRow("d", "DC", "C", "dDC", "dC", "d"), 0o006004),
            (EXTENDED, 3, MadeRow("r", "sr", "sr", "sr", "sr", "sr"), 0o073400),
        )
        machine = self.explorer().machine
        self.addCleanup(plan_of.cache_clear)
        for table, key, wrong_row, word in lacking:
            name, _ = table[key]
            plan_of.cache_clear()
            with mock.patch.dict(table, {key: (name, wrong_row)}):
                _, wrong = differing(machine, random.Random(2), 100, lambda _: Program(word))
            self.assertTrue(wrong, name)

    def test_each_word_has_the_row_of_its_name(self) -> None:
        disassembler = self.explorer().disassembler
        for word in range(0, 0o200000, 0o27):
            name = disassembler.instruction(0, (word, 0, 0)).text.split()[0]
            plan = plan_of(word)
            if plan is not None:
                others = {"ADD": ("ADD", "SUB")}.get(plan.name, (plan.name,))
                names = others + tuple(f"{it}B" for it in others if plan.is_byte)
                self.assertIn(name, names, f"{word:06o}")
            elif name in {it for it, _ in (*TWO_OPERANDS.values(), *ONE_OPERAND.values())}:
                self.fail(f"{word:06o} is {name}")
