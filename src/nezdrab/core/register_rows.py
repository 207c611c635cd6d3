"""All turns of a range, one after the other: the registers before each, and its act. A row is a
reply of `regs`, `R0 000000 R1 .. KSP 000772 USP 030000 PC 001122 PS 030344 run`, whose words are at
the same places in each."""
import re
from typing import Iterator

from .engine import Machine
from .replies import Turn
from .values import dataclass

GENERAL = tuple(slice(at, at + 6) for at in range(3, 63, 10))  # R0 to R5
POINTERS, KSP, USP = slice(64, 81), slice(64, 70), slice(75, 81)
PC, PS, STATE = slice(85, 91), slice(95, 101), slice(102, None)
STATUS, PLACE = slice(95, 97), slice(85, 97)  # the bits of both modes; PC up to these bits

TURNS_OF_A_BATCH = 4_096
NO_INSTRUCTION = re.compile(r"^[0-9]+ [0-7]{6} (?!instr).+$", re.MULTILINE)


@dataclass(frozen=True)
class Batch:
    """Turns that follow one another, the replies of `regs` before each of them and after the last,
    and those turns that begin no instruction."""

    turns: range
    registers: list[bytes]
    others: dict[int, Turn]


def others_of(machine: Machine, turns: range) -> dict[int, Turn]:
    """The turns that begin no instruction."""
    replies = machine.read_all(machine.trail_lines(turns.start, len(turns)))
    found = (Turn.of(line[0]) for reply in replies for line in NO_INSTRUCTION.finditer(reply))
    return {it.turn: it for it in found}


def batches(machine: Machine, turns: range) -> Iterator[Batch]:
    """The turns in batches."""
    for at in range(turns.start, turns.stop, TURNS_OF_A_BATCH):
        part = range(at, min(at + TURNS_OF_A_BATCH, turns.stop))
        registers = list(machine.of_each_turn("regs", range(part.start, part.stop + 1)))
        yield Batch(part, registers, others_of(machine, part))
