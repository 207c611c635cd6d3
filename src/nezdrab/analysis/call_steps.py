"""The turns of a batch that a walk along the calls has to look at."""
from typing import NamedTuple, Optional

from ..core.engine import Machine
from ..core.hardware import OPERAND_TRAPS
from ..core.register_rows import KSP, PC, PLACE, POINTERS, STATUS, USP, Batch
from ..core.replies import MODES, Mode, Registers, Turn
from ..core.values import dataclass
from .finder import Finder
from .levels import JSR, NEAR_BYTES, WITH_NUMBER, WITHOUT, Done, is_load
from .routines import Label, Labels
from .transfers import functions_done

SEQUENTIAL = (2, 4, 6)  # bytes from an instruction to the one behind it


class State(NamedTuple):
    """The registers before a turn, as far as a walk looks at them: KSP and USP are `pointers`."""

    reply: bytes
    label: Label
    pc: int
    mode: Mode
    pointers: tuple[int, int]

    @classmethod
    def of(cls, reply: bytes, label: Label) -> "State":
        mode = MODES[int(reply[STATUS], 8) >> 2]
        pointers = int(reply[KSP], 8), int(reply[USP], 8)
        return cls(reply, label, int(reply[PC], 8), mode, pointers)

    @property
    def stack(self) -> int:
        """The number of the pointer that is SP."""
        return int(self.mode is not Mode.KERNEL)


@dataclass
class CallStep:
    """A turn after which the routine or a stack pointer is another one, or that begins no
    instruction; with the word of its instruction if that is asked for."""

    turn: int
    before: State
    after: State
    other: Optional[Turn]
    word: Optional[int] = None

    @property
    def is_jump(self) -> bool:
        return self.after.pc - self.before.pc & 0o177777 not in SEQUENTIAL

    def pushed(self, stack: int) -> int:
        """How many bytes a stack has grown, modulo 200000; less than 0 if it has shrunk."""
        grown = self.before.pointers[stack] - self.after.pointers[stack]
        return (grown + 0o100000) % 0o200000 - 0o100000

    @property
    def is_asked(self) -> bool:
        """Whether the word of the instruction tells if this is a call, or if SP is loaded."""
        if self.other is not None or self.before.label.mode is None:
            return False
        if self.is_jump:  # the red sequence leaves SP 0, as it may have been
            return self.pushed(self.after.stack) > 0 or not self.after.pointers[self.after.stack]
        kernel, user = self.pushed(0), self.pushed(1)
        return kernel < 0 or user < 0 or kernel > NEAR_BYTES or user > NEAR_BYTES

    def is_call(self) -> bool:
        """Whether the word is that of a JSR which pushed one word, or of an instruction that is
        there to trap."""
        if self.word is None or not self.is_jump:
            return False
        if self.word >> 9 == JSR:
            return self.before.mode is self.after.mode and self.pushed(self.after.stack) == 2
        return self.word >> 8 in WITH_NUMBER or self.word in WITHOUT

    @property
    def is_load(self) -> bool:
        return not self.is_jump and is_load(self.word)

    def line_of_word(self) -> bytes:
        return f"virtual {self.turn} {self.before.mode.value} {self.before.pc:o} 1".encode()


@dataclass
class Known:
    """What the registers don't tell: the turns with a trap that the word of the instruction
    doesn't say, and those in whose beginning the disk has written to core."""

    traps: set[int]
    reads: set[int]

    @classmethod
    def of(cls, machine: Machine, turns: range) -> "Known":
        finder = Finder(machine)
        traps = {turn for it in OPERAND_TRAPS for turn in finder.each(turns, f"trap {it:o}")}
        done = functions_done(machine, turns)
        return cls(traps, {it.turn for it in done if it.function == "read"})


def steps_of(machine: Machine, batch: Batch, labels: Labels, known: Known) -> list[CallStep]:
    """The steps of a batch. All other turns are in one routine, and in no call of it."""
    found = []
    pairs = zip(batch.turns, batch.registers, batch.registers[1:])
    label = labels[batch.registers[0][PLACE]]
    last = State.of(batch.registers[0], label)
    for turn, before, after in pairs:
        was, label = label, labels[after[PLACE]]
        if label is not was or before[POINTERS] != after[POINTERS] or turn in batch.others:
            first = last if last.reply is before else State.of(before, was)
            last = State.of(after, label)
            found.append(CallStep(turn, first, last, batch.others.get(turn)))
    add_words(machine, [it for it in found if it.is_asked], known)
    return found


def add_words(machine: Machine, steps: list[CallStep], known: Known) -> None:
    """Asks for the words that the instructions of these turns were fetched with."""
    for step, reply in zip(steps, machine.rows([it.line_of_word() for it in steps])):
        word = reply.split()[1]
        step.word = int(word, 8) if word.isdigit() else None
    for step in steps:
        if step.turn in known.reads:  # which may have brought the word
            registers = Registers.of(step.before.reply.decode())
            step.word = Done.of(machine, step.turn, registers).word
