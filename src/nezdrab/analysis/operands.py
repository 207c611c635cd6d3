"""Where the data of a turn goes: the operands of instructions, pushes and pops, in the order of
docs/MACHINE.md, Operands, and what each write is made of."""
from enum import Enum
from typing import NamedTuple, Optional

from ..core.addressing import PC, SP, addressing_of
from ..core.engine import Machine
from ..core.hardware import IO_PAGE
from ..core.replies import Turn
from ..core.values import dataclass, field
from .cells import ALL_CODES, KEPT, KSP, MASK, NOTHING, OF_THE_DISK, OUTPUTS
from .cells import PC as POINT_CELL, PS, REST, USP, Cells, register_cells, word_cells
from .transfers import Disk, DiskMove
from .turn_cycles import KERNEL, RegisterWords, Space

STACK_LIMIT = 0o340
WHOLE_PS = ((REST, *ALL_CODES), (REST,))  # the low and the high byte of PS
POINT: Cells = (POINT_CELL,)


class How(Enum):
    """How a cell gets its value: by an operation, as a copy, saved by a call or a trap, as a
    register that grows or shrinks for an operand, or as a condition code."""

    VALUE = "value"
    COPY = "copy"
    SAVED = "saved"
    STEP = "step"
    CODE = "code"


class Move(NamedTuple):
    """A cell gets a value: made of these cells, and at an address made of those. The moves of one
    instant are made at once, of what was before them."""

    cell: int
    values: Cells
    addresses: Cells
    how: How
    instant: int


class Access(Enum):
    """What a cycle on the bus does. A timeout is a cycle that nothing answers."""

    READ = "read"
    WRITE = "write"
    READ_TIMEOUT = "read timeout"
    WRITE_TIMEOUT = "write timeout"


class Cycle(NamedTuple):
    """A cycle of the processor on the bus, of the word or the byte at a physical address."""

    access: Access
    place: int
    is_byte: bool = False

    @property
    def word(self) -> int:
        """The address of the word."""
        return self.place & ~1

    def is_read_of(self, address: int) -> bool:
        return self.access == Access.READ and self.word == address

    def is_write_of(self, address: int) -> bool:
        return self.access == Access.WRITE and self.word == address


IDLE_TURN = Turn(0, 0, "idle", None)


@dataclass
class Flow:
    """What a turn moves, after the transfer that completes in its beginning."""

    turn: int = 0
    act: Turn = IDLE_TURN
    mode: int = 0
    transfer: Optional[DiskMove] = None
    moves: list[Move] = field(default_factory=list)
    cycles: list[Cycle] = field(default_factory=list)
    place: Optional[int] = None  # of the instruction
    word: int = 0
    vector: Optional[int] = None


class Operand(NamedTuple):
    """Where an operand is: in a register, or at a virtual address made of these cells."""

    register: Optional[int]
    address: int
    cells: Cells


class Stopped(Exception):
    """A reference that can't be made: the instruction goes no further."""


class BelowTheLimit(Stopped):
    """The kernel's stack would go below its limit: the red sequence follows."""


def pointer_of(mode: int) -> int:
    return KSP if mode == KERNEL else USP


class Operands:
    """What a turn does with its operands. A mode is the two bits of PS."""

    def __init__(self, machine: Machine):
        self.machine = machine
        self.space, self.disk = Space(machine), Disk(machine)
        self.registers: list[int] = []
        self.after = RegisterWords((), 0, 0)
        self.vector: Optional[int] = None  # of the trap that the turn has, until it comes
        self.pc = self.mode = self.previous = self.instant = self.unknown = 0
        self.turn = 0
        self.moves: list[Move] = []
        self.cycles: list[Cycle] = []

    # Moves

    def move(
        self, cell: int, values: Cells, addresses: Cells = NOTHING, how: How = How.VALUE
    ) -> None:
        self.moves.append(Move(cell, values, addresses, how, self.instant))

    def number(self, register: int) -> int:
        return pointer_of(self.mode) if register == SP else register

    def value(self, register: int) -> int:
        return self.pc if register == PC else self.registers[self.number(register)]

    def cells_of(self, register: int) -> Cells:
        """What an address in this register is made of."""
        return NOTHING if register == PC else register_cells(self.number(register))

    def step(self, register: int, by: int) -> None:
        """A register grows or shrinks."""
        if register == PC:
            self.pc = self.pc + by & MASK
        else:
            self.step_number(self.number(register), by)

    def step_number(self, number: int, by: int) -> None:
        self.registers[number] = self.registers[number] + by & MASK
        low, high = register_cells(number)
        self.instant += 1
        self.move(low, (low,), NOTHING, How.STEP)
        self.move(high, (low, high), NOTHING, How.STEP)

    def shrink(self, register: int, by: int) -> None:
        if register == PC:
            self.step(PC, -by)
        else:
            self.shrink_number(self.number(register), by)

    def shrink_number(self, number: int, by: int) -> None:
        if number == KSP and (self.registers[KSP] - by & MASK) < STACK_LIMIT:
            raise BelowTheLimit
        self.step_number(number, -by)

    def set_register(
        self, number: int, low: Cells, high: Cells, addresses: Cells, how: How
    ) -> None:
        self.unknown |= 1 << number
        cells = register_cells(number)
        self.move(cells[0], low, addresses, how)
        self.move(cells[1], high, addresses, how)

    # References

    def reach(
        self, mode: int, address: int, is_byte: bool = False, is_write: bool = False
    ) -> int:
        """The physical address of a reference, whose cycle is made. In a turn that traps a write is
        the last one: if all reads before it could be made it is the one that can't."""
        place = None if address & 1 and not is_byte else self.space.place(mode, address)
        if place is None:
            raise Stopped
        if self.vector is not None:
            answers = self.space.answers(mode, address, place)
            if not answers:
                timeout = Access.WRITE_TIMEOUT if is_write else Access.READ_TIMEOUT
                self.cycle(timeout, place, is_byte)
            if is_write or not answers:
                raise Stopped
        self.cycle(Access.WRITE if is_write else Access.READ, place, is_byte)
        return place

    def cycle(self, access: Access, place: int, is_byte: bool = False) -> None:
        self.cycles.append(Cycle(access, place, is_byte))

    def find(self, spec: int, is_byte: bool) -> Operand:
        way = addressing_of(spec, is_byte)
        if way is None:
            return Operand(spec, 0, NOTHING)
        if way.shrinks:
            self.shrink(way.register, way.shrinks)
        index, cells = 0, NOTHING
        if way.has_index:
            place = self.reach(self.mode, self.pc)
            self.pc = self.pc + 2 & MASK
            index, cells = self.space.word(place), word_cells(place)
        address = self.value(way.register) + index & MASK
        cells = self.cells_of(way.register) + cells
        if way.grows:
            self.step(way.register, way.grows)
        if not way.is_deferred:
            return Operand(None, address, cells)
        place = self.reach(self.mode, address)
        return Operand(None, self.space.word(place), cells + word_cells(place))

    def read(
        self, operand: Operand, is_byte: bool, mode: Optional[int] = None
    ) -> tuple[Cells, Cells]:
        """The cells of the low and of the high byte."""
        if operand.register is None:
            space = self.mode if mode is None else mode
            return self.cells_at(self.reach(space, operand.address, is_byte), is_byte)
        if operand.register == PC:
            return POINT, POINT
        low, high = register_cells(self.number(operand.register))
        return (low,), NOTHING if is_byte else (high,)

    def cells_at(self, place: int, is_byte: bool) -> tuple[Cells, Cells]:
        """The same at a physical address. TPB and PPB read 0."""
        even = place & ~1
        halves: tuple[Cells, Cells] = ((even,), (even + 1,))
        if even == PS:
            halves = WHOLE_PS
        if even in OUTPUTS:
            halves = (NOTHING, NOTHING)
        return (halves[place & 1], NOTHING) if is_byte else halves

    def write(
        self,
        operand: Operand,
        is_byte: bool,
        values: tuple[Cells, Cells],
        addresses: Cells = NOTHING,
        how: How = How.VALUE,
        mode: Optional[int] = None,
    ) -> bool:
        """Writes an operand; tells whether the instruction may store codes after that."""
        self.instant += 1
        if operand.register is None:
            space = self.mode if mode is None else mode
            place = self.reach(space, operand.address, is_byte, is_write=True)
            return self.store(place, is_byte, values, addresses + operand.cells, how)
        if operand.register == PC:
            return True
        number = self.number(operand.register)
        low, high = register_cells(number)
        self.unknown |= 1 << number
        self.move(low, values[0], addresses, how)
        if not is_byte:
            self.move(high, values[1], addresses, how)
        return True

    def store(
        self, place: int, is_byte: bool, values: tuple[Cells, Cells], addresses: Cells, how: How
    ) -> bool:
        self.space.wrote(place)
        if place & ~1 == PS:
            self.store_ps(place, is_byte, values, addresses, how)
            return False
        if place >= IO_PAGE and not self.is_kept(place):
            return True
        self.move(place, values[0], addresses, how)
        if not is_byte and place not in OUTPUTS:
            self.move(place + 1, values[1], addresses, how)
        return True

    def is_kept(self, place: int) -> bool:
        """Whether a register on the bus keeps what is written to this byte of it."""
        register = place & ~1
        if register in OUTPUTS:
            return place == register
        return register in KEPT and not (register in OF_THE_DISK and self.disk.is_busy(self.turn))

    def store_ps(
        self, place: int, is_byte: bool, values: tuple[Cells, Cells], addresses: Cells, how: How
    ) -> None:
        """T stays as it is."""
        if place == PS:
            for cell in ALL_CODES:
                self.move(cell, values[0], addresses, how)
        rest = values[0] + (NOTHING if is_byte else values[1])
        self.move(REST, (*rest, REST), addresses, how)

    def push(
        self,
        values: tuple[Cells, Cells],
        mode: int,
        how: How = How.COPY,
        addresses: Cells = NOTHING,
        is_from_before: bool = False,
    ) -> bool:
        """Pushes a word. If it is from before the push, it isn't made of the pointer that has
        shrunk."""
        number = pointer_of(mode)
        self.shrink_number(number, 2)
        place = self.reach(mode, self.registers[number], is_write=True)
        self.instant += not is_from_before
        return self.store(place, False, values, register_cells(number) + addresses, how)

    def pop(self) -> tuple[tuple[Cells, Cells], Cells]:
        """The cells of the popped word, and those of its address."""
        number = pointer_of(self.mode)
        address = self.registers[number]
        self.step_number(number, 2)
        place = self.reach(self.mode, address)
        return self.cells_at(place, False), register_cells(number)
