"""The operands of an instruction: where each of them is, what the instruction finds there, and what
is there after its turn. The rules are those of docs/MACHINE.md, sections 3 to 5."""
from typing import Callable, Iterator, Optional, Sequence

from ..core.addressing import PC, SP, addressing_of
from ..core.engine import Machine
from ..core.hardware import IO_PAGE, NAMES_IN_THE_IO_PAGE
from ..core.replies import SPACES, Devices, DiskFunction, Mode, Registers
from ..core.values import dataclass, field, replace
from .levels import pointer
from .listing import NOT_WHOLE, VIRTUAL
from .operands import STACK_LIMIT

STATUS = 0o777776
ABORT = 0o250
NOT_WRITTEN = "and a write is aborted, read only"
TWICE = "unknown, since the disk may have written it in this turn too"
NO_ADDRESS = "a register has no address: the instruction traps"


@dataclass(frozen=True)
class OperandValue:
    """An operand as it is written. It is a register, by its name, or at a virtual address of a
    mode's space and at a place of the bus. `value` is what the instruction finds, `after` what is
    there before the next turn. Without a value the remark says why."""

    text: str
    mode: Optional[Mode] = None
    register: str = ""
    address: Optional[int] = None
    place: Optional[int] = None
    value: Optional[int] = None
    after: Optional[int] = None
    is_byte: bool = False
    is_written: bool = False
    remark: str = ""

    def of_word(self, word: int) -> int:
        """The operand, of the word that it is or is a byte of."""
        if not self.is_byte or self.register:
            return word
        return word >> 8 if (self.place or 0) % 2 else word & 0o377

    def number(self, value: Optional[int]) -> str:
        digits = 3 if self.is_byte and not self.register else 6
        return TWICE if value is None else f"{value:0{digits}o}"

    def line(self) -> str:
        """The operand as a line below that of its turn."""
        mode = self.mode.value if self.mode else ""
        numbers = ("" if it is None else f"{it:06o}" for it in (self.address, self.place))
        found = self.remark or self.number(self.value)
        after = "" if self.after is None else f", then {self.number(self.after)}"
        address, place = numbers
        return f"{'':>10}  {mode:<6}  {address:<6}  {place:<6}    {self.text}: {found}{after}"


class Fault(Exception):
    """Why the instruction goes no further, or why it isn't known how it goes on."""


@dataclass
class Memory:
    """Core and the pages as the act of a turn finds them: what the disk reads to core, at most to
    these places, comes before it."""

    machine: Machine
    turn: int
    read_to: range

    def place(self, mode: Mode, address: int, is_byte: bool = False) -> int:
        """The physical address of a virtual one, for a read."""
        if address % 2 and not is_byte:
            raise Fault(f"{address:06o} is odd: the instruction traps")
        if mode not in SPACES and next(self.machine.places([(self.turn, mode, address)])) is None:
            raise Fault("aborted, non-resident")
        space = mode if mode in SPACES else Mode.KERNEL
        line = f"translate {self.turn} {space.value} {address:o}"
        found, *why = self.machine.read(line).split()[1:]
        if why:
            raise Fault(f"aborted, {' '.join(why)}")
        place = int(found, 8)
        top = self.machine.setup.core_end
        if top <= place < IO_PAGE or place >= IO_PAGE and not name_of(place):
            raise Fault("nothing is there: a timeout")
        return place

    def word(self, place: int) -> Optional[int]:
        """The word of core, or None if the processor wrote it, and the disk may have too."""
        even = place & ~1
        word = self.machine.word(self.turn, even)
        if even not in self.read_to:
            return word
        write = self.machine.last(self.turn + 1, even)
        if write is None or write.turn != self.turn:
            return word
        return write.word if write.writer == "disk" else None


def name_of(place: int) -> str:
    """The name of the register at a place of the I/O page, or an empty text."""
    return NAMES_IN_THE_IO_PAGE.get(place & ~1, "")


def places_read_to(before: Devices, after: Devices) -> range:
    """The places of core that a read of the disk may have written in the turn between. While the
    disk isn't ready a program can't write the registers that are compared."""
    of_function = ("RKWC", "RKBA", "RKDA")
    is_moved = any(before.words[it] != after.words[it] for it in of_function)
    has_ended = not before.disk_is_ready and (after.disk_is_ready or is_moved)
    if not has_ended or before.function != DiskFunction.READ:
        return range(0)
    count = 1 if before.stays else before.word_count
    return range(before.bus_address, before.bus_address + 2 * count)


@dataclass
class Walk:
    """Goes through an instruction as far as it finds operands: its first word, the registers as
    they change, and the text of each operand that it has in its own text."""

    memory: Memory
    word: int
    registers: dict[str, int]
    mode: Mode
    previous: Mode
    texts: list[str]
    found: list[OperandValue] = field(default_factory=list)

    @property
    def is_byte(self) -> bool:
        return bool(self.word & 0o100000)

    # Registers

    def name(self, number: int, mode: Optional[Mode] = None) -> str:
        if number == SP:
            return pointer(mode or self.mode)
        return "PC" if number == PC else f"R{number}"

    def get(self, number: int) -> int:
        return self.registers[self.name(number)]

    def change(self, number: int, by: int) -> None:
        name = self.name(number)
        self.registers[name] = (self.registers[name] + by) % VIRTUAL

    def shrink(self, number: int, by: int) -> None:
        below = (self.get(number) - by) % VIRTUAL
        if self.name(number) == "KSP" and below < STACK_LIMIT:
            raise Fault(f"{below:06o} is below the limit of the stack: the red sequence")
        self.change(number, -by)

    # Operands

    def index_word(self) -> int:
        word = self.pointer(self.get(PC))
        self.change(PC, 2)
        return word

    def pointer(self, address: int) -> int:
        """A word from which the operand's address is made."""
        place = self.memory.place(self.mode, address)
        if place >= IO_PAGE:
            raise Fault(f"its address is in the register {name_of(place)}")
        word = self.memory.word(place)
        if word is None:
            raise Fault(f"its address is {TWICE}")
        return word

    def address(self, specifier: int, is_byte: bool = False) -> int:
        """The address of an operand in memory. Registers change, and pointers are read."""
        way = addressing_of(specifier, is_byte)
        assert way is not None
        if way.shrinks:
            self.shrink(way.register, way.shrinks)
        index = self.index_word() if way.has_index else 0
        address = (self.get(way.register) + index) % VIRTUAL
        if way.grows:
            self.change(way.register, way.grows)
        return self.pointer(address) if way.is_deferred else address

    def take(self, operand: OperandValue) -> None:
        self.found.append(operand)

    def in_register(self, number: int, text: str, is_written: bool) -> None:
        name = self.name(number)
        mode = self.mode if number == SP else None
        self.take(OperandValue(text, mode, name, value=self.get(number), is_written=is_written))

    def in_memory(self, operand: OperandValue) -> None:
        """Takes an operand at an address, with what is there."""
        assert operand.mode is not None and operand.address is not None
        try:
            place = self.memory.place(operand.mode, operand.address, operand.is_byte)
        except Fault as fault:
            self.take(replace(operand, remark=str(fault)))
            raise
        operand = replace(operand, place=place)
        if place >= IO_PAGE:
            self.take(replace(operand, remark=f"the register {name_of(place)}"))
            return
        word = self.memory.word(place)
        self.take(replace(operand, value=None if word is None else operand.of_word(word)))

    def operand(
        self, specifier: int, is_written: bool, is_byte: bool = False, mode: Optional[Mode] = None
    ) -> None:
        """Finds and takes an operand that the instruction's text has. The mode is that of its
        space, if it isn't the current one."""
        text = self.texts[0]
        if specifier < 0o10:
            self.in_register(specifier, text, is_written)
        else:
            address = self.address(specifier, is_byte)
            space = mode or self.mode
            of_memory = OperandValue(text, space, address=address, is_byte=is_byte)
            self.in_memory(replace(of_memory, is_written=is_written))
        del self.texts[0]

    def pushed(self) -> None:
        self.texts.insert(0, "-(SP)")
        self.operand(0o46, is_written=True)

    def popped(self) -> None:
        self.texts.insert(0, "(SP)+")
        self.operand(0o26, is_written=False)

    # Instructions

    def two_operands(self) -> None:
        source, destination = self.word >> 6 & 0o77, self.word & 0o77
        code = self.word >> 12 & 7
        is_byte = self.is_byte and code != 6  # SUB is of words
        is_written = code not in (2, 3)
        if source < 0o10 <= destination:  # then the register is read last
            self.late_register(source, destination, is_written, is_byte)
            return
        self.operand(source, False, is_byte)
        self.operand(destination, is_written, is_byte)

    def late_register(self, number: int, destination: int, is_written: bool, is_byte: bool) -> None:
        """A register, and a destination in memory, which is found before the register is read."""
        text = self.texts.pop(0)
        self.operand(destination, is_written, is_byte)
        self.in_register(number, text, is_written=False)
        self.found.insert(-1, self.found.pop())

    def exclusive_or(self) -> None:
        number, destination = self.word >> 6 & 7, self.word & 0o77
        if destination < 0o10:
            self.operand(number, is_written=False)
            self.operand(destination, is_written=True)
        else:
            self.late_register(number, destination, is_written=True, is_byte=False)

    def extended(self) -> None:
        number, has_pair = self.word >> 6 & 7, self.word >> 9 & 7 != 2
        self.operand(self.word & 0o77, is_written=False)
        self.in_register(number, self.texts[0], is_written=True)
        if has_pair and not number & 1:
            low = number | 1
            self.in_register(low, "PC" if low == PC else f"R{low}", is_written=True)

    def loop(self) -> None:
        self.in_register(self.word >> 6 & 7, self.texts[0], is_written=True)

    def one_operand(self) -> None:
        is_test = self.word >> 6 & 0o777 == 0o057
        self.operand(self.word & 0o77, not is_test, self.is_byte)

    def target(self) -> None:
        """The operand of a jump, whose address is taken."""
        if self.word & 0o77 < 0o10:
            raise Fault(NO_ADDRESS)
        address = self.address(self.word & 0o77)
        self.take(OperandValue(self.texts.pop(0), self.mode, address=address, remark="goes there"))

    def call(self) -> None:
        number, link = self.word >> 6 & 7, self.texts.pop(0)
        self.target()
        self.pushed()
        if number != PC and self.found[-1].place != STATUS:  # which would change the mode
            self.in_register(number, link, is_written=True)

    def back(self) -> None:
        number = self.word & 7
        if number != PC:
            self.in_register(number, self.texts[0], is_written=True)
        self.popped()

    def back_from_trap(self) -> None:
        self.popped()
        self.popped()

    def mark(self) -> None:
        name = self.name(SP)
        self.registers[name] = (self.get(PC) + 2 * (self.word & 0o77)) % VIRTUAL
        self.registers["PC"] = self.get(5)
        self.popped()
        self.in_register(5, "R5", is_written=True)

    def previous_pointer(self, is_written: bool) -> None:
        name = pointer(self.previous)
        value = self.registers[name]
        text, of_mode = self.texts[0], self.previous
        self.take(OperandValue(text, of_mode, name, value=value, is_written=is_written))

    def from_previous(self) -> None:
        source = self.word & 0o77
        if source == SP:
            self.previous_pointer(is_written=False)
        else:
            self.operand(source, is_written=False, mode=self.previous)
        self.pushed()

    def to_previous(self) -> None:
        destination = self.word & 0o77
        self.popped()
        if destination == SP:
            self.previous_pointer(is_written=True)
        else:
            self.operand(destination, is_written=True, mode=self.previous)


OF_TWO, OF_A_REGISTER = range(1, 7), {4: Walk.exclusive_or, 7: Walk.loop}
OTHERS: tuple[tuple[int, int, Callable[[Walk], None]], ...] = (
    (0o177777, 0o000002, Walk.back_from_trap),
    (0o177777, 0o000006, Walk.back_from_trap),
    (0o177700, 0o000100, Walk.target),
    (0o177770, 0o000200, Walk.back),
    (0o177700, 0o000300, Walk.one_operand),
    (0o177000, 0o004000, Walk.call),
    (0o077000, 0o005000, Walk.one_operand),
    (0o077400, 0o006000, Walk.one_operand),
    (0o177700, 0o006400, Walk.mark),
    (0o177700, 0o006500, Walk.from_previous),
    (0o177700, 0o006600, Walk.to_previous),
    (0o177700, 0o006700, Walk.one_operand),
)


def way_of(word: int) -> Optional[Callable[[Walk], None]]:
    """How an instruction finds its operands, if it has any."""
    if word >> 12 & 7 in OF_TWO:
        return Walk.two_operands
    if word >> 12 == 7:
        kind = word >> 9 & 7
        return Walk.extended if kind < 4 else OF_A_REGISTER.get(kind)
    return next((way for mask, bits, way in OTHERS if word & mask == bits), None)


def walked(walk: Walk) -> list[OperandValue]:
    """The operands, as far as the instruction finds them. The last may have a remark instead of an
    address."""
    way = way_of(walk.word)
    if way is None:
        return []
    try:
        way(walk)
    except Fault as fault:
        if not walk.found or walk.found[-1].remark != str(fault):
            walk.take(OperandValue(walk.texts[0], remark=str(fault)))
    return walk.found


def texts_of(instruction: str) -> list[str]:
    """The operands in the text of an instruction, or what stands for those of one without a text of
    its own."""
    if instruction.startswith(".WORD") or instruction.endswith(NOT_WHOLE):
        return ["first operand", "second operand"]
    return instruction.partition(" ")[2].split(",")


def is_refused(memory: Memory, found: Sequence[OperandValue]) -> bool:
    """Whether a page let the instruction read its operands, but not write one."""
    if not found or found[-1].remark or all(it.place is None for it in found if it.is_written):
        return False
    turn = range(memory.turn, memory.turn + 1)
    return memory.machine.found("first", turn, f"trap {ABORT:o}") is not None


def with_after(
    memory: Memory, found: Sequence[OperandValue], after: Registers
) -> Iterator[OperandValue]:
    """The operands with what is there after the turn, if the instruction writes them."""
    is_left = is_refused(memory, found)
    for it in found:
        if not it.is_written or it.remark:
            yield it
        elif it.register:
            yield replace(it, after=after.words[it.register])
        elif is_left:
            yield replace(it, remark=f"{it.number(it.value)}, {NOT_WRITTEN}")
        else:
            word = memory.machine.word(memory.turn + 1, (it.place or 0) & ~1)
            yield replace(it, after=it.of_word(word))


def operands_of(
    machine: Machine, turn: int, before: Registers, word: int, text: str
) -> list[OperandValue]:
    """The operands of the instruction of a turn, which has these registers before it, this word and
    this text."""
    devices = machine.read_all([f"devices {turn}", f"devices {turn + 1}"])
    memory = Memory(machine, turn, places_read_to(*map(Devices.of, devices)))
    registers = {**before.words, "PC": (before.pc + 2) % VIRTUAL}
    modes = before.mode, Mode.previous(before.ps)
    walk = Walk(memory, word, registers, *modes, texts_of(text))
    return list(with_after(memory, walked(walk), machine.registers(turn + 1)))
