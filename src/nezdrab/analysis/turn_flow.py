"""The data of turns: what each turn writes, and what that is made of, by the table of `made_of` and
the order of docs/MACHINE.md, What happens in order."""
from typing import Iterable, Iterator, Optional, Sequence

from ..core.addressing import PC, SP
from ..core.engine import Machine
from ..core.hardware import OPERAND_TRAPS
from ..core.replies import INSTRUCTION
from .cells import ALL_CODES, C, KSP, MASK, N, NAMES, NOTHING, OF_THE_DISK, PS, REST, USP, Cells
from .cells import register_cells, word_cells
from .crew import with_bar
from .made_of import EXTENDED, KEPT, MOVED, XOR, MadeRow, made_of, plan_of
from .operands import POINT, STACK_LIMIT, WHOLE_PS, Access, BelowTheLimit, Flow, How, Operand
from .operands import Operands, Stopped, pointer_of
from .transfers import DiskMove
from .turn_cycles import KERNEL, RESERVED, TURNS_AT_ONCE, USER, Mappings, NotFollowed, Seen
from .turn_cycles import parts_of, trap_of

IDLE, TRACE, STACK = "idle", 0o14, 0o4
VECTORS = {"trace": TRACE, "stack": STACK}
BOTTOM, R5 = 0o4, 5
OLD_C: Cells = (C,)
OLD_N: Cells = (N,)
TRAPPING_WORDS = {0o3: 0o14, 0o4: 0o20}


def flows_with_bar(machine: Machine, turns: range) -> Iterator[Flow]:
    """The flows of these turns, with a bar."""
    return with_bar(Flows(machine, turns), len(turns), lambda it: it.turn + 1 - turns.start)


def groups_of(parts: Iterable[range]) -> Iterator[list[range]]:
    """The parts, none of which has too many turns, in lists of which each is asked at once."""
    group: list[range] = []
    for part in parts:
        for at in range(0, len(part), TURNS_AT_ONCE):
            its = part[at : at + TURNS_AT_ONCE]
            if group and sum(map(len, group)) + len(its) > TURNS_AT_ONCE:
                yield group
                group = []
            group.append(its)
    yield from [group] if group else []


class Flows(Operands):
    """Makes the flows of these turns, one after the other; or of several parts of turns, which
    ascend."""

    def __init__(self, machine: Machine, *parts: range, mappings: Optional[Mappings] = None):
        super().__init__(machine)
        self.parts, self.flowing, self.is_asked = parts, Flow(), False
        self.mappings = mappings or Mappings()

    def __iter__(self) -> Iterator[Flow]:
        for group in groups_of(self.parts):
            parts = parts_of(self.machine, self.mappings, group)
            self.space.prepare(parts)
            for part in parts:
                self.disk.prepare(part.turns, part.done, part.is_disk_ready)
                self.space.start(part)
                for seen in part.seen:
                    transfer = self.disk.moved.get(seen.act.turn)
                    self.space.begin(seen.act.turn, transfer)
                    yield self.flow(seen, transfer)

    def flow(self, seen: Seen, transfer: Optional[DiskMove]) -> Flow:
        """The turn is walked as if no operand trapped. Whether one did is asked only if the
        registers after it don't show that none did."""
        blocks = self.space.blocks
        try:
            self.is_asked = False
            self.walk(seen, transfer, None)
            if seen.act.act != INSTRUCTION:
                self.check()
                return self.flowing
            if self.is_untrapped(seen):
                return self.flowing
        except (Stopped, NotFollowed):
            pass
        self.is_asked = True
        self.space.remap(blocks)
        self.walk(seen, transfer, trap_of(self.machine, seen.act.turn))
        self.check()
        return self.flowing

    def walk(self, seen: Seen, transfer: Optional[DiskMove], vector: Optional[int]) -> None:
        self.registers, self.after = list(seen.before.words), seen.after
        self.pc, self.vector = seen.before.pc, vector
        self.mode, self.previous = seen.before.ps >> 14, seen.before.ps >> 12 & 3
        self.moves, self.cycles, self.turn = [], [], seen.act.turn
        self.instant = self.unknown = 0
        self.flowing = Flow(self.turn, seen.act, self.mode, transfer, self.moves, self.cycles)
        if seen.act.act == INSTRUCTION:
            self.instruction()
        elif seen.act.act != IDLE:
            vector = seen.act.vector
            self.sequence(VECTORS[seen.act.act] if vector is None else vector)

    def is_untrapped(self, seen: Seen) -> bool:
        """Whether the registers show that no operand trapped. A trap pushes two words, and what the
        instruction has left to do can't shrink a pointer as much; the red sequence leaves KSP at
        its two words, or below them. If the pointers don't tell, PC may: a trap loads it from a
        vector, unless it halts."""
        if self.unexplained() is not None:
            return False
        is_low = seen.after.words[KSP] <= BOTTOM
        if not is_low and not self.unknown & (1 << KSP | 1 << USP):
            return True
        if self.space.is_remapped or is_low and seen.after.is_halted:
            return False
        return seen.after.pc not in self.trap_routines()

    def trap_routines(self) -> Iterator[int]:
        """Where traps of operands lead."""
        for vector in OPERAND_TRAPS:
            place = self.space.place(KERNEL, vector)
            yield from [] if place is None else [self.space.word(place)]

    def unexplained(self) -> Optional[int]:
        """The first register that isn't what these rules make of it, as far as no value was
        written."""
        after = self.after.words
        if tuple(self.registers) == after:
            return None
        differing = (at for at, word in enumerate(self.registers) if word != after[at])
        return next((it for it in differing if not self.unknown >> it & 1), None)

    def check(self) -> None:
        number = self.unexplained()
        if number is not None:
            name = NAMES[number]
            raise NotFollowed(f"turn {self.flowing.turn}: the rules don't explain {name}")

    def instruction(self) -> None:
        try:
            self.flowing.place = self.reach(self.mode, self.pc)
            word = self.flowing.word = self.space.word(self.flowing.place)
            self.pc = self.pc + 2 & MASK
            if self.vector == RESERVED:
                raise Stopped
            self.carry_out(word)
        except Stopped as stopped:
            if self.vector is None and not self.is_asked:
                raise
            self.stop(stopped)

    def stop(self, stopped: Stopped) -> None:
        """What follows a reference that can't be made."""
        if isinstance(stopped, BelowTheLimit):
            self.flowing.vector, self.vector = self.vector, None
            self.red()
        elif self.vector is None:
            raise NotFollowed(f"turn {self.flowing.turn}: the rules don't explain it")
        else:
            self.sequence(self.vector)

    # Sequences

    def sequence(self, vector: int) -> None:
        self.flowing.vector, self.vector = vector, None
        if self.vector_word(vector) is None:
            self.red()
            return
        place = self.vector_word(vector + 2)
        if place is None:
            self.red()
            return
        mode = self.space.word(place) >> 14
        if self.goes_red(mode):
            self.failing_pushes(mode)
            self.red()
            return
        self.save(mode, place)

    def save(self, mode: int, place: int) -> None:
        """Pushes the old PS and PC, and loads the new PS, which was read before that: if a push is
        onto it, at the instant of the push."""
        is_over = False
        for values in (WHOLE_PS, (POINT, POINT)):
            self.push(values, mode, How.SAVED)
            if self.cycles[-1].place == place:
                self.load_ps(place)
                is_over = True
        if not is_over:
            self.instant += 1
            self.load_ps(place)

    def vector_word(self, address: int) -> Optional[int]:
        """The place of a word of a vector, which is read, or None if it can't be."""
        place = self.space.place(KERNEL, address)
        if place is None:
            return None
        if not self.space.answers(KERNEL, address, place):
            self.cycle(Access.READ_TIMEOUT, place)
            return None
        self.cycle(Access.READ, place)
        return place

    def goes_red(self, mode: int) -> bool:
        """Whether the sequence to this mode became the red one, which may halt: by the pointers
        after it; if KSP is 0 both before and after it, by the stamp of what that one has saved."""
        if self.after.is_halted:
            return True
        pointers = list(self.registers)
        pointers[pointer_of(mode)] = pointers[pointer_of(mode)] - 4 & MASK
        if pointers[KSP:] != list(self.after.words[KSP:]):
            return True
        return self.after.words[KSP] == 0 and self.is_stamped(self.space.place(KERNEL, 2))

    def failing_pushes(self, mode: int) -> None:
        """What the sequence pushed before it became the red one: the old PS, or nothing. KSP is
        lost then. If PS was pushed onto itself, it is as it was."""
        pointer = pointer_of(mode)
        first = self.registers[pointer] - 2 & MASK
        has_second = mode != KERNEL and self.after.words[pointer] == first - 2 & MASK
        for address in (first, first - 2 & MASK):
            is_below = mode == KERNEL and address < STACK_LIMIT
            if mode != KERNEL:
                self.step_number(pointer, -2)
            place = None if address & 1 or is_below else self.space.place(mode, address)
            if place is None:
                return
            if not self.space.answers(mode, address, place):
                self.cycle(Access.WRITE_TIMEOUT, place)
                return
            if address != first or not (has_second or self.is_stamped(place)):
                return
            self.cycle(Access.WRITE, place)
            if place != PS:
                self.store(place, False, WHOLE_PS, NOTHING, How.SAVED)

    def is_stamped(self, place: Optional[int]) -> bool:
        """Whether the processor wrote this word of core in the turn."""
        if place is None or place & 1 or place >= self.space.top:
            return False
        last = self.machine.last(self.flowing.turn + 1, place)
        return last is not None and last.turn == self.flowing.turn and last.writer == "cpu"

    def load_ps(self, place: int) -> None:
        low, high = word_cells(place)
        for cell in ALL_CODES:
            self.move(cell, (low,), NOTHING, How.COPY)
        self.move(REST, (low, high, REST), NOTHING, How.COPY)

    def red(self) -> None:
        """The red sequence, also one that can't go on."""
        self.instant += 1
        self.registers = [*self.registers[:KSP], *self.after.words[KSP:]]
        for cell in register_cells(KSP):
            self.move(cell, NOTHING)
        if self.vector_word(BOTTOM) is None:
            return
        place = self.vector_word(BOTTOM + 2)
        if place is not None and self.saves_below() and self.after.words[KSP] == 0:
            self.instant += 1
            self.load_ps(place)

    def saves_below(self) -> bool:
        """What the red sequence saves; tells whether both words of it were written."""
        for address, values in ((2, WHOLE_PS), (0, (POINT, POINT))):
            place = self.space.place(KERNEL, address)
            if place is None:
                return False
            if not self.space.answers(KERNEL, address, place):
                self.cycle(Access.WRITE_TIMEOUT, place)
                return False
            if place < self.space.top and not self.is_stamped(place):
                return False
            self.cycle(Access.WRITE, place)
            self.store(place, False, values, NOTHING, How.SAVED)
        return True

    # Instructions

    def carry_out(self, word: int) -> None:
        plan = plan_of(word)
        if plan is not None:
            if word >> 12 & 7:
                self.two_operands(plan.row, word >> 6 & 0o77, word & 0o77, plan.is_byte)
            else:
                self.one_operand(plan.row, word & 0o77, plan.is_byte)
        elif word >> 12 == 0o7:
            self.extended(word >> 9 & 7, word >> 6 & 7, word & 0o77)
        else:
            self.control(word)

    def two_operands(self, row: MadeRow, source: int, destination: int, is_byte: bool) -> None:
        is_late = source < 8 <= destination
        at = self.find(source, is_byte)
        if is_late:
            to = self.find(destination, is_byte)
            values = self.read(at, is_byte)
        else:
            values = self.read(at, is_byte)
            to = self.find(destination, is_byte)
        old = (NOTHING, NOTHING) if row.is_copy else self.read(to, is_byte)
        self.finish(row, (*values, *old), to, is_byte, at.cells)

    def one_operand(self, row: MadeRow, destination: int, is_byte: bool) -> None:
        to = self.find(destination, is_byte)
        is_read = "d" in row.z + row.high
        old = self.read(to, is_byte) if is_read else (NOTHING, NOTHING)
        self.finish(row, (NOTHING, NOTHING, *old), to, is_byte, NOTHING)

    def finish(
        self, row: MadeRow, values: Sequence[Cells], to: Operand, is_byte: bool, addresses: Cells
    ) -> None:
        """The value is written, and the codes are stored: both of what was before."""
        inputs = (*values, NOTHING, OLD_C, OLD_N)
        if not row.is_stored:
            self.instant += 1
            self.codes(row, inputs, addresses + to.cells)
            return
        low = made_of(row.low, inputs)
        is_extended = is_byte and row.is_copy and to.register is not None
        high = low if is_extended else NOTHING if is_byte else made_of(row.high, inputs)
        how = How.COPY if row.is_copy else How.VALUE
        if self.write(to, is_byte and not is_extended, (low, high), addresses, how):
            self.codes(row, inputs, addresses + to.cells)

    def codes(self, row: MadeRow, inputs: Sequence[Cells], addresses: Cells) -> None:
        for cell, part in zip(ALL_CODES, row.codes):
            if part != KEPT:
                self.move(cell, made_of(part, inputs), addresses if part else NOTHING, How.CODE)

    def extended(self, kind: int, register: int, operand: int) -> None:
        if kind == 4:
            self.exclusive_or(register, operand)
        elif kind == 7:
            if register != PC:
                self.step(register, -1)
        elif kind not in EXTENDED:
            raise Stopped
        else:
            name, row = EXTENDED[kind]
            pair = (register,) if name == "ASH" else tuple({register, register | 1})
            self.change_registers(row, register, tuple(sorted(pair)), operand)

    def change_registers(self, row: MadeRow, register: int, pair: Cells, operand: int) -> None:
        at = self.find(operand, False)
        values = self.read(at, False)
        read = (register,) if row is EXTENDED[0][1] else pair
        old = tuple(cell for it in read for cell in (self.cells_of(it) or POINT))
        inputs = (*values, NOTHING, NOTHING, old, NOTHING, NOTHING)
        self.instant += 1
        made = made_of(row.low, inputs)
        for it in pair:
            if it != PC:
                self.set_register(self.number(it), made, made, at.cells, How.VALUE)
        self.codes(row, inputs, at.cells)

    def exclusive_or(self, register: int, operand: int) -> None:
        self.two_operands(XOR, register, operand, False)

    def control(self, word: int) -> None:
        destination = word & 0o77
        if word & 0o177000 == 0o004000:
            self.jsr(word >> 6 & 7, destination)
        elif word & 0o177700 == 0o000100:
            self.find_jump(destination)
        elif word & 0o177770 == 0o000200:
            self.rts(word & 7)
        elif 0o240 <= word < 0o300:
            self.instant += 1
            for bit, cell in zip((8, 4, 2, 1), ALL_CODES):
                if word & bit:
                    self.move(cell, NOTHING, NOTHING, How.CODE)
        elif word & 0o177700 == 0o006400:
            self.mark(word & 0o77)
        elif word & 0o177700 == 0o006500:
            self.mfpi(destination)
        elif word & 0o177700 == 0o006600:
            self.mtpi(destination)
        elif word in (0o2, 0o6):
            self.rti()
        elif word == 0o5 and self.mode != USER:
            self.reset()
        elif word in TRAPPING_WORDS or 0o104000 <= word < 0o105000:
            self.vector = TRAPPING_WORDS.get(word, 0o30 if word < 0o104400 else 0o34)
            raise Stopped

    def find_jump(self, destination: int) -> None:
        if destination < 8:
            raise Stopped
        self.find(destination, False)

    def jsr(self, register: int, destination: int) -> None:
        self.find_jump(destination)
        if register == PC:
            self.push((POINT, POINT), self.mode, How.SAVED)
            return
        low, high = register_cells(self.number(register))
        if not self.push(((low,), (high,)), self.mode):
            self.mode = self.after.ps >> 14  # which the push has changed
        self.instant += 1
        self.set_register(self.number(register), POINT, POINT, NOTHING, How.SAVED)

    def rts(self, register: int) -> None:
        values, addresses = self.pop()
        self.write(Operand(register, 0, NOTHING), False, values, addresses, How.COPY)

    def mark(self, count: int) -> None:
        number = pointer_of(self.mode)
        self.instant += 1
        self.set_register(number, POINT, POINT, NOTHING, How.VALUE)
        self.registers[number] = self.pc + 2 * count & MASK
        self.rts(R5)

    def rti(self) -> None:
        self.pop()
        (low, high), addresses = self.pop()
        self.instant += 1
        for cell in ALL_CODES:
            self.move(cell, low, addresses, How.COPY)
        kept = (REST,) if self.mode == USER else NOTHING
        self.move(REST, (*low, *high, *kept), addresses, How.COPY)

    def reset(self) -> None:
        self.space.reset()
        self.instant += 1
        for register in OF_THE_DISK:
            for cell in word_cells(register):
                self.move(cell, NOTHING)

    def mfpi(self, operand: int) -> None:
        at = Operand(None, 0, NOTHING)
        if operand == SP:
            low, high = register_cells(pointer_of(self.previous))
            values: tuple[Cells, Cells] = ((low,), (high,))
        else:
            at = self.find(operand, False)
            values = self.read(at, False, self.previous)
        if self.push(values, self.mode, How.COPY, at.cells, is_from_before=True):
            self.codes(MOVED, self.moved(values), at.cells)

    def mtpi(self, operand: int) -> None:
        values, addresses = self.pop()
        if operand == SP:
            self.instant += 1
            number = pointer_of(self.previous)
            self.set_register(number, *values, addresses, How.COPY)
            self.codes(MOVED, self.moved(values), addresses)
            return
        to = self.find(operand, False)
        if self.write(to, False, values, addresses, How.COPY, self.previous):
            self.codes(MOVED, self.moved(values), addresses + to.cells)

    def moved(self, values: tuple[Cells, Cells]) -> Sequence[Cells]:
        return (*values, *[NOTHING] * 5)
