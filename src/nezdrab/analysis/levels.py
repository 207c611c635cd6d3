"""The calls that a turn stands in: the words of a stack are asked which turn wrote them (`last`),
and each such turn whether it was a JSR, an interrupt or a trap that pushed them."""
import itertools
from typing import Iterator, Optional

from ..core.engine import SHORT_SENT_AHEAD, Machine
from ..core.replies import INSTRUCTION, INTERRUPT, LastWrite, Mode, Registers, Turn, turns_of
from ..core.replies import words_of
from ..core.values import dataclass, field
from .finder import growing_parts
from .listing import VIRTUAL
from .turn_cycles import trap_of

MOST_WORDS_OF_A_STACK, WORDS_AT_ONCE = 256, 64  # one group without a call ends the stack
MOST_CHANGES = 3  # of a word after the push, which are looked through for the call
CHECKED_TURNS = 1_000_000  # in which a line looks whether routines were left
MOST_TRIES, NEAR_BYTES = 64, 32
NOT_CHECKED, LOADED = "not checked", "SP was loaded since"
JSR, WITH_NUMBER, WITHOUT = 0o004, {0o210: "EMT", 0o211: "TRAP"}, {3: "BPT", 4: "IOT"}


def pointer(mode: Mode) -> str:
    """The name of R6 in this mode."""
    return "KSP" if mode == Mode.KERNEL else "USP"


@dataclass(frozen=True)
class Call:
    """A turn that pushed where its caller goes on: as its last word on the stack of the mode
    `inside`, at `slot`, which is this place of core."""

    turn: int
    mode: Mode
    pc: int
    kind: str
    routine: int
    inside: Mode
    slot: int
    place: int
    following: Optional[int]  # where a JSR PC goes on; a return to there may leave SP as it is

    @property
    def is_left(self) -> str:
        """What is so once the routine is left, in the words of a search."""
        return f"where {pointer(self.inside)} > {self.slot:o}"


@dataclass(frozen=True)
class Level:
    """A call that a turn stands in. `doubt` says why it is believed, if it isn't known."""

    call: Call
    doubt: str = ""


@dataclass(frozen=True)
class Done:
    """A turn, the word that it found at PC if that is in core, and the registers after it."""

    turn: Turn
    word: Optional[int]
    after: Registers

    @classmethod
    def of(cls, machine: Machine, number: int, before: Registers) -> "Done":
        """All is asked at once. A transfer that ends in the turn comes before it."""
        place = next(machine.places([(number, before.mode, before.pc)]))
        lines = [f"trail {number + 1} 1", f"regs {number + 1}"]
        if place is None or place % 2 or place >= machine.setup.core_end:
            trail, registers = machine.read_all(lines)
            return cls(turns_of(trail)[0], None, Registers.of(registers))
        lines = [f"mem {number} {place:o} 1", *lines, f"mem {number + 1} {place:o} 1"]
        first, trail, registers, second = machine.read_all(lines)
        word, other = words_of(first)[0], words_of(second)[0]
        if word != other:
            write = machine.last(number + 1, place)
            word = other if write is not None and write.writer == "disk" else word
        return cls(turns_of(trail)[0], word, Registers.of(registers))


def pushed(machine: Machine, turn: int, after: Registers) -> tuple[list[LastWrite], int]:
    """What this turn wrote at SP and behind it, one word or two, and the place of the first."""
    slot, top = after.words[pointer(after.mode)], machine.setup.core_end
    asked = [(turn + 1, after.mode, (slot + it) % VIRTUAL) for it in (0, 2)]
    places = list(machine.places(asked))
    in_core = [it for it in places if it is not None and not it % 2 and it < top]
    if in_core[:1] != places[:1]:
        return [], 0
    replies = machine.read_all([f"last {turn + 1} {it:o}" for it in in_core])
    writes = [LastWrite.of(it) for it in replies]
    of_turn = (it if it and (it.turn, it.writer) == (turn, "cpu") else None for it in writes)
    found = itertools.takewhile(lambda it: it is not None, of_turn)
    return [it for it in found if it is not None], in_core[0]


def trap_kind(machine: Machine, turn: Turn, word: Optional[int]) -> str:
    """What took this turn through a vector."""
    if turn.act == INTERRUPT:
        return turn.interrupt()
    if turn.act != INSTRUCTION:
        return f"{turn.act} trap"
    if word is not None and word >> 8 in WITH_NUMBER:
        return f"{WITH_NUMBER[word >> 8]} {word & 0o377:o}"
    if word in WITHOUT:
        return WITHOUT[word]
    return f"trap {trap_of(machine, turn.turn) or 0:03o}"


def call_in(machine: Machine, number: int) -> Optional[Call]:
    """The call that this turn is, if it is one. No instruction but one that traps writes two words
    by itself; of others JSR alone pushes where to go on."""
    before = machine.registers(number)
    done = Done.of(machine, number, before)
    turn, word, after = done.turn, done.word, done.after
    words, place = pushed(machine, number, after)
    following = None
    if len(words) == 2:
        kind = trap_kind(machine, turn, word)
    elif words and turn.act == INSTRUCTION and word is not None and word >> 9 == JSR:
        kind = "JSR"
        following = words[0].word if word >> 6 & 7 == 7 else None
    else:
        return None
    slot = after.words[pointer(after.mode)]
    of_caller = (before.mode, turn.pc, kind)
    return Call(number, *of_caller, after.pc, after.mode, slot, place, following)


def is_load(word: Optional[int]) -> bool:
    """Whether this is the word of MOV to SP or MTPI to SP."""
    return word is not None and (word & 0o170077 == 0o010006 or word == 0o006606)


def loads_pointer(machine: Machine, turn: int) -> bool:
    """Whether the turn is MOV to SP or MTPI to SP, as when stacks are switched."""
    word = Done.of(machine, turn, machine.registers(turn)).word
    return is_load(word) and call_in(machine, turn) is None


@dataclass
class Stacks:
    """Finds the calls on the stacks of a machine. `left` is how many turns it may still look
    through whether a routine was left, or None for all."""

    machine: Machine
    left: Optional[int] = CHECKED_TURNS
    known: dict[int, Optional[Call]] = field(default_factory=dict)
    pointers: dict[tuple[int, Mode], int] = field(default_factory=dict)
    is_cut: bool = False

    def call(self, turn: int) -> Optional[Call]:
        if turn not in self.known:
            self.known[turn] = call_in(self.machine, turn)
        return self.known[turn]

    def levels(self, turn: int) -> Iterator[Level]:
        """The calls before the turn, the innermost first. From a call out of another mode the stack
        of that mode goes on, as it was before the call."""
        end: Optional[int] = turn
        while end is not None:
            registers = self.machine.registers(end)
            mode, start, end = registers.mode, end, None
            for level in self._of_one_stack(start, mode, registers.words[pointer(mode)]):
                yield level
                if level.call.mode != mode:
                    end = level.call.turn
                    break

    def _of_one_stack(self, end: int, mode: Mode, start: int) -> Iterator[Level]:
        """The calls before turn `end` whose words are on this stack, the innermost first: each is
        older than the one before it, and hasn't been left."""
        newest = end
        stop = min(start + 2 * MOST_WORDS_OF_A_STACK, VIRTUAL)
        for group in range(start, stop, 2 * WORDS_AT_ONCE):
            slots = range(group, min(group + 2 * WORDS_AT_ONCE, stop), 2)
            calls = self._pushed_at(end, mode, slots)
            for call in calls:
                doubt = self._doubt(call, newest) if call.turn < newest else None
                if doubt is not None:
                    yield Level(call, doubt)
                    newest = call.turn
            if not calls:
                return
        self.is_cut = True

    def _pushed_at(self, end: int, mode: Mode, slots: range) -> list[Call]:
        """The calls that wrote these words of the stack last, or before what changed them since.
        The turns are asked upwards: from call to call the machine would go back."""
        top = self.machine.setup.core_end
        places = self.machine.places([(end, mode, it) for it in slots])
        found: list[Call] = []
        open_words = {
            slot: (end, place)
            for slot, place in zip(slots, places)
            if place is not None and not place % 2 and place < top
        }
        for _ in range(1 + MOST_CHANGES):
            lines = [f"last {turn} {place:o}" for turn, place in open_words.values()]
            replies = map(LastWrite.of, self.machine.read_all(lines, SHORT_SENT_AHEAD))
            writes = {it: write for it, write in zip(open_words, replies) if write is not None}
            turns = {write.turn for write in writes.values()}
            of_turn = {it: (self.sp_before(it, mode), self.call(it)) for it in sorted(turns)}
            changed = {}
            for slot, write in writes.items():
                before, call = of_turn[write.turn]
                if call is not None and (call.inside, call.slot) == (mode, slot):
                    found.append(call)
                elif before <= slot:  # the word was on the stack already
                    changed[slot] = write.turn, open_words[slot][1]
            open_words = changed
        return sorted(found, key=lambda it: it.slot)

    def sp_before(self, turn: int, mode: Mode) -> int:
        if (turn, mode) not in self.pointers:
            words = self.machine.registers(turn).words
            self.pointers.update({(turn, it): words[pointer(it)] for it in Mode})
        return self.pointers[turn, mode]

    def _doubt(self, call: Call, newest: int) -> Optional[str]:
        """Why it is believed that the routine hasn't been left by the turn `newest`, or an empty
        text if that is known. None if it has been left."""
        turns = range(call.turn + 1, newest + 1)
        looked = turns if self.left is None else turns[: self.left]
        for part in growing_parts(looked):
            found = self.machine.found("first", part, call.is_left)
            if self.left is not None:
                self.left -= (part.stop if found is None else found) - part.start
            if found is not None:
                return LOADED if loads_pointer(self.machine, found - 1) else None
        return NOT_CHECKED if len(looked) < len(turns) else self._doubt_below(call, newest)

    def _doubt_below(self, call: Call, newest: int) -> str:
        """Whether SP came from the call's words down to where it is before the turn `newest` other
        than step by step, as when the stack is another one. Steps of a few words aren't looked
        at."""
        turn, sp = newest, self.sp_before(newest, call.inside)
        for _ in range(MOST_TRIES):
            if call.slot - sp <= NEAR_BYTES:
                return ""
            found = self._last_above(range(call.turn + 1, turn), pointer(call.inside), sp)
            if found is None:
                break
            if loads_pointer(self.machine, found):
                return LOADED
            turn, sp = found, self.sp_before(found, call.inside)
        return NOT_CHECKED

    def _last_above(self, turns: range, name: str, sp: int) -> Optional[int]:
        """The last of these turns before which SP is above this address, if it may be sought."""
        looked = turns if self.left is None else turns[max(0, len(turns) - self.left) :]
        for part in growing_parts(looked, is_backwards=True):
            found = self.machine.found("latest", part, f"where {name} > {sp:o}")
            if self.left is not None:
                self.left -= part.stop - (part.start if found is None else found)
            if found is not None:
                return found
        return None


@dataclass
class Return:
    """Looks for where the routine of a call has been left, in turns that are asked upwards. `away`
    is the turn before which SP was loaded with an address above, as when stacks are switched: if
    it is loaded again to come back, the routine goes on, and otherwise it was left by that."""

    machine: Machine
    call: Call
    away: Optional[int] = None

    def first(self, turns: range) -> Optional[int]:
        """The first turn before which the routine has been left: SP is above what the call pushed,
        or another call has taken its place, as JSR PC,@(SP)+ does."""
        for part in growing_parts(turns):
            while part:
                found = self.crossing(part)
                if found is None:
                    break
                if not self.is_switched(found):
                    return found if self.away is None else self.away
                self.away = found if self.away is None else None
                part = range(found, part.stop)
        return None

    def crossing(self, turns: range) -> Optional[int]:
        """The first of these turns before which SP is above the call's words, or isn't any more, if
        it was loaded so."""
        call = self.call
        if self.away is not None:
            below = f"where {pointer(call.inside)} < {call.slot + 1:o}"
            return self.machine.found("first", turns, below)
        found = self.machine.found("first", turns, call.is_left)
        before = turns if found is None else range(turns.start, found)
        resumed = resumed_in(self.machine, call, before)
        return found if resumed is None else resumed

    def is_switched(self, turn: int) -> bool:
        """Whether SP was loaded in the turn before, or the call's words are on a stack that is not
        mapped then."""
        asked = [(turn - 1, self.call.inside, self.call.slot)]
        is_there = next(self.machine.places(asked)) == self.call.place
        return not is_there or loads_pointer(self.machine, turn - 1)


def resumed_in(machine: Machine, call: Call, turns: range) -> Optional[int]:
    """The first of these turns that goes on where the call is to return, with SP as it was in the
    routine, once another call has pushed there."""
    if call.following is None:
        return None
    sought = f"where PC = {call.following:o} and {pointer(call.inside)} = {call.slot:o}"
    for _ in range(MOST_TRIES):
        found = machine.found("first", turns, sought)
        if found is None:
            return None
        write = machine.last(found, call.place)
        if write is not None and write.turn != call.turn:
            return found
        turns = range(found + 1, turns.stop)
    return None
