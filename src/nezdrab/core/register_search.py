"""Which turns have a cycle of the processor at a register of the I/O page. The line `accesses` has
each cycle, and takes long. So it is asked only of turns that may have one there: those whose
instruction, by its words and the registers before the turn, can come to the place. The rules are
those of docs/MACHINE.md, sections 3 to 6; a turn that they don't tell is asked too."""
import operator
from collections import defaultdict
from functools import cached_property, lru_cache
from itertools import takewhile
from typing import Callable, Iterable, Iterator, NamedTuple, Optional, Sequence, SupportsIndex
from typing import TypeVar

from .addressing import PC, SP, addressing_of
from .engine import MOST_TURNS_OF_A_TRAIL, SHORT_SENT_AHEAD, Machine
from .hardware import IO_PAGE, IO_PAGE_OF_PROGRAMS, NAMES_IN_THE_IO_PAGE
from .register_rows import GENERAL, KSP, PLACE, USP
from .replies import MODES, SPACES, CycleKind, LastWrite, Pages, TurnAccesses, WordRead

Item = TypeVar("Item")
MASK, BUS, PAGE_BYTES, BLOCK_BYTES = 0o177777, 0o777777, 0o20000, 0o100
FEWEST_TURNS, MOST_TURNS = 64, 4_096  # that are looked at together
# What a turn may push, pop or read at a pointer, beside its operands; and the vectors.
NEAR_POINTER, VECTORS = range(-0o20, 0o20, 2), range(0, 0o400, 2)
OF_MAPPING = frozenset(
    place for place, name in NAMES_IN_THE_IO_PAGE.items() if name[1:4] == "PAR" or name == "SR0"
)
RESET, SUBTRACT = 0o5, 0o16
READ, WRITTEN = (CycleKind.READ,), (CycleKind.WRITE, CycleKind.BYTE)


class Mapping(NamedTuple):
    """How virtual addresses are mapped: whether they are, and the address registers of each mode
    that has pages."""

    is_on: bool
    pages: tuple[tuple[int, ...], ...]

    @classmethod
    def of(cls, reply: str) -> "Mapping":
        found = Pages.of(reply)
        return cls(bool(found.sr0 & 1), tuple(found.addresses[it] for it in SPACES))

    def place(self, space: int, address: int) -> int:
        """The physical address, unless memory management aborts the reference."""
        if not self.is_on:
            return address + (IO_PAGE - IO_PAGE_OF_PROGRAMS) * (address >= IO_PAGE_OF_PROGRAMS)
        page, byte = divmod(address, PAGE_BYTES)
        return self.pages[space][page] * BLOCK_BYTES + byte & BUS

    def addresses(self, space: int, places: Iterable[int]) -> dict[int, int]:
        """These places of words by the virtual addresses that may come to them."""
        if not self.is_on:
            return {place & MASK: place for place in places}
        begins = enumerate(it * BLOCK_BYTES for it in self.pages[space])
        return {
            page * PAGE_BYTES + (place - begin & BUS): place
            for page, begin in begins
            for place in places
            if place - begin & BUS < PAGE_BYTES
        }


class Reference(NamedTuple):
    """Where an operand is, or the pointer to it: at a number, or at a register and a number."""

    register: Optional[int]
    number: int
    is_pointer: bool


def specifiers(word: int) -> list[int]:
    """Those of the operands that an instruction with this word may have in memory."""
    kind = word >> 12 & 7
    if kind in range(1, 7):
        return [word >> 6 & 0o77, word & 0o77]
    if kind == 7:
        return [word & 0o77] if word < 0o75000 else []
    has_one = word & 0o77700 in (0o100, 0o300) or word & 0o77000 in (0o5000, 0o6000)
    return [word & 0o77] if has_one or word & 0o177000 == 0o4000 else []


def is_of_other_space(word: int) -> bool:
    """Whether it is MFPI or MTPI, whose operand is in the space of the previous mode."""
    return word & 0o177700 in (0o6500, 0o6600)


@lru_cache(maxsize=65_536)
def references(pc: int, words: tuple[int, ...]) -> Optional[list[Reference]]:
    """What the instruction with these words at PC refers to, beside itself and the stack. None if
    these rules don't tell it."""
    word, further = words[0], iter(words[1:])
    if word == RESET or word & 0o177700 == 0o6400:  # RESET, MARK
        return None
    is_byte = bool(word & 0o100000) and word >> 12 != SUBTRACT
    moved, at, found = [0] * 7, pc + 2, list[Reference]()
    for specifier in specifiers(word):
        way = addressing_of(specifier, is_byte)
        if way is None:
            continue
        is_of_pc = way.register == PC
        if is_of_pc and way.shrinks or is_of_other_space(word) and way.register == SP:
            return None
        has_word = way.has_index or is_of_pc and bool(way.grows)
        index = next(further, None) if has_word else 0
        if index is None:
            return None
        at += 2 * has_word
        if is_of_pc:
            absolute = way.is_deferred and not way.has_index
            number = index if absolute else index + at if way.has_index else at
            found.append(Reference(None, number & MASK, way.is_deferred and way.has_index))
        else:
            moved[way.register] -= way.shrinks
            found.append(Reference(way.register, moved[way.register] + index, way.is_deferred))
            moved[way.register] += way.grows
    return found


class Site(NamedTuple):
    """Where an instruction is: PC, the mode among those that have pages, None in another one, and
    the places of the words that it may have."""

    pc: int
    space: Optional[int]
    places: list[int]

    @classmethod
    def of(cls, place: bytes, mapping: Mapping) -> "Site":
        """The site of a PLACE of a row."""
        pc, mode = int(place[:6], 8), MODES[int(place[-2:], 8) >> 2]
        space = [*SPACES].index(mode) if mode in SPACES else None
        return cls(pc, space, [mapping.place(space or 0, pc + by & MASK) for by in (0, 2, 4)])


# The virtual addresses of a space that are looked at, each with whether it is sought: others are
# those of mapping.
Addresses = dict[int, bool]


class Part:
    """Turns that follow one another, and those of them that may have a cycle at one of the places:
    `suspects`, each with whether the place may be a sought one."""

    def __init__(self, machine: Machine, turns: range, places: frozenset[int]):
        self.machine, self.turns, self.places = machine, turns, places
        self.top = machine.setup.core_end
        self.rows = list(machine.of_each_turn("regs", turns))
        self.words: dict[int, Optional[int]] = {}  # by their places
        self.mappings: dict[int, Mapping] = {}  # before turns
        self.suspects: dict[int, bool] = {}
        self.pointers: list[tuple[int, int, Addresses]] = []  # turns, and places of pointers

    def ask_mappings(self, turns: Sequence[int]) -> None:
        """The mapping before these turns."""
        asked = [it for it in turns if it not in self.mappings]
        replies = self.machine.read_all([f"pages {it}" for it in asked], SHORT_SENT_AHEAD)
        self.mappings.update(zip(asked, map(Mapping.of, replies)))

    @cached_property
    def done(self) -> set[int]:
        """The turns in which functions of the disk are done."""
        found, left = set[int](), self.turns
        while left:
            lines, left = self.machine.transfers(left)
            found |= {int(it.split()[0]) for it in lines}
        return found

    def look_at(self, turns: range, mapping: Mapping) -> list[tuple[int, bool]]:
        """The suspects among these turns, in their order, if mapping stays as it is."""
        self.suspects, self.pointers, self.mapping = {}, [], mapping
        reached = (mapping.addresses(it, OF_MAPPING | self.places) for it in range(len(SPACES)))
        self.sought = [{it: of[it] in self.places for it in of} for of in reached]
        sites: dict[bytes, list[int]] = defaultdict(list)
        for turn in turns:
            sites[self.row(turn)[PLACE]].append(turn)
        found = [(Site.of(it, mapping), at) for it, at in sites.items()]
        self.ask_words({place for site, _ in found for place in site.places})
        for site, at in found:
            self.look_at_site(site, at)
        self.look_at_stacks(turns)
        self.look_at_pointers()
        return sorted(self.suspects.items())

    def row(self, turn: int) -> bytes:
        return self.rows[turn - self.turns.start]

    def suspect(self, turns: Iterable[int], is_sought: bool = True) -> None:
        for turn in turns:
            self.suspects[turn] = is_sought or self.suspects.get(turn, False)

    def look_at_stacks(self, turns: range) -> None:
        """What may be pushed and popped, and the vectors."""
        if not self.sought[0].keys().isdisjoint(VECTORS):
            self.suspect(turns)
        for space, part in enumerate((KSP, USP)):
            near = {it - by & MASK for it in self.sought[space] for by in NEAR_POINTER}
            values = {it for it in {self.row(at)[part] for at in turns} if int(it, 8) & ~1 in near}
            self.suspect(at for at in turns if self.row(at)[part] in values)

    def ask_words(self, places: Iterable[int]) -> None:
        """The words of core at these places, if nothing writes them in all turns of the part."""
        asked, end = sorted(it for it in places if it not in self.words), self.turns.stop
        self.words.update(dict.fromkeys(asked))
        asked = [it for it in asked if it < self.top and it % 2 == 0]
        lines = [f"last {end} {it:o}" for it in asked]
        lasts = map(LastWrite.of, self.machine.read_all(lines, SHORT_SENT_AHEAD))
        kept = [it for it, last in zip(asked, lasts) if not last or last.turn < self.turns.start]
        words = self.machine.single_words([f"mem {end} {it:o} 1" for it in kept])
        self.words.update(zip(kept, words))

    def look_at_site(self, site: Site, turns: Sequence[int]) -> None:
        words = takewhile(lambda it: it is not None, map(self.words.get, site.places))
        known = tuple(it for it in words if it is not None)
        found = references(site.pc, known) if known else None
        if found is None or site.space is None:
            self.suspect(turns)
            return
        own = self.sought[site.space]
        if not own.keys().isdisjoint(site.pc + by & MASK for by in (0, 2, 4)):
            self.suspect(turns)
        for it in found:
            is_of_other = is_of_other_space(known[0])
            target = {**self.sought[0], **self.sought[1]} if is_of_other else own
            self.look_at_operand(it, site.space, target, turns)

    def look_at_operand(
        self, it: Reference, space: int, target: Addresses, turns: Sequence[int]
    ) -> None:
        part = (*GENERAL, USP if space else KSP)[it.register] if it.register is not None else None
        reached = self.sought[space] if it.is_pointer else target
        for turn in turns:
            base = 0 if part is None else int(self.row(turn)[part], 8)
            address = base + it.number & MASK & ~1
            if address in reached:
                self.suspect([turn], it.is_pointer or reached[address])
            elif it.is_pointer:
                self.pointers.append((turn, self.mapping.place(space, address), target))

    def look_at_pointers(self) -> None:
        """A transfer that ends in a turn may change a pointer before the turn reads it."""
        self.ask_words({place for _, place, _ in self.pointers})
        asked = list[tuple[int, int, Addresses]]()
        for turn, place, target in self.pointers:
            word = self.words[place]
            if place >= self.top or turn in self.done:
                self.suspect([turn])
            elif word is None:
                asked.append((turn, place, target))
            else:
                self.look_at_pointer(turn, word, target)
        asked.sort(key=lambda it: it[:2])
        lines = [f"mem {turn} {place:o} 1" for turn, place, _ in asked]
        for (turn, _, target), word in zip(asked, self.machine.single_words(lines)):
            self.look_at_pointer(turn, word, target)

    def look_at_pointer(self, turn: int, word: int, target: Addresses) -> None:
        if word & ~1 in target:
            self.suspect([turn], target[word & ~1])


class RegisterSearch:
    """Turns of these, in their order, among which are all that have a cycle at one of the places:
    some at a time, and the turn before which they are all there. After a write of mapping the turns
    are looked at anew."""

    def __init__(self, machine: Machine, turns: range, places: Iterable[int]):
        self.machine, self.turns, self.places = machine, turns, frozenset(places)
        self.at, self.size = turns.start, 0
        self.mapping = Mapping.of(machine.read(f"pages {turns.start}"))

    def __iter__(self) -> Iterator[tuple[list[TurnAccesses], int]]:
        while self.at < self.turns.stop:
            turns = self.turns[self.at - self.turns.start :][:MOST_TURNS]
            part, self.size = Part(self.machine, turns, self.places), MOST_TURNS
            while self.at < turns.stop:
                yield from self.found_in(part, turns[self.at - turns.start :][: self.size])

    def found_in(self, part: Part, turns: range) -> Iterator[tuple[list[TurnAccesses], int]]:
        """The same of these turns of a part, up to a write of mapping."""
        self.size *= 2
        suspects = part.look_at(turns, self.mapping)
        part.ask_mappings([turn + 1 for turn, is_sought in suspects if not is_sought])
        for turn, is_sought in suspects:
            if turn < self.at:
                continue
            found, self.at = self.asked(turn) if is_sought else ([], turn + 1)
            yield found, self.at
            part.ask_mappings([self.at])
            if part.mappings[self.at] != self.mapping:
                self.mapping, self.size = part.mappings[self.at], FEWEST_TURNS
                return
        self.at = max(self.at, turns.stop)
        yield [], self.at

    def asked(self, turn: int) -> tuple[list[TurnAccesses], int]:
        """The first turns from this one on, and the one behind them."""
        turns = self.turns[turn - self.turns.start :][:MOST_TURNS_OF_A_TRAIL]
        found, left = self.machine.accesses(turns)
        return found, left.start


def found_at(
    machine: Machine, turns: range, place: int, kinds: Sequence[CycleKind], at: int
) -> Iterator[tuple[list[tuple[int, int]], int]]:
    """The turns that have cycles of these kinds at a register, each with the value of one of them,
    the first if `at` is 0: some at a time, and the turn before which they are all there."""
    for looked_at, end in RegisterSearch(machine, turns, [place]):
        values = [(it.turn.turn, values_at(it, place, kinds)) for it in looked_at]
        yield [(turn, of[at]) for turn, of in values if of], end


def values_at(turn: TurnAccesses, place: int, kinds: Sequence[CycleKind]) -> list[int]:
    """What the cycles of these kinds at a register have read or written, in a turn."""
    found = (it for it in turn.cycles if it.kind in kinds and it.address & ~1 == place)
    return [it.value for it in found if it.value is not None]


def reads_at(
    machine: Machine, turns: range, place: int
) -> Iterator[tuple[list[WordRead], int]]:
    """The turns that read a register, as `found_at` gives them."""
    for found, end in found_at(machine, turns, place, READ, 0):
        yield [WordRead(turn, "cpu", value) for turn, value in found], end


def writes_at(
    machine: Machine, turns: range, place: int
) -> Iterator[tuple[list[LastWrite], int]]:
    """The turns that write a register, as `found_at` gives them."""
    for found, end in found_at(machine, turns, place, WRITTEN, -1):
        yield [LastWrite(turn, "cpu", value) for turn, value in found], end


def items_at(
    search: Callable[[Machine, range, int], Iterator[tuple[list[Item], int]]],
    machine: Machine,
    since: SupportsIndex,
    until: SupportsIndex,
    place: int,
) -> Iterator[Item]:
    """What a search finds in these turns, one by one."""
    for found, _ in search(machine, range(operator.index(since), operator.index(until)), place):
        yield from found
