"""How often the instructions of a range of turns ran, by the line `counts`."""
from typing import Iterable, Iterator

from ..core.engine import MOST_WORDS, Machine
from ..core.replies import Mode
from ..core.values import dataclass
from .finder import Finder, parts_of
from .listing import VIRTUAL

AREA_BYTES = 2 * MOST_WORDS  # of a stretch of addresses that one question counts
MODES = (Mode.KERNEL, Mode.USER)  # those that have pages
FEW_AREAS = 2  # that are counted in the time of one search


@dataclass(frozen=True)
class Place:
    """Where an instruction is: a mode, and a virtual address."""

    mode: Mode
    address: int


def windows_of(addresses: Iterable[int]) -> Iterator[range]:
    """Stretches of words that have all these even addresses, each for one question."""
    window = range(0)
    for address in sorted(addresses):
        if not window or address - window.start >= AREA_BYTES:
            yield from [window] if window else []
            window = range(address, address + 2, 2)
        else:
            window = range(window.start, address + 2, 2)
    yield from [window] if window else []


def counts_in(machine: Machine, turns: range, mode: Mode, window: range) -> list[int]:
    """For each of these addresses, how many of the turns are an instruction there."""
    asked = f"{mode.value} {window.start:o} {len(window)}"
    replies = [
        [int(it) for it in machine.read(f"counts {part.start} {part.stop} {asked}").split()[1:]]
        for part in parts_of(turns)
    ]
    return [sum(of_parts) for of_parts in zip(*replies)]


def counts_at(
    machine: Machine, turns: range, mode: Mode, addresses: Iterable[int]
) -> dict[Place, int]:
    """How many of the turns are an instruction of this mode at each of these even addresses, and at
    others near them."""
    return {
        Place(mode, address): count
        for window in windows_of(addresses)
        for address, count in zip(window, counts_in(machine, turns, mode, window))
    }


def is_in(mode: Mode, area: range) -> str:
    """That PC is in a stretch of addresses in this mode, in the words of the line `first`."""
    above = [f"PC > {area.start - 1:o}"] if area.start else []
    below = [f"PC < {area.stop:o}"] if area.stop < VIRTUAL else []
    return " and ".join([f"where {mode.value}", *above, *below])


@dataclass(frozen=True)
class Area:
    """Addresses of a mode that one question counts, and a turn before which the program may have
    had its pages there."""

    mode: Mode
    addresses: range
    turn: int

    def counts(self, machine: Machine, turns: range) -> dict[Place, int]:
        """How often the instructions of the area ran, of those that did."""
        found = zip(self.addresses, counts_in(machine, turns, self.mode, self.addresses))
        return {Place(self.mode, address): count for address, count in found if count}


def areas_with_turns(machine: Machine, turns: range, mode: Mode) -> Iterator[Area]:
    """Areas that together have each address at which PC was in this mode before one of these
    turns. What no turn before `found` was in isn't looked for in these turns again."""
    left = [(range(0, VIRTUAL, AREA_BYTES), turns)]
    finder = Finder(machine)
    while left:
        begins, looked_at = left.pop()
        if len(begins) <= FEW_AREAS:
            yield from (Area(mode, range(it, it + AREA_BYTES, 2), turns.stop) for it in begins)
            continue
        found = finder.first(looked_at, is_in(mode, begins))
        if found is not None:
            begin = machine.registers(found).pc // AREA_BYTES * AREA_BYTES
            yield Area(mode, range(begin, begin + AREA_BYTES, 2), found)
            rest = range(found, turns.stop)
            left.append((range(begins.start, begin, AREA_BYTES), rest))
            left.append((range(begin + AREA_BYTES, begins.stop, AREA_BYTES), rest))
