"""Labels of data, carried forwards over the turns: which cells are made of what has a label."""
from typing import Iterator, NamedTuple, Sequence

from ..core.engine import Machine
from ..core.values import dataclass, field
from .cells import OF_THE_DISK, SWITCHES, TKB, word_cells
from .operands import How, Move
from .transfers import DiskMove

RESULTS = (How.VALUE, How.COPY)
ADDRESS_OF_A_TRANSFER = [cell for it in OF_THE_DISK for cell in word_cells(it)]
CELLS_OF_EVENTS = {"key": (TKB,), "switches": word_cells(SWITCHES)}


class Carried(NamedTuple):
    """A move of a turn that has to do with labels: those of the cell before it, those of what it is
    made of, and those of its addresses."""

    move: Move
    before: int
    now: int
    chosen: int


class MovedCell(NamedTuple):
    """A cell that a transfer writes, and the labels before and after it."""

    cell: int
    before: int
    now: int


@dataclass
class Labels:
    """The labels of each cell, as the bits of a number. With `places` a value is made of the cells
    of its addresses too."""

    places: bool = False
    bits: dict[int, int] = field(default_factory=dict)

    def put(self, cell: int, labels: int) -> None:
        if labels:
            self.bits[cell] = labels
        else:
            self.bits.pop(cell, None)

    def of(self, cells: Sequence[int]) -> int:
        found = 0
        for cell in cells:
            found |= self.bits.get(cell, 0)
        return found

    def turn(self, moves: Sequence[Move], new: int = 0) -> list[Carried]:
        """Carries the labels through the act of a turn, whose results get a new one, if any."""
        bits, instant, begun = self.bits, -1, 0
        found: list[Carried] = []
        for move in moves:
            if move.instant != instant:
                self.apply(found, begun)
                instant, begun = move.instant, len(found)
            now = new if new and move.how in RESULTS else 0
            chosen = 0
            for cell in move.values:
                if cell in bits:
                    now |= bits[cell]
            for cell in move.addresses:
                if cell in bits:
                    chosen |= bits[cell]
            if self.places:
                now |= chosen
            if now or chosen or move.cell in bits:
                found.append(Carried(move, bits.get(move.cell, 0), now, chosen))
        self.apply(found, begun)
        return found

    def apply(self, found: Sequence[Carried], begun: int) -> None:
        for it in found[begun:]:
            self.put(it.move.cell, it.now)

    def transfer(self, moved: DiskMove) -> list[MovedCell]:
        """Carries the labels through a transfer of the disk."""
        more = self.of(ADDRESS_OF_A_TRANSFER) if self.places else 0
        bits = self.bits
        found = [
            MovedCell(
                cell, bits.get(cell, 0), more | (0 if source is None else bits.get(source, 0))
            )
            for cell, source in moved.pairs()
        ]
        for it in found:
            if it.before or it.now:
                self.put(it.cell, it.now)
        return [it for it in found if it.before or it.now]


class Brought(NamedTuple):
    """An event that brings data, and the cells that have it then."""

    number: int
    turn: int
    cells: Sequence[int]


def events_with_data(machine: Machine) -> Iterator[Brought]:
    """The keys and the switches of the script, in their order."""
    for event in machine.script:
        cells = CELLS_OF_EVENTS.get(event.text.split()[0])
        if cells is not None:
            yield Brought(event.number, event.turn, cells)
