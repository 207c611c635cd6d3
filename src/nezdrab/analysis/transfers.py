"""Which functions of the disk were done, by the line `transfers`, and which words they moved."""
from typing import Iterable, Iterator, Optional, Sequence

from ..core.engine import Machine
from ..core.found import Transfer
from ..core.hardware import SECTOR_WORDS
from ..core.replies import Devices
from ..core.values import dataclass
from .cells import drive_cell

ASKED_AT_ONCE = 16
MOVING = ("read", "write")


def functions_done(machine: Machine, turns: range) -> Iterator[Transfer]:
    """The functions that were done in these turns, in their order."""
    while turns:
        lines, turns = machine.transfers(turns)
        yield from map(Transfer.of, lines)


@dataclass(frozen=True)
class DiskMove:
    """A function of the disk that moves words, by the turn in whose beginning it completes."""

    turn: int
    is_read: bool
    drive: int
    first: int  # word of the drive
    core: int
    count: int
    stays: bool

    @property
    def on_drive(self) -> range:
        """The words of the drive that it reads or writes. A write fills the last sector."""
        count = self.count if self.is_read else -(-self.count // SECTOR_WORDS) * SECTOR_WORDS
        return range(self.first, self.first + count)

    @property
    def in_core(self) -> range:
        """The addresses of the words of core."""
        return words_of_core(self.core, self.count, self.stays)

    def drive_word(self, address: int) -> int:
        """The word of the drive that a read leaves in this word of core."""
        return self.first + (self.count - 1 if self.stays else (address - self.core) // 2)

    def core_address(self, word: int) -> Optional[int]:
        """The word of core that a write brings to this word of the drive, or None for a zero."""
        at = word - self.first
        if at >= self.count:
            return None
        return self.core if self.stays else self.core + 2 * at

    def pairs(self) -> Iterator[tuple[int, Optional[int]]]:
        """Each cell that it writes, with the one that its value comes from."""
        words = self.in_core if self.is_read else self.on_drive
        for word in words:
            source: Optional[int]
            if self.is_read:
                target = word
                source = drive_cell(self.drive, self.drive_word(word))
            else:
                target, source = drive_cell(self.drive, word), self.core_address(word)
            for half in (0, 1):
                yield target + half, None if source is None else source + half


def words_of_core(first: int, count: int, stays: bool) -> range:
    """The addresses of so many words of core from the first on, or of the first one alone."""
    return range(first, first + 2 * (min(1, count) if stays else count), 2)


def with_stays(
    machine: Machine, found: Sequence[Transfer]
) -> Iterator[tuple[Transfer, bool]]:
    """These functions, which ascend, and whether the bus address of each stayed as it was."""
    for it, reply in zip(found, machine.read_all([f"devices {it.turn}" for it in found])):
        yield it, Devices.of(reply).stays


def transfers_in(machine: Machine, turns: range) -> list[DiskMove]:
    """The reads and writes that were done in these turns."""
    return moved_by(machine, functions_done(machine, turns))


def moved_by(machine: Machine, done: Iterable[Transfer]) -> list[DiskMove]:
    """Those of these functions that move words."""
    pairs = with_stays(machine, [it for it in done if it.function in MOVING])
    return [
        DiskMove(it.turn, it.function == "read", it.drive, it.index, it.address, it.count, stays)
        for it, stays in pairs
    ]


class Disk:
    """The functions of the disk, as a walk over the turns meets them."""

    def __init__(self, machine: Machine):
        self.machine = machine
        self.ends: frozenset[int] = frozenset()
        self.moved: dict[int, DiskMove] = {}  # by the turns in whose beginning they complete
        self.turns = range(0)
        self.ready: dict[int, bool] = {}  # before which turns it is

    def prepare(
        self, turns: range, done: Optional[Sequence[Transfer]] = None, is_ready: bool = False
    ) -> None:
        """Takes what is done in these turns, or asks for it; and whether the disk is known to be
        ready before them."""
        found = list(functions_done(self.machine, turns)) if done is None else done
        self.ends = frozenset(it.turn for it in found)
        self.moved = {it.turn: it for it in moved_by(self.machine, found)}
        self.turns, self.ready = turns, {turns[0]: True} if is_ready else {}

    def is_busy(self, turn: int) -> bool:
        """Whether a function is under way in the act of this turn."""
        return turn not in self.ends and not self.is_ready(turn)

    def is_ready(self, turn: int) -> bool:
        """Whether the disk is ready before the turn. A program writes several of its registers in
        turns near each other: so the turns after this one are asked too."""
        if turn not in self.ready:
            asked = [it for it in range(turn, turn + ASKED_AT_ONCE) if it in self.turns] or [turn]
            replies = self.machine.read_all([f"devices {it}" for it in asked])
            states = (Devices.of(it).disk_is_ready for it in replies)
            self.ready.update(zip(asked, states))
        return self.ready[turn]
