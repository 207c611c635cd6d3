"""What turns make of what, by the line `moves`."""
from enum import Enum
from typing import Iterator, NamedTuple, Optional, Sequence

from .replies import hash_of
from .values import dataclass

NOTHING, EVENT = "nothing", "event"
CODES, BUFFERS = ("N", "Z", "V", "C"), ("TKB", "TPB", "PRB", "PPB", "switches")


class CellKind(Enum):
    """What holds a cell of data: DEVICE is TKB, TPB, PRB, PPB or the switches, and STEP is a part
    that a step of an instruction hands to the next. Words of the disk and bytes of the tape move
    only in the beginning of a turn: TurnMoves.made has none."""

    CORE = "core"
    DISK = "disk"
    REGISTER = "register"
    CODE = "code"
    DEVICE = "device"
    TAPE = "tape"
    STEP = "step"


class Cell(NamedTuple):
    """A cell that holds data: a half of a word of core or of the disk, a half of a register, a
    condition code, a device's buffer, or a byte of the tape. `name` is that of a register, a code
    or a device. `number` is the address of the word of core in bytes, the number of the word of the
    drive, or that of the byte of the tape. The `half` is 0 for bits 7-0 and 1 for bits 15-8. The
    text of a cell, str(cell), is that of the line `moves`, such as `core 001000.0`."""

    kind: CellKind
    name: str = ""
    number: int = 0
    half: Optional[int] = None
    drive: int = 0

    def __str__(self) -> str:
        number = {
            CellKind.CORE: f" {self.number:06o}",
            CellKind.DISK: f" {self.drive} {self.number:07o}",
            CellKind.TAPE: f" {self.number}",
            CellKind.CODE: f" {self.name}",
        }.get(self.kind)
        word = self.name if number is None else f"{self.kind.value}{number}"
        return word if self.half is None else f"{word}.{self.half}"

    @classmethod
    def of(cls, text: str) -> "Cell":
        """The cell with this text."""
        word, _, half = text.partition(".")
        first, *rest = word.split()
        part = int(half) if half else None
        if first == "core":
            return cls(CellKind.CORE, "", int(rest[0], 8), part)
        if first == "disk":
            return cls(CellKind.DISK, "", int(rest[1], 8), part, int(rest[0], 8))
        if first == "tape":
            return cls(CellKind.TAPE, "", int(rest[0]))
        if first == "code":
            return cls(CellKind.CODE, rest[0])
        if first in BUFFERS:
            return cls(CellKind.DEVICE, first)
        is_register = first in ("KSP", "USP") or first[1:].isdigit()
        return cls(CellKind.REGISTER if is_register else CellKind.STEP, word, 0, part)


@dataclass(frozen=True)
class DiskMoved:
    """What the disk moves in the beginning of a turn: its function (read or write), the drive, the
    first word of the drive, the address of the first word of core, and how many words, maybe none.
    If the bus address `stays`, each word goes to that address, or comes from it. A write also fills
    the rest of its last sector with zeros."""

    function: str
    drive: int
    index: int
    address: int
    count: int
    stays: bool

    @classmethod
    def of(cls, line: str) -> "DiskMoved":
        _, function, drive, index, address, count, *rest = line.split()
        numbers = int(drive, 8), int(index, 8), int(address, 8), int(count)
        return cls(function, *numbers, bool(rest))


class TapeByte(NamedTuple):
    """The number of a byte of the tape, from 0 on, that goes to PRB. `is_at_end` if the tape has no
    such byte: then PRB stays."""

    number: int
    is_at_end: bool


@dataclass(frozen=True)
class TurnMoves:
    """What a turn makes of what. In its beginning TKB becomes the byte of a `key`, and the
    `switches` the word of an event, each by its number among the turn's events, from 0 on; PRB
    becomes a byte of the `tape`; and the `disk` moves words. Each is None if it doesn't. After that
    the act makes each cell of `made` of these cells, as they were when the act began, or of none,
    of constants. A cell that isn't there is made of itself alone: it stays, or changes as by
    INC."""

    turn: int
    key: Optional[int]
    switches: Optional[int]
    tape: Optional[TapeByte]
    disk: Optional[DiskMoved]
    made: dict[Cell, tuple[Cell, ...]]

    __hash__ = hash_of

    @classmethod
    def of(cls, lines: list[str]) -> "TurnMoves":
        """The turn of the lines of a reply from `turn T` on, up to the next one."""
        head, *others = lines
        events: dict[str, int] = {}
        made: dict[Cell, tuple[Cell, ...]] = {}
        tape, disk = None, None
        for line in others:
            name, _, source = line.partition(" of ")
            if not source:
                disk = DiskMoved.of(line)
            elif source.startswith(EVENT):
                events[name] = int(source.split()[1])
            elif name == "PRB" and source.startswith("tape"):
                _, number, *end = source.split()
                tape = TapeByte(int(number), bool(end))
            else:
                cell = Cell.of(name)
                made[cell] = tuple(dict.fromkeys((*made.get(cell, ()), *cells_of(source))))
        turn = int(head.split()[1])
        return cls(turn, events.get("TKB"), events.get("switches"), tape, disk, made)


def cells_of(source: str) -> tuple[Cell, ...]:
    return () if source == NOTHING else (Cell.of(source),)


def moves_of(reply: str) -> list[TurnMoves]:
    """The turns of a reply of `moves`."""
    parts: list[list[str]] = []
    for line in reply.splitlines()[1:]:
        if line.startswith("turn "):
            parts.append([])
        parts[-1].append(line)
    return [TurnMoves.of(it) for it in parts]


def grouped(made: dict[Cell, tuple[Cell, ...]]) -> Iterator[tuple[list[Cell], tuple[Cell, ...]]]:
    """The cells that are made of the same ones together, with those."""
    groups: dict[frozenset[Cell], list[Cell]] = {}
    for cell, sources in made.items():
        groups.setdefault(frozenset(sources), []).append(cell)
    for cells in groups.values():
        yield cells, made[cells[0]]


def in_words(cells: Sequence[Cell]) -> str:
    """These cells, or `nothing`. A word of which both halves are there is named without a half."""
    all_of = set(cells)
    words = [
        it._replace(half=None)
        if it.half is not None and it._replace(half=1 - it.half) in all_of
        else it
        for it in cells
        if it.kind is not CellKind.CODE
    ]
    names = list(dict.fromkeys(map(str, words)))
    named = {it.name for it in cells if it.kind is CellKind.CODE}
    if named:
        codes = " ".join(it for it in CODES if it in named)
        names.append(f"code{'s' * (len(named) > 1)} {codes}")
    return ", ".join(names) or NOTHING
