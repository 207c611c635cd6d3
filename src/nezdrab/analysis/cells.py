"""The cells that hold data, each a number: a byte of core or of a register on the bus by its
physical address, a byte of a register of the processor, a condition code, the rest of PS, and a
byte of a drive."""
from typing import NamedTuple, Sequence

from ..core.hardware import DRIVE_WORDS, IO_PAGE

MASK = 0o177777
REGISTERS, CODES, DRIVES = 1 << 20, (1 << 20) + 16, 1 << 21
# The codes in the order of their bits in PS; the rest of PS: both modes, priority and T; and PC,
# which nothing is made of: where the program stands isn't followed.
C, V, Z, N, REST, PC = range(CODES, CODES + 6)
ALL_CODES = (N, Z, V, C)
DRIVE_BYTES = 2 * DRIVE_WORDS
NAMES = ("R0", "R1", "R2", "R3", "R4", "R5", "KSP", "USP")
KSP, USP = 6, 7

# Registers on the bus by their addresses: those that keep what is written to them, and those that
# an event or the tape fills.
PS, TKB, SWITCHES, PRB, TPB, PPB = 0o777776, 0o777562, 0o777570, 0o777552, 0o777566, 0o777556
RKCS, RKWC, RKBA, RKDA = 0o777404, 0o777406, 0o777410, 0o777412
OF_THE_DISK = (RKWC, RKBA, RKDA)
OUTPUTS = {TPB: "TPB", PPB: "PPB"}
INPUTS = {TKB: "TKB", SWITCHES: "switches", PRB: "PRB"}
OF_A_TRANSFER = {RKWC: "RKWC", RKBA: "RKBA", RKDA: "RKDA"}
MAPPING = frozenset(
    first + at
    for first in (0o772300, 0o777600, 0o772340, 0o777640)
    for at in range(0, 0o20, 2)
)
KEPT = frozenset([*OUTPUTS, *OF_A_TRANSFER, *MAPPING])
NAMES_ON_THE_BUS = {**OUTPUTS, **INPUTS, **OF_A_TRANSFER, RKCS: "RKCS"}

Cells = tuple[int, ...]
NOTHING: Cells = ()


class Byte(NamedTuple):
    """A byte of a drive."""

    drive: int
    number: int

    @property
    def word(self) -> int:
        return self.number // 2


def register_cells(register: int) -> Cells:
    """The low and the high byte of a register."""
    low = REGISTERS + 2 * register
    return (low, low + 1)


def word_cells(address: int) -> Cells:
    return (address & ~1, address | 1)


def drive_cell(drive: int, word: int, half: int = 0) -> int:
    return DRIVES + drive * DRIVE_BYTES + 2 * word + half


def byte_of_drive(cell: int) -> Byte:
    return Byte(*divmod(cell - DRIVES, DRIVE_BYTES))


def is_core(cell: int) -> bool:
    return cell < IO_PAGE


def is_of_drive(cell: int) -> bool:
    return cell >= DRIVES


def is_register(cell: int) -> bool:
    """Whether it is a byte of a register of the processor."""
    return REGISTERS <= cell < CODES


def is_on_bus(cell: int) -> bool:
    return IO_PAGE <= cell < REGISTERS


def first_of(cell: int) -> int:
    """The first cell of the word that this cell is in; a code is one by itself."""
    return cell if CODES <= cell < DRIVES else cell & ~1


def name_of(cell: int, has_drives: bool = False) -> str:
    """The name of the word that a cell is in, as commands have it; in version 2 with the drive."""
    if is_of_drive(cell):
        drive, number = byte_of_drive(cell)
        return f"disk {f'{drive:o} ' if has_drives else ''}{number // 2:07o}"
    if is_register(cell):
        return NAMES[(cell - REGISTERS) // 2]
    if CODES <= cell < DRIVES:
        return ("code C", "code V", "code Z", "code N", "PS", "PC")[cell - CODES]
    if is_on_bus(cell):
        return NAMES_ON_THE_BUS.get(cell & ~1, f"{cell & ~1:06o}")
    return f"core {cell & ~1:06o}"


def some_of(names: Sequence[str], most: int = 16) -> str:
    """These names, or the first of them and how many more there are, or `none`."""
    more = f" and {len(names) - most} more" if len(names) > most else ""
    return (" ".join(names[:most]) or "none") + more
