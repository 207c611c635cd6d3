"""Which place a virtual address names before a turn of a stored system, by the rules of memory
management and by what there is on the bus."""
from typing import NamedTuple, Union

from tests.checks.stored_systems import System

MODES = {"kernel": 0, "user": 3}
# The registers of the I/O page, by physical addresses from the first to the last.
REGISTERS_AT = [
    (0o772300, 0o772317),
    (0o772340, 0o772357),
    (0o777400, 0o777413),
    (0o777546, 0o777547),
    (0o777550, 0o777567),
    (0o777570, 0o777577),
    (0o777600, 0o777617),
    (0o777640, 0o777657),
    (0o777776, 0o777777),
]


class Abort(NamedTuple):
    """Why memory management refuses a read."""

    cause: str


def physical(system: System, turn: int, mode: int, address: int) -> Union[int, Abort]:
    """The physical address for a read in a mode of the processor, 0 to 3."""
    pages = system.page_registers(turn)
    if pages["SR0"][0] % 2 == 0:
        return address if address < 0o160000 else address + 0o600000
    if mode not in MODES.values():
        return Abort("non-resident")
    space = "K" if mode == 0 else "U"
    page, block, byte = address >> 13, address >> 6 & 0o177, address & 0o77
    descriptor, frame = pages[f"{space}PDR"][page], pages[f"{space}PAR"][page]
    access, length, is_downward = descriptor >> 1 & 3, descriptor >> 8 & 0o177, descriptor & 0o10
    if access in (0, 2):
        return Abort("non-resident")
    if block < length if is_downward else block > length:
        return Abort("length")
    return ((frame + block) * 0o100 + byte) % 0o1000000


def is_register(place: int) -> bool:
    return any(first <= place <= last for first, last in REGISTERS_AT)
