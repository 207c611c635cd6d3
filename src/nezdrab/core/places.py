"""Words of core and registers of the I/O page, each by a symbol, a name or a number."""
from typing import Optional

from .engine import Machine
from .errors import ExploreError
from .hardware import IO_PAGE, IO_PAGE_OF_PROGRAMS, NAMES_IN_THE_IO_PAGE
from .replies import Mode
from .symbols import Symbols

REGISTERS = {name: place for place, name in NAMES_IN_THE_IO_PAGE.items()}
BEYOND = IO_PAGE - IO_PAGE_OF_PROGRAMS  # what an address of a program lacks without mapping


def is_register(address: int) -> bool:
    return address >= IO_PAGE


def register_of(machine: Machine, number: int) -> int:
    """The place of the register at a number: one of 760000 and above, or one of 160000 and above
    where the machine has no core. Another number is that of a word of core."""
    has_core = number < machine.setup.core_end
    place = number + BEYOND if IO_PAGE_OF_PROGRAMS <= number < 0o200000 and not has_core else number
    if is_register(place) and place not in NAMES_IN_THE_IO_PAGE:
        why = "is odd" if place & ~1 in NAMES_IN_THE_IO_PAGE else "is no register's address"
        raise ExploreError(f"{number:o} {why}")
    return place


def place_of(
    machine: Machine, symbols: Symbols, text: str, mode: Optional[Mode] = None
) -> int:
    """The address of a word of core, or the place of a register, by its name too, such as TKB. A
    symbol with this name comes first, if it isn't the register's address."""
    place, named = REGISTERS.get(text.upper()), symbols.named(text, mode)
    if place is not None and named.keys() <= {place, place - BEYOND}:
        return place
    return register_of(machine, symbols.number(text, mode))
