"""How operand specifiers find operands: docs/MACHINE.md, Operands."""
import functools
from typing import NamedTuple, Optional

SP, PC = 6, 7


class Addressing(NamedTuple):
    """How the address of an operand in memory is found. First the register shrinks by so many
    bytes; then the index word is read, if there is one, and PC grows by 2; the address is the
    register and the index together; then the register grows; and last, if the operand is deferred,
    its address is the word that is read there."""

    register: int
    shrinks: int
    has_index: bool
    grows: int
    is_deferred: bool


@functools.lru_cache(maxsize=None)
def addressing_of(specifier: int, is_byte: bool) -> Optional[Addressing]:
    """How an operand with these six bits is found, or None for a register."""
    mode, register = specifier >> 3, specifier & 7
    step = 1 if is_byte and register < SP and mode in (2, 4) else 2
    if mode == 0:
        return None
    return Addressing(
        register,
        shrinks=step if mode in (4, 5) else 0,
        has_index=mode >= 6,
        grows=step if mode in (2, 3) else 0,
        is_deferred=mode in (3, 5, 7),
    )
