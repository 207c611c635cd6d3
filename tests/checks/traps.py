"""Through which vectors a turn of a stored system has a trap, as far as it can be told from
outside: from the act, the word that was fetched, the registers before and after, and the vector's
words.

Of an instruction that may fault in an operand this says whether a sequence was made: PC and PS are
those of vector 4 or 250, the old PS and a PC were pushed, or the red sequence kept them at 0 and 2.
If both vectors fit, an abort is known by the flags of SR0. If these were set before, if the red
sequence set them, or if the stack pointer changed by other than 4, it isn't decided."""
from typing import NamedTuple, Optional, Union

from tests.checks.stored_systems import System
from tests.checks.virtual_places import Abort, is_register, physical

FAULTS = frozenset({0o4, 0o250})
EVERY = frozenset({0o4, 0o10, 0o14, 0o20, 0o30, 0o34, 0o250})
OF_A_SEQUENCE = 0o140377
RESERVED = [
    (0o7, 0o77),
    (0o210, 0o237),
    (0o7000, 0o7777),
    (0o75000, 0o76777),
    (0o106400, 0o107777),
    (0o170000, 0o177777),
]
# Nothing of these can fault: WAIT, RESET, codes, branches and SOB.
FAULTLESS = [
    (0o1, 0o1),
    (0o5, 0o5),
    (0o240, 0o277),
    (0o400, 0o3777),
    (0o77000, 0o77777),
    (0o100000, 0o103777),
]
# RTI, RTS, RTT, MARK, MFPI, MTPI and JSR push or pop without naming the stack pointer.
PUSHING = [(0o2, 0o2), (0o6, 0o6), (0o200, 0o207), (0o4000, 0o4777), (0o6400, 0o6677)]
ALWAYS = {0o3: 0o14, 0o4: 0o20}


class Trap(NamedTuple):
    """The vectors through which a trap may be, and whether there must be one."""

    vectors: frozenset[int]
    is_sure: bool


NONE = Trap(frozenset(), False)


def may_trap(system: System, turn: int, vector: int) -> bool:
    return vector in trap_of(system, turn).vectors


def must_trap(system: System, turn: int, vector: int) -> bool:
    return trap_of(system, turn) == Trap(frozenset({vector}), True)


def trap_of(system: System, turn: int) -> Trap:
    act = system.acts[turn][1]
    if act in ("trace", "stack"):
        return through(0o14 if act == "trace" else 0o4)
    if act != "instr":
        return NONE
    word = fetched(system, turn)
    if isinstance(word, Trap):
        return word
    mode = system.registers(turn)["PS"] >> 14
    known = by_word(word, mode == 3)
    return fault(system, turn, word) if known is None else known


def through(vector: int) -> Trap:
    return Trap(frozenset({vector}), True)


def fetched(system: System, turn: int) -> Union[int, Trap]:
    """The word of the instruction of a turn, or the trap of its fetch."""
    before = system.registers(turn)
    place = physical(system, turn, before["PS"] >> 14, before["PC"])
    if before["PC"] % 2:
        return through(0o4)
    if isinstance(place, Abort):
        return through(0o250)
    if place >= system.core_bytes:
        return Trap(EVERY, False) if is_register(place) else through(0o4)
    old, new = system.core(turn, place), system.core(turn + 1, place)
    last = system.reply(f"last {turn + 1} {place:o}")
    # The disk writes in the beginning of a turn, before the fetch.
    return new if old != new and last.startswith(f"last {turn} disk") else old


def is_among(word: int, ranges: list[tuple[int, int]]) -> bool:
    return any(first <= word <= last for first, last in ranges)


def by_word(word: int, is_user: bool) -> Optional[Trap]:
    """The trap that each instruction of this word has, or None if its operands decide."""
    if word == 0:
        return through(0o10) if is_user else NONE
    if word in ALWAYS:
        return through(ALWAYS[word])
    if word >> 9 == 0o104:
        return through(0o34 if word & 0o400 else 0o30)
    if is_among(word, RESERVED):
        return through(0o10)
    if word & 0o177770 == 0o100 or word & 0o177070 == 0o4000:
        return through(0o4)
    return NONE if is_among(word, FAULTLESS) else None


def fault(system: System, turn: int, word: int) -> Trap:
    """The trap that the operands of an instruction may have."""
    before, after = system.registers(turn), system.registers(turn + 1)
    flags = [system.page_registers(it)["SR0"][0] >> 13 for it in (turn, turn + 1)]
    fitting = frozenset(it for it in FAULTS if is_sequence(system, turn, it))
    saved, is_moved = pushed_pc(system, turn)
    if not fitting:
        is_red = is_red_sequence(system, turn)
        if not is_red and not after["halted"]:
            return NONE
        saved = kernel_word(system, turn + 1, 0) if is_red else before["PC"]
        fitting, is_moved = frozenset({0o4}) if flags == [0, 0] else FAULTS, True
    elif len(fitting) > 1 and not flags[0]:
        fitting = frozenset({0o250 if flags[1] else 0o4})
    is_near = 0 <= saved - before["PC"] <= 6
    has_stack = 6 in (word & 7, word >> 6 & 7) or is_among(word, PUSHING)
    if not is_moved and not has_stack:
        return NONE
    return Trap(fitting, is_moved and is_near and not has_stack)


def kernel_word(system: System, turn: int, address: int) -> int:
    """The word at an address of kernel space, or -1 if there is none in core."""
    place = physical(system, turn, 0, address)
    if isinstance(place, Abort) or place >= system.core_bytes:
        return -1
    return system.core(turn, place)


def has_new_status(system: System, turn: int, vector: int) -> bool:
    """Whether PC and PS after the turn are those of the vector, by its words before or after."""
    before, after = system.registers(turn), system.registers(turn + 1)
    for it in (turn, turn + 1):
        pc, status = (kernel_word(system, it, vector + more) for more in (0, 2))
        wanted = status & OF_A_SEQUENCE | before["PS"] >> 14 << 12
        if pc >= 0 and status >= 0 and (after["PC"], after["PS"]) == (pc, wanted):
            return True
    return False


def pushed_pc(system: System, turn: int) -> tuple[int, bool]:
    """The PC that a sequence would have pushed, and whether the stack pointer is 4 less."""
    before, after = system.registers(turn), system.registers(turn + 1)
    name = "USP" if after["PS"] >> 14 else "KSP"
    place = physical(system, turn + 1, after["PS"] >> 14, after[name])
    is_moved = (before[name] - after[name]) % 0o200000 == 4
    if isinstance(place, Abort) or place >= system.core_bytes or place % 2:
        return before["PC"], is_moved
    return system.core(turn + 1, place), is_moved


def is_sequence(system: System, turn: int, vector: int) -> bool:
    before, after = system.registers(turn), system.registers(turn + 1)
    name = "USP" if after["PS"] >> 14 else "KSP"
    if not has_new_status(system, turn, vector):
        return False
    place = physical(system, turn + 1, after["PS"] >> 14, (after[name] + 2) % 0o200000)
    if isinstance(place, Abort) or place >= system.core_bytes or place % 2:
        return True
    return system.core(turn + 1, place) == before["PS"]


def is_red_sequence(system: System, turn: int) -> bool:
    before, after = system.registers(turn), system.registers(turn + 1)
    is_kept = kernel_word(system, turn + 1, 2) in (-1, before["PS"])
    return after["KSP"] == 0 and is_kept and has_new_status(system, turn, 0o4)
