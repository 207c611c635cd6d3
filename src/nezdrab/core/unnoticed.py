"""Turns in which a program doesn't notice a key: a key in the next turn makes the same run.

A key changes the keyboard alone: done, the buffer and the request. Three things of the machine ask
the keyboard: a reference to its registers, RESET, and the choice of an interrupt. So let a turn be
one that does none of these, in the run without the key:
- it is an instruction that isn't RESET and makes no cycle at the keyboard; or it is idle;
- its priority is 4 or more, so no request of the keyboard interrupts; or the keyboard's enable is
  clear, so it requests nothing; or the processor is halted.
With the key in its beginning, such a turn does the same, and the keyboard after it is that before
it with the key. If the next turn has no event of its own, a key in that one's beginning leaves the
same state: from there on both runs are one. By induction that holds for a key in any turn of such
ones that follow one another, and in the first turn after them. All acts are equal, and so are all
replies but those of `devices` about a turn between."""
from .engine import SHORT_SENT_AHEAD, Machine
from .register_rows import PS, STATE
from .replies import IDLE, INSTRUCTION, Devices, TurnAccesses

KEYBOARD, RESET = range(0o777560, 0o777564), 0o5
ABOVE_KEYS, ENABLE = 0o200, 0o100  # the bit of PS of the priorities 4 to 7; that of TKS
HALTED = b"halted"


def asks_keyboard(turn: TurnAccesses) -> bool:
    """Whether it refers to the keyboard, may be RESET, or begins no instruction."""
    if turn.turn.act not in (INSTRUCTION, IDLE):
        return True
    is_reset = any(it.value == RESET for it in turn.cycles[:1])  # the first one reads the word
    return is_reset or any(it.address in KEYBOARD for it in turn.cycles)


def may_interrupt(registers: bytes) -> bool:
    """Whether a request of the keyboard would begin an interrupt."""
    return registers[STATE] != HALTED and not int(registers[PS], 8) & ABOVE_KEYS


def unnoticed(machine: Machine, turns: range) -> frozenset[int]:
    """Those of these turns that don't notice a key. The machine has the past without it."""
    found = {it.turn.turn for it in machine.accesses_of(turns) if not asks_keyboard(it)}
    rows = zip(turns, machine.of_each_turn("regs", turns))
    asked = [turn for turn, row in rows if turn in found and may_interrupt(row)]
    replies = machine.read_all([f"devices {it}" for it in asked], SHORT_SENT_AHEAD)
    pairs = zip(asked, map(Devices.of, replies))
    return frozenset(found) - {turn for turn, it in pairs if it["TKS"] & ENABLE}
