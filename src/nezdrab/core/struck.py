"""What became of keys that were struck: which the program read, and which were lost before."""
from enum import Enum
from typing import Iterator, Optional, Sequence

from .engine import Machine
from .past import Event
from .replies import CycleKind
from .values import dataclass

BUFFER = 0o777562  # TKB, with its odd address


class Fate(Enum):
    """What became of a key."""

    READ = "read"
    OVERWRITTEN = "overwritten"
    DROPPED = "dropped by RESET"
    WAITS = "waits"


@dataclass(frozen=True)
class StruckKey:
    """A key, its fate, and the turn of that: the one that reads TKB, in which the next key comes,
    or that is a RESET; of a key that waits the end of the turns that were looked at. `by` is the
    key that overwrites it."""

    event: Event
    fate: Fate
    turn: int
    by: Optional[Event] = None

    @property
    def delay(self) -> int:
        """How many turns it waited."""
        return self.turn - self.event.turn


def struck_keys(machine: Machine, turns: range) -> Iterator[StruckKey]:
    """The keys of these turns in their order. A key waits from its turn on while done of TKS is
    set: until the first read of TKB, also at its odd address, or RESET, or up to the next key."""
    keys = [it for it in machine.script if it.text.startswith("key ") and it.turn in turns]
    following: Sequence[Optional[Event]] = [*keys[1:], None]
    for key, by in zip(keys, following):
        yield fate_of(machine, key, by, turns.stop)


def fate_of(machine: Machine, key: Event, by: Optional[Event], stop: int) -> StruckKey:
    """What becomes of a key up to the next one, or before turn `stop` if there is none."""
    end = stop if by is None else by.turn
    clear = first_clear(machine, key.turn, end)
    if clear is None:
        return StruckKey(key, Fate.WAITS if by is None else Fate.OVERWRITTEN, end, by)
    fate = Fate.READ if reads_buffer(machine, clear - 1) else Fate.DROPPED
    return StruckKey(key, fate, clear - 1)


def first_clear(machine: Machine, struck: int, end: int) -> Optional[int]:
    """The first turn up to `end` before which done is clear, after the turn in which a key is
    struck. It stays clear up to `end`, so it is looked for at distances that double, and then by
    halves."""
    last, look = struck, min(struck + 1, end)
    while look > last and machine.devices(look).key_waits:
        last, look = look, min(end, 2 * look - struck)
    return first_between(machine, last, look) if look > last else None


def first_between(machine: Machine, waits: int, clear: int) -> int:
    """The first turn before which done is clear: it is before turn `clear`, and not at `waits`."""
    while clear - waits > 1:
        middle = (waits + clear) // 2
        if machine.devices(middle).key_waits:
            waits = middle
        else:
            clear = middle
    return clear


def reads_buffer(machine: Machine, turn: int) -> bool:
    """Whether the turn reads TKB."""
    (found,), _ = machine.accesses(range(turn, turn + 1))
    return any(
        it.kind is CycleKind.READ and it.address & ~1 == BUFFER and not it.is_core
        for it in found.cycles
    )
