"""The longest, deepest and slowest of some turns."""
from typing import Iterable, Iterator, Optional

from .register_rows import KSP, PS, USP, Batch
from .replies import Turn
from .values import dataclass, field

PRIORITY, USER_MODE = 0o340, 0o140000
STACKS = {"KSP": KSP, "USP": USP}


@dataclass
class Handler:
    """An interrupt that hasn't been left: its turn, its vector, and KSP after it."""

    turn: int
    vector: int
    slot: int


@dataclass
class Extremes:
    """What is found in the turns up to `end`: the longest stretch of priority 7, the least of each
    stack pointer with its turn, and of each vector the handler that took the most turns."""

    end: int = 0
    begun: Optional[int] = None  # the turn since which the priority is 7
    longest: range = range(0)
    least: dict[str, tuple[int, int]] = field(default_factory=dict)
    interrupt: Optional[Turn] = None  # the turn before was this one
    open: list[Handler] = field(default_factory=list)
    slowest: dict[int, range] = field(default_factory=dict)

    def walk(self, batches: Iterable[Batch]) -> Iterator[None]:
        for batch in batches:
            self.batch(batch)
            yield
        self.take(batch.turns.stop, batch.registers[-1])

    def batch(self, batch: Batch) -> None:
        for turn, reply in zip(batch.turns, batch.registers):
            self.take(turn, reply)
            self.spent(turn)
            other = batch.others.get(turn)
            self.interrupt = other if other and other.vector is not None else None
            self.end = turn + 1

    def take(self, turn: int, reply: bytes) -> None:
        """The registers before a turn."""
        status, pointer = int(reply[PS], 8), int(reply[KSP], 8)
        if status & PRIORITY != PRIORITY:
            self.begun = None
        elif self.begun is None:
            self.begun = turn
        for name, part in STACKS.items():
            value = int(reply[part], 8)
            if value and value < self.least.get(name, (value + 1, 0))[0]:
                self.least[name] = value, turn
        if self.interrupt and not status & USER_MODE:
            self.open.append(Handler(turn - 1, self.interrupt.vector or 0, pointer))
        while self.open and pointer > self.open[-1].slot:
            self.leave(self.open.pop(), turn)

    def spent(self, turn: int) -> None:
        """The turn is one of the stretch of priority 7, if there is one."""
        if self.begun is not None and turn + 1 - self.begun > len(self.longest):
            self.longest = range(self.begun, turn + 1)

    def leave(self, handler: Handler, turn: int) -> None:
        took = range(handler.turn, turn)
        if len(took) > len(self.slowest.get(handler.vector, ())):
            self.slowest[handler.vector] = took
