"""Breakpoints with conditions that no single search has: a write or a read after which one holds,
an interrupt or a trap before which one holds, and one whose hits count."""
import operator
import re
from typing import Callable, Iterator, Optional

from ..analysis.breakpoints import Breakpoint
from ..core.engine import LAST_TURN, Machine
from ..core.errors import ExploreError
from ..core.values import dataclass


@dataclass(frozen=True)
class Conditional(Breakpoint):
    """Another breakpoint, if the condition, in the words of a search, holds: before the turn, or of
    an access after it. From a turn where it doesn't the search goes on where it holds next."""

    condition: str = ""

    @property
    def lag(self) -> int:
        return 0 if self.address is None else 1

    def holds(self, machine: Machine, turn: int) -> bool:
        before = turn + self.lag
        looked = range(before, before + 1)
        return before < LAST_TURN and machine.found("first", looked, self.condition) is not None

    def first(self, machine: Machine, turns: range) -> Optional[int]:
        found, lag = super().first(machine, turns), self.lag
        while found is not None and not self.holds(machine, found):
            later = range(found + 1 + lag, min(turns.stop + lag, LAST_TURN))
            then = machine.found("first", later, self.condition) if later else None
            if then is None:
                return None
            found = super().first(machine, range(then - lag, turns.stop))
        return found

    def last(self, machine: Machine, turns: range) -> Optional[int]:
        found, lag = super().last(machine, turns), self.lag
        while found is not None and not self.holds(machine, found):
            earlier = range(turns.start + lag, found + lag)
            then = machine.found("latest", earlier, self.condition) if earlier else None
            if then is None:
                return None
            found = super().last(machine, range(turns.start, then - lag + 1))
        return found


HIT = re.compile(r"\s*(==|=|>=|<=|>|<|%)?\s*([0-9]{1,9})\s*")
RELATIONS: dict[str, Callable[[int, int], bool]] = {
    **{"==": operator.eq, "=": operator.eq, "": operator.eq, ">=": operator.ge, "<=": operator.le},
    **{">": operator.gt, "<": operator.lt, "%": lambda count, number: count % number == 0},
}


def check_hit(text: str) -> None:
    """An error if this is no condition of hits."""
    found = HIT.fullmatch(text)
    if found is None or found[1] == "%" and int(found[2]) == 0:
        raise ExploreError(f"hitCondition: '{text}' is none of 5, == 5, > 5, >= 5, < 5, <= 5, % 5")


@dataclass(frozen=True)
class Counted(Breakpoint):
    """Those hits of another breakpoint whose number fits. They are counted from power-up on, so
    that it stops at the same turns on the way back."""

    of: Optional[Breakpoint] = None
    hit: str = ""

    def fits(self, count: int) -> bool:
        found = HIT.fullmatch(self.hit)
        return found is not None and RELATIONS[found[1] or ""](count, int(found[2]))

    def hits(self, machine: Machine, turns: range) -> Iterator[int]:
        found = self.of.first(machine, turns) if self.of is not None and turns else None
        while found is not None and self.of is not None:
            yield found
            turns = range(found + 1, turns.stop)
            found = self.of.first(machine, turns) if turns else None

    def fitting(self, machine: Machine, turns: range) -> Iterator[int]:
        before = sum(1 for _ in self.hits(machine, range(turns.start)))
        found = enumerate(self.hits(machine, turns), before + 1)
        return (turn for count, turn in found if self.fits(count))

    def first(self, machine: Machine, turns: range) -> Optional[int]:
        return next(self.fitting(machine, turns), None)

    def last(self, machine: Machine, turns: range) -> Optional[int]:
        return max(self.fitting(machine, turns), default=None)
