"""The last writes to words of core before turns, as the way back from a value asks for them."""
import bisect
from typing import Optional

from ..core.engine import Machine
from ..core.replies import LastWrite
from ..core.values import dataclass, field

PROCESSOR, DISK = "cpu", "disk"
# How many writes are asked for at once, and the turns that may be looked through for them.
FEWEST, MOST, MOST_TURNS = 8, 64, 1 << 20


@dataclass
class Chain:
    """A word that is asked for what was before its own writes, as a counter is: then many of them
    are listed at once."""

    address: int
    turns: range = range(0)  # before which the list tells the last write
    writes: list[LastWrite] = field(default_factory=list)
    reached: int = -1  # the last write that was told
    distance: int = 0  # from it to the turn that was asked about
    count: int = 0  # how often it was asked so
    size: int = FEWEST

    def listed(self, turn: int) -> Optional[LastWrite]:
        turns = [it.turn for it in self.writes] if turn in self.turns else []
        at = bisect.bisect_left(turns, turn)
        return self.writes[at - 1] if at else None

    def told(self, turn: int, write: LastWrite) -> None:
        self.count = self.count + 1 if turn == self.reached else 0
        self.reached, self.distance = write.turn, turn - write.turn

    def list_writes(self, machine: Machine, turn: int) -> None:
        """Lists writes before the turn, if many are likely to be near."""
        first = max(0, turn - self.size * self.distance)
        if self.count < 2 or turn != self.reached or turn - first > MOST_TURNS:
            return
        lines, left = machine.writes(range(first, turn), self.address)
        if not left:
            self.writes = list(map(LastWrite.of_line, lines))
            self.turns = range(first + 1, turn + 1)
            self.size = min(2 * self.size, MOST)


@dataclass
class LastWrites:
    """Tells last writes. `ahead` has the turns of writes that are likely to be looked at next."""

    machine: Machine
    known: dict[tuple[int, int], Optional[LastWrite]] = field(default_factory=dict)
    chains: dict[int, Chain] = field(default_factory=dict)
    ahead: set[int] = field(default_factory=set)

    def before(self, turn: int, address: int) -> Optional[LastWrite]:
        """The last write to the word before the turn."""
        key = turn, address
        if key not in self.known:
            self.known[key] = self._found(turn, self.chains.setdefault(address, Chain(address)))
        return self.known[key]

    def _found(self, turn: int, chain: Chain) -> Optional[LastWrite]:
        found = chain.listed(turn)
        if found is None:
            chain.list_writes(self.machine, turn)
            found = chain.listed(turn)
            if found is not None:
                self.ahead = {it.turn for it in chain.writes if it.writer == PROCESSOR}
        if found is None:
            found = self.machine.last(turn, chain.address)
        if found is not None:
            chain.told(turn, found)
        return found
