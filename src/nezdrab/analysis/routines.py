"""Which routine each turn of a range is in."""
import re
from typing import Optional

from ..core.replies import MODES as MODE_OF, Mode
from ..core.values import dataclass
from .counting import MODES, Place
from .explorer import Explorer
from .profile import Profile, begin_of, begins_of, counted_profile, name_of

SEPARATING = re.compile(r"[\s;,]|[^ -~]")  # what separates names in files, or isn't ASCII
NOWHERE = "(at an odd address, or in mode 01 or 10)"


def in_one_word(name: str) -> str:
    """The name of a symbol as files of viewers take it."""
    return SEPARATING.sub("_", name)


@dataclass(frozen=True)
class Label:
    """A routine, or without a mode what turns do that begin no instruction, such as `(waits)`."""

    mode: Optional[Mode]
    begin: Optional[int]
    name: str

    def in_mode(self) -> str:
        """The name with its mode before it."""
        return self.name if self.mode is None else f"{self.mode.value} {self.name}"


class Labels(dict[bytes, Label]):
    """The routine of each place, by that part of a reply of `regs`. The routines are those of
    `profile`; without a symbol a routine has its address as its name."""

    def __init__(self, explorer: Explorer, profile: Profile):
        super().__init__()
        self.explorer = explorer
        self.begins = begins_of(explorer, profile)
        self.known: dict[tuple[Mode, Optional[int]], Label] = {}
        self.nowhere = Label(None, None, NOWHERE)

    @classmethod
    def of(cls, explorer: Explorer, turns: range) -> "Labels":
        """The turns are counted only if there are modes without symbols."""
        has_all = all(explorer.symbols.values[it] for it in MODES)
        counted = Profile(turns) if has_all else counted_profile(explorer.machine, turns)
        return cls(explorer, counted)

    def __missing__(self, part: bytes) -> Label:
        address, _, status = part.partition(b" PS ")
        self[part] = self.at(Place(MODE_OF[int(status, 8) >> 2], int(address, 8)))
        return self[part]

    def at(self, place: Place) -> Label:
        if place.mode not in MODES or place.address % 2:
            return self.nowhere
        begin = begin_of(self.begins, place)
        found = self.known.get((place.mode, begin))
        if found is None:
            name = name_of(self.explorer, place.mode, begin) or f"{begin:06o}"
            name = name if begin is None else in_one_word(name)
            found = self.known[place.mode, begin] = Label(place.mode, begin, name)
        return found
