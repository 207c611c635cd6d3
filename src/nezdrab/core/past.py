"""The past as the program tells it, in its replies to `setup`, `events` and `patches`."""
from typing import NamedTuple, Sequence

from .hardware import DELAYS
from .options import UNIT_BYTES
from .replies import hash_of
from .values import dataclass

LINE_DEVICES = frozenset(DELAYS)
MOST_EVENTS = 65_536  # of a script
PATCHES = ("core", "disk")


def without_zeros(words: Sequence[str]) -> str:
    """A word and the octal numbers after it, without leading zeros."""
    return " ".join([words[0], *(f"{int(it, 8):o}" for it in words[1:])])


class Event(NamedTuple):
    """An event of the script."""

    number: int
    turn: int
    text: str

    @classmethod
    def of(cls, line: str) -> "Event":
        number, turn, *words = line.split()
        return cls(int(number), int(turn), without_zeros(words))

    def line(self) -> str:
        return f"at {self.turn} {self.text}"

    def explained(self) -> str:
        """The event with the character of a key."""
        word, *rest = self.text.split()
        if word != "key":
            return self.text
        code = int(rest[0], 8)
        names = {0o12: "LF", 0o15: "CR", 0o33: "ESC", 0o40: "space", 0o177: "DEL"}
        name = names.get(code, repr(chr(code)) if 0o40 < code < 0o177 else f"Ctrl-{chr(code ^ 64)}")
        return self.text if code > 0o177 else f"{self.text}  {name}"


@dataclass(frozen=True)
class Setup:
    """The reply of `setup`: the version, the units of core, the start address and the delays."""

    version: int
    units: int
    start: int
    delays: dict[str, int]

    __hash__ = hash_of

    @property
    def core_end(self) -> int:
        """The first address behind core."""
        return self.units * UNIT_BYTES

    @classmethod
    def of(cls, reply: str) -> "Setup":
        fields = reply.split()[1:]
        found = dict(zip(fields[::2], fields[1::2]))
        delays = {it: int(found[it]) for it in DELAYS}
        return cls(int(found["version"]), int(found["units"]), int(found["start"], 8), delays)
