"""When a word of a drive changes, and by what."""
from typing import Iterable, Iterator, Mapping, Optional, Sequence

from ..core.engine import Machine
from ..core.hardware import SECTOR_WORDS
from ..core.in_words import counted
from ..core.replies import Devices, DiskFunction
from ..core.values import dataclass
from .command import check_drive
from .explorer import Explorer
from .finder import growing_parts, parts_of
from .listing import turns_in_words
from .transfers import functions_done

FIRST_STEPS_BACK, MOST_STEPS_BACK = 16, 65_536


@dataclass
class DiskWord:
    """A word of a drive over the turns."""

    machine: Machine
    drive: int
    index: int

    def __post_init__(self) -> None:
        if self.drive:
            check_drive(self.machine)

    @property
    def name(self) -> str:
        return f"disk {self.machine.named(self.drive)}{self.index:07o}"

    @property
    def in_a_line(self) -> str:
        """The word as commands name it."""
        return f"disk {self.machine.named(self.drive)}{self.index:o}"

    def value(self, turn: int) -> int:
        return self.machine.disk_word(turn, self.drive, self.index)

    def values(self, turns: Iterable[int]) -> Iterator[int]:
        """The word before each of these turns, which ascend."""
        lines = [self.machine.disk_line(it, self.drive, self.index) for it in turns]
        return self.machine.single_words(lines)

    def changes(self, turns: range) -> Iterator[int]:
        """The turns of these that change the word."""
        sought = f"{self.machine.named(self.drive)}{self.index:o}"
        for part in parts_of(turns):
            found = self.machine.found("change", part, sought)
            while found is not None:
                yield found
                part = range(found + 1, part.stop)
                found = self.machine.found("change", part, sought)


def functions_in_words(
    explorer: Explorer, turns: Sequence[int], begins: Mapping[int, Optional[int]]
) -> dict[int, str]:
    """The functions of the disk that complete in these turns, which ascend, and what began them,
    by turn. The turns that began them are looked for if they aren't known."""
    machine = explorer.machine
    replies = machine.ask_all([f"devices {it}" for it in turns])
    functions = {turn: Devices.of(reply) for turn, reply in zip(turns, replies)}
    found = {it: begins[it] if it in begins else begin_of(machine, it) for it in turns}
    known = sorted({it for it in found.values() if it is not None})
    by = dict(zip(known, turns_in_words(explorer, known)))
    return {
        turn: function_in_words(devices) + begin_in_words(found[turn], by)
        for turn, devices in functions.items()
    }


def acts_in_words(
    explorer: Explorer, acts: Iterable[tuple[int, str]]
) -> dict[tuple[int, str], str]:
    """What the processor or the disk did in these turns, by turn and who it was, `cpu` or
    `disk`."""
    asked = sorted(set(acts))
    by_disk = [turn for turn, who in asked if who == "disk"]
    by_processor = [turn for turn, who in asked if who != "disk"]
    functions = functions_in_words(explorer, by_disk, {})
    found = {(turn, "disk"): text for turn, text in functions.items()}
    texts = zip(by_processor, turns_in_words(explorer, by_processor))
    return {**found, **{(turn, "cpu"): text for turn, text in texts}}


def function_in_words(devices: Devices) -> str:
    core = f"core {devices.bus_address:06o}"
    sector = f"sector {devices.sector} of drive {devices.drive}"
    ends = (core, sector) if devices.function == DiskFunction.WRITE else (sector, core)
    words = counted(devices.word_count, "word")
    return f"a {devices.function.title} of {words} from {ends[0]} to {ends[1]}"


def begin_in_words(begin: Optional[int], by: Mapping[int, str]) -> str:
    return "" if begin is None else f", begun in turn {begin} by {by[begin]}"


def begin_of(machine: Machine, turn: int) -> Optional[int]:
    """The turn that began the function that completes in this turn. It is no further back than the
    disk's delay; without a delay it is looked for in parts that double."""
    delay = machine.setup.delays["disk"]
    back = delay or FIRST_STEPS_BACK
    while True:
        *_, done = functions_done(machine, range(max(0, turn - back), turn + 1))
        if done.begun is not None or delay or back > min(turn, MOST_STEPS_BACK):
            return done.begun
        back *= 2


def last_change(word: DiskWord, turn: int) -> Optional[int]:
    """The last change before the turn, if there is one. Back from there a change is searched for in
    parts that double, and then a later one in halves of what is left."""
    for part in growing_parts(range(0, turn), is_backwards=True):
        found, end = next(word.changes(part), None), part.stop
        while found is not None and end - found > 1:
            middle = (found + end) // 2
            later = next(word.changes(range(middle, end)), None)
            found, end = (found, middle) if later is None else (later, end)
        if found is not None:
            return found
    return None


def change_lines(explorer: Explorer, word: DiskWord, turn: int) -> Iterator[str]:
    """What is known about the change of a word of a drive in this turn."""
    machine = explorer.machine
    before, after = word.value(turn), word.value(turn + 1)
    yield f"turn {turn}: {word.name} goes from {before:06o} to {after:06o}"
    yield f"  by {functions_in_words(explorer, [turn], {})[turn]}"
    devices = machine.devices(turn)
    offset = word.index - devices.sector * SECTOR_WORDS
    if offset >= devices.word_count:
        yield "  the rest of a sector that was written is filled with zeros"
        return
    source = devices.bus_address + (0 if devices.stays else 2 * offset)
    last = machine.last(turn, source)
    wrote = f"last written in turn {last.turn} by the {last.writer}" if last else "never written"
    yield f"  from core {source:06o}, {wrote}"
