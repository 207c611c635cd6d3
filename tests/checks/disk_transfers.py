"""The completions of the disk, computed for lines.py from the registers of the devices before
each turn, the script and the delay of the disk, by the rules of the RK11."""
from typing import NamedTuple, Optional

from tests.checks.stored_systems import System

MOST_LINES = 256
READY, FUNCTION_CODE = 0o200, 0o16
FUNCTIONS = (
    "control-reset",
    "write",
    "read",
    "write-check",
    "seek",
    "read-check",
    "drive-reset",
    "write-lock",
)
TRANSFERS = {"write", "read", "write-check", "read-check"}
NAMES_A_SECTOR = TRANSFERS | {"seek"}
CYLINDERS, SECTORS_OF_TRACK, WORDS_OF_SECTOR, WORDS_OF_DRIVE = 203, 12, 256, 1247232
BUS_WORDS = 0o400000
NO_INCREMENT = 0o4000
# The bits of RKER.
DIFFERENT, NO_SECTOR, NO_CYLINDER, NO_DRIVE = 0o1, 0o40, 0o100, 0o200
NO_MEMORY, LOCKED, OVERRUN = 0o2000, 0o20000, 0o40000
REFUSING = NO_SECTOR | NO_CYLINDER | NO_DRIVE | LOCKED


class Controller(NamedTuple):
    """The disk's controller before a turn."""

    control: int
    word_count: int
    bus_address: int
    disk_address: int

    @property
    def is_busy(self) -> bool:
        return not self.control & READY

    @property
    def function(self) -> str:
        return FUNCTIONS[(self.control & FUNCTION_CODE) >> 1]

    @property
    def address(self) -> int:
        """The bus address of 18 bits."""
        return (self.control >> 4 & 3) << 16 | self.bus_address

    @property
    def drive(self) -> int:
        return self.disk_address >> 13

    @property
    def first_word(self) -> int:
        """The number on its drive of the first word of the sector that RKDA names."""
        track = (self.disk_address >> 5 & 0o377) * 2 + (self.disk_address >> 4 & 1)
        return (track * SECTORS_OF_TRACK + (self.disk_address & 0o17)) * WORDS_OF_SECTOR


def controller(system: System, turn: int) -> Controller:
    words = system.reply(f"devices {turn}").split()[1:]
    found = {name: int(word, 8) for name, word in zip(words[::2], words[1::2])}
    return Controller(*(found.get(it, READY) for it in ("RKCS", "RKWC", "RKBA", "RKDA")))


class Done(NamedTuple):
    """What a function came to: how many words, and RKER."""

    words: int
    errors: int


class Disk:
    """The completions of a system's turns, in their order."""

    def __init__(self, system: System) -> None:
        self.system = system
        self.events = {it.turn for it in system.followed.events if it.what == "disk"}
        self.delay = system.followed.delays["disk"]
        self.locked: set[int] = set()
        self.idle: list[int] = []
        self.found: dict[int, tuple[Controller, Done]] = {}
        for turn in system.turns[:-1]:
            self.turn(turn)

    def turn(self, turn: int) -> None:
        now = controller(self.system, turn)
        if now.is_busy and (turn in self.events or turn == self.due()):
            self.found[turn] = now, self.done(turn, now)
        if not now.is_busy or turn in self.found:
            self.idle.append(turn)

    def due(self) -> Optional[int]:
        """The turn in which the function under way completes by itself, if it does."""
        return self.idle[-1] + self.delay if self.delay and self.idle else None

    def done(self, turn: int, now: Controller) -> Done:
        refused = self.refused(now)
        if refused or now.function not in TRANSFERS:
            if now.function == "write-lock" and not refused:
                self.locked.add(now.drive)
            return Done(0, refused)
        asked = 0o200000 - now.word_count
        left = WORDS_OF_DRIVE - now.first_word
        core, first = self.system.core_bytes // 2, now.address // 2 % BUS_WORDS
        within = max(core - first, 0)
        if now.function == "read-check" or now.control & NO_INCREMENT and first < core:
            within = asked
        words = min(asked, left, within)
        stopped = 0 if words == asked else OVERRUN if words == left else NO_MEMORY
        return Done(words, stopped | self.differs(turn, now, words))

    def refused(self, now: Controller) -> int:
        cylinder, sector = now.disk_address >> 5 & 0o377, now.disk_address & 0o17
        names_sector = now.function in NAMES_A_SECTOR
        if now.drive >= (8 if self.system.version == 2 else 1):
            return NO_DRIVE
        if names_sector and cylinder >= CYLINDERS:
            return NO_CYLINDER
        if names_sector and sector >= SECTORS_OF_TRACK:
            return NO_SECTOR
        return LOCKED if now.function == "write" and now.drive in self.locked else 0

    def differs(self, turn: int, now: Controller, words: int) -> int:
        """The bit of a write check that finds words that differ."""
        if now.function != "write-check":
            return 0
        step = 0 if now.control & NO_INCREMENT else 1
        for i in range(words):
            core = self.system.core_in_page(turn, 2 * (now.address // 2 + i * step))
            if core != self.system.drive_in_sector(turn, now.drive, now.first_word + i):
                return DIFFERENT
        return 0

    def line(self, turn: int, after: int) -> str:
        """The line of the completion in a turn, of a search from another on."""
        now, done = self.found[turn]
        begun = [it for it in self.idle if after <= it < turn][-1:]
        return (
            f"{turn} {begun[0] if begun else 'before'} {now.function} {now.drive} "
            f"{now.first_word:07o} {now.address & ~1:06o} {done.words} {done.errors:06o}"
        )


def transfers(system: System, words: list[str]) -> str:
    after, before = map(int, words)
    if after > before:
        return "refused 8 CountOutOfRange"
    disk = Disk(system)
    turns = [it for it in disk.found if after <= it < before]
    is_cut = len(turns) >= MOST_LINES and turns[MOST_LINES - 1] + 1 < before
    shown = [disk.line(it, after) for it in turns[:MOST_LINES]]
    return "\n".join([f"transfers {len(shown)}" + " or more" * is_cut, *shown])
