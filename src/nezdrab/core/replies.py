"""The replies of the session language as types with names."""
import codecs
from enum import Enum
from typing import Optional

from .hardware import INTERRUPTS, SECTORS, SURFACES
from .values import dataclass


class Mode(Enum):
    """The mode of the processor, bits 15-14 of PS."""

    KERNEL = "kernel"
    MODE_01 = "01"
    MODE_10 = "10"
    USER = "user"

    @classmethod
    def current(cls, ps: int) -> "Mode":
        return MODES[ps >> 14 & 3]

    @classmethod
    def previous(cls, ps: int) -> "Mode":
        return MODES[ps >> 12 & 3]


MODES = tuple(Mode)  # by the two bits


def named_words(fields: list[str]) -> dict[str, int]:
    """The words of a reply such as `R0 000005 R1 000000 ..`, by their names."""
    return {name: int(word, 8) for name, word in zip(fields[::2], fields[1::2])}


def hash_of(it: object) -> int:
    """The hash of what has tables and lists in it, which have none. Nobody changes them."""
    fields = (
        frozenset(part.items()) if isinstance(part, dict)
        else tuple(part) if isinstance(part, list)
        else part
        for part in vars(it).values()
    )
    return hash(tuple(fields))


class Register:
    """A register of the processor among the others, as `answer.r0`."""

    def __init__(self, name: str):
        self.name = name

    def __get__(self, registers: "Registers", of: type) -> int:
        return registers.words[self.name]


@dataclass(frozen=True)
class Registers:
    """The reply of `regs`."""

    words: dict[str, int]
    state: str

    r0, r1, r2, r3, r4, r5 = map(Register, ("R0", "R1", "R2", "R3", "R4", "R5"))
    ksp, usp, pc, ps = map(Register, ("KSP", "USP", "PC", "PS"))
    __hash__ = hash_of

    @classmethod
    def of(cls, reply: str) -> "Registers":
        fields = reply.split()
        return cls(named_words(fields[:-1]), fields[-1])

    def __getitem__(self, name: str) -> int:
        return self.words[name]

    @property
    def sp(self) -> int:
        """R6 of the mode; each mode without one of its own has that of the kernel."""
        return self.usp if self.mode is Mode.USER else self.ksp

    @property
    def mode(self) -> Mode:
        return Mode.current(self.ps)

    @property
    def priority(self) -> int:
        return self.ps >> 5 & 7

    def status(self) -> str:
        """PS in words, such as `kernel, previous user, priority 4, .Z.C`."""
        codes = "".join(
            name if self.ps >> bit & 1 else "." for name, bit in zip("NZVC", (3, 2, 1, 0))
        )
        trace = ", T" if self.ps >> 4 & 1 else ""
        previous = Mode.previous(self.ps).value
        return f"{self.mode.value}, previous {previous}, priority {self.priority}{trace}, {codes}"


class DiskFunction(Enum):
    """The function in bits 3-1 of RKCS."""

    CONTROL_RESET = 0
    WRITE = 1
    READ = 2
    WRITE_CHECK = 3
    SEEK = 4
    READ_CHECK = 5
    DRIVE_RESET = 6
    WRITE_LOCK = 7

    @property
    def title(self) -> str:
        return self.name.lower().replace("_", " ")


KEY_WAITS, DISK_READY = 0o200, 0o200


@dataclass(frozen=True)
class Devices:
    """The reply of `devices`."""

    words: dict[str, int]

    __hash__ = hash_of

    @classmethod
    def of(cls, reply: str) -> "Devices":
        return cls(named_words(reply.split()[1:]))

    def __getitem__(self, name: str) -> int:
        return self.words[name]

    @property
    def key_waits(self) -> bool:
        return bool(self.words["TKS"] & KEY_WAITS)

    @property
    def disk_is_ready(self) -> bool:
        return bool(self.words["RKCS"] & DISK_READY)

    @property
    def function(self) -> DiskFunction:
        return DiskFunction(self.words["RKCS"] >> 1 & 7)

    @property
    def bus_address(self) -> int:
        return (self.words["RKCS"] & 0o60) << 12 | self.words["RKBA"] & 0o177776

    @property
    def word_count(self) -> int:
        return 0o200000 - self.words["RKWC"]

    @property
    def stays(self) -> bool:
        """Bit 11 of RKCS: the bus address doesn't grow."""
        return bool(self.words["RKCS"] >> 11 & 1)

    @property
    def drive(self) -> int:
        return self.words["RKDA"] >> 13

    @property
    def sector(self) -> int:
        """The sector's number, from 0 on."""
        address = self.words["RKDA"]
        track = (address >> 5 & 0o377) * SURFACES + (address >> 4 & 1)
        return track * SECTORS + (address & 0o17)


SPACES = {Mode.KERNEL: "K", Mode.USER: "U"}


@dataclass(frozen=True)
class Pages:
    """The reply of `pages`."""

    sr0: int
    sr2: int
    descriptors: dict[Mode, tuple[int, ...]]
    addresses: dict[Mode, tuple[int, ...]]

    __hash__ = hash_of

    @classmethod
    def of(cls, reply: str) -> "Pages":
        fields = reply.split()

        def words(name: str, count: int) -> tuple[int, ...]:
            at = fields.index(name) + 1
            return tuple(int(word, 8) for word in fields[at : at + count])

        descriptors = {mode: words(f"{it}PDR", 8) for mode, it in SPACES.items()}
        addresses = {mode: words(f"{it}PAR", 8) for mode, it in SPACES.items()}
        return cls(words("SR0", 1)[0], words("SR2", 1)[0], descriptors, addresses)


@dataclass(frozen=True)
class LastWrite:
    """The reply of `last`, unless it is `last never`."""

    turn: int
    writer: str
    word: int

    @classmethod
    def of(cls, reply: str) -> Optional["LastWrite"]:
        fields = reply.split()
        if fields[1] == "never":
            return None
        return cls.of_line(" ".join(fields[1:]))

    @classmethod
    def of_line(cls, line: str) -> "LastWrite":
        """A line of the reply of `writes`."""
        turn, writer, word = line.split()
        return cls(int(turn), writer, int(word, 8))


@dataclass(frozen=True)
class WordRead:
    """A turn that reads a word of core: the reader is cpu or disk, and the word is what it read."""

    turn: int
    reader: str
    word: int

    @classmethod
    def of(cls, line: str) -> "WordRead":
        """A line of the reply of `reads`."""
        turn, reader, word = line.split()
        return cls(int(turn), reader, int(word, 8))


INSTRUCTION, INTERRUPT, IDLE = "instr", "irq", "idle"


@dataclass(frozen=True)
class Turn:
    """A line of the reply of `trail`. The vector is that of an interrupt."""

    turn: int
    pc: int
    act: str
    vector: Optional[int]

    @classmethod
    def of(cls, line: str) -> "Turn":
        turn, pc, act, *vector = line.split()
        return cls(int(turn), int(pc, 8), act, int(vector[0], 8) if vector else None)

    def line(self) -> str:
        """The line of the trail."""
        vector = "" if self.vector is None else f" {self.vector:03o}"
        return f"{self.turn} {self.pc:06o} {self.act}{vector}"

    def interrupt(self) -> str:
        vector = self.vector or 0
        return f"interrupt {vector:03o} {INTERRUPTS.get(vector, '')}".rstrip()


class CycleKind(Enum):
    """What the processor asks for in a cycle on the bus: BYTE is the write of a byte."""

    READ = "read"
    WRITE = "write"
    BYTE = "byte"


CYCLES, TIMEOUT = {it.value: it for it in CycleKind}, "timeout"


@dataclass(frozen=True)
class BusCycle:
    """A cycle of the processor on the bus: its `kind`, the physical `address` in bytes, whether it
    `is_core` that has it, and the word or the byte that was read or written: the `value`, which is
    None if nothing has the address."""

    kind: CycleKind
    address: int
    is_core: bool
    value: Optional[int]

    @classmethod
    def of(cls, line: str) -> "BusCycle":
        kind, *place, address, value = line.split()
        word = None if value == TIMEOUT else int(value, 8)
        return cls(CYCLES[kind], int(address, 8), bool(place), word)

    def line(self) -> str:
        """The line of the reply."""
        value = TIMEOUT if self.value is None else f"{self.value:06o}"
        return f"{self.kind.value} {'core ' * self.is_core}{self.address:06o} {value}"


@dataclass(frozen=True)
class TurnAccesses:
    """What a turn has in it, by the reply of `accesses`: the `turn` as a trail has it, the `mode`
    before it, its `events` as lines of the script, the bytes that are `printed` and `punched`, the
    function of the disk that is `done`, as `transfers` shows it from its name on, and the
    `cycles` of the processor on the bus, in their order."""

    turn: Turn
    mode: Mode
    events: list[str]
    printed: bytes
    punched: bytes
    done: Optional[str]
    cycles: list[BusCycle]

    __hash__ = hash_of

    @classmethod
    def of(cls, lines: list[str]) -> "TurnAccesses":
        head, *others = lines
        number, mode, rest = head.split(" ", 2)
        rows: dict[str, list[str]] = {"event": [], "printed": [], "punched": [], "disk": []}
        cycles: list[BusCycle] = []
        for line in others:
            kind, _, row = line.partition(" ")
            if kind in CYCLES:
                cycles.append(BusCycle.of(line))
            else:
                rows[kind].append(row)
        events, *out, done = rows.values()
        printed, punched = (bytes(int(it, 8) for it in part) for part in out)
        named = Turn.of(f"{number} {rest}"), Mode(mode), events, printed, punched
        return cls(*named, next(iter(done), None), cycles)


def accesses_of(reply: str) -> tuple[list[TurnAccesses], bool]:
    """The turns of a reply of `accesses`, and whether they are all that were asked about."""
    lines, is_all = listed(reply)
    parts: list[list[str]] = []
    for line in lines:
        if line[0].isdigit():
            parts.append([])
        parts[-1].append(line)
    return [TurnAccesses.of(it) for it in parts], is_all


def listed(reply: str) -> tuple[list[str], bool]:
    """The lines of a reply that lists what was found, without its first line, and whether they are
    all: after 256 it says `or more`."""
    head, *lines = reply.splitlines()
    return lines, len(head.split()) == 2


def words_of(reply: str) -> list[int]:
    """The words of a reply of `mem` or `dsk`."""
    return [int(word, 8) for word in reply.split()[1:]]


def turns_of(reply: str) -> list[Turn]:
    return [Turn.of(line) for line in reply.splitlines()[1:]]


def text_of(reply: str) -> bytes:
    """The bytes of a reply of `text` or `punched`: a backslash and three octal digits are one."""
    return codecs.decode(reply.partition(":")[2], "unicode_escape").encode("latin-1")
