"""Where the references of a turn go: words of core, physical addresses, and which turns trap. All
that is asked of the program for the rules of data stands here."""
import itertools
import re
from typing import Iterator, NamedTuple, Optional, Sequence

from ..core.engine import SHORT_SENT_AHEAD, Machine
from ..core.errors import ExploreError
from ..core.found import Transfer
from ..core.hardware import IO_PAGE, OPERAND_TRAPS
from ..core.replies import MODES, Devices, Mode, Pages, Turn, listed, turns_of, words_of
from ..core.values import dataclass, field
from .transfers import DiskMove

BLOCK = 0o100  # the bytes of a block, which mapping moves as one
SR0, RESERVED = 0o777572, 0o10
REGS = re.compile(
    rb"R0 (\d+) R1 (\d+) R2 (\d+) R3 (\d+) R4 (\d+) R5 (\d+)"
    rb" KSP (\d+) USP (\d+) PC (\d+) PS (\d+) (\w+)"
)
PC_AT, PS_AT = 8, 9
TURNS_AT_ONCE, FEW_TURNS = 1024, 160
KERNEL, USER = MODES.index(Mode.KERNEL), MODES.index(Mode.USER)
MODE_OF_MAPPING = {0o7723: KERNEL, 0o7776: USER}  # by the upper digits of the registers' addresses
BLOCKS_OF_A_PAGE, BLOCKS_OF_A_SPACE = 0o200, 0o2000


class NotFollowed(ExploreError):
    """A turn does what these rules don't tell."""


class RegisterWords(NamedTuple):
    """The registers before a turn: R0 to R5, KSP and USP, and PC and PS."""

    words: tuple[int, ...]
    pc: int
    ps: int
    is_halted: bool = False


class Seen(NamedTuple):
    """A turn with the registers before and after it."""

    act: Turn
    before: RegisterWords
    after: RegisterWords


@dataclass
class SeenPart:
    """Turns that follow one another, with what is asked of them together. `blocks` has the physical
    addresses under the mapping before the first turn, as far as they are known; `done` the
    functions of the disk, if they are known; `words` the words of the code that runs, and of
    vectors."""

    turns: range
    seen: list[Seen]
    blocks: dict[int, Optional[int]]
    is_disk_ready: bool  # before the first turn
    done: Optional[list[Transfer]]
    words: dict[int, int] = field(default_factory=dict)

    def code(self) -> dict[int, tuple[int, int]]:
        """The blocks of these words, as mode and number, by their keys."""
        code = {(it.before.ps >> 14, it.before.pc // BLOCK) for it in self.seen}
        vectors = (it.act.vector for it in self.seen)
        code |= {(KERNEL, it // BLOCK) for it in (*OPERAND_TRAPS, *vectors) if it is not None}
        return {mode * BLOCKS_OF_A_SPACE + block: (mode, block) for mode, block in sorted(code)}


def rows_in(replies: bytes) -> Iterator[RegisterWords]:
    for found in REGS.finditer(replies):
        *digits, state = found.groups()
        words = tuple([int(it, 8) for it in digits])
        yield RegisterWords(words[:PC_AT], words[PC_AT], words[PS_AT], state == b"halted")


def trap_of(machine: Machine, turn: int) -> Optional[int]:
    """The vector of the trap that a turn has, if it has one that its instruction's word doesn't
    tell."""
    replies = machine.read_all([f"first {turn} {turn + 1} trap {it:o}" for it in OPERAND_TRAPS])
    found = [it for it, reply in zip(OPERAND_TRAPS, replies) if reply.split()[1] != "none"]
    return found[0] if found else None


@dataclass
class Mappings:
    """The physical addresses of blocks, by what memory management has in its registers: a turn
    under a mapping that was met before needs no further question."""

    known: dict[str, dict[int, Optional[int]]] = field(default_factory=dict)

    def of(self, pages: str) -> dict[int, Optional[int]]:
        """Those under the mapping of this reply to `pages`."""
        is_on = Pages.of(pages).sr0 & 1
        return self.known.setdefault(pages[pages.index("KPDR") :] if is_on else "", {})


def parts_of(machine: Machine, mappings: Mappings, parts: Sequence[range]) -> list[SeenPart]:
    """What these parts do, which ascend."""
    numbers = [it for part in parts for it in range(part.start, part.stop + 1)]
    lines = [lines_of(machine, it) for it in parts]
    found, replied = asked_of(machine, numbers, [line for its in lines for line in its])
    registers, replies = iter(found), iter(replied)
    return [
        seen_part(
            mappings,
            part,
            list(itertools.islice(registers, len(part) + 1)),
            list(itertools.islice(replies, len(its))),
        )
        for part, its in zip(parts, lines)
    ]


def asked_of(
    machine: Machine, turns: Sequence[int], lines: Sequence[str]
) -> tuple[list[RegisterWords], list[str]]:
    """The registers before these turns, and the replies to the lines, asked together if the turns
    are few."""
    if len(turns) > FEW_TURNS:
        found = rows_in(b"\n".join(machine.rows([b"regs %d" % it for it in turns])))
        return list(found), list(machine.read_all(lines, SHORT_SENT_AHEAD))
    asked = [*(f"regs {it}" for it in turns), *lines]
    replies = list(machine.read_all(asked, SHORT_SENT_AHEAD))
    rows = "\n".join(replies[: len(turns)])
    return list(rows_in(rows.encode())), replies[len(turns) :]


def lines_of(machine: Machine, part: range) -> list[str]:
    """What is asked of a part besides registers. A single turn begins with no function of the disk
    done if the disk is ready before it."""
    done = [f"transfers {part.start} {part.stop}"] if len(part) > 1 else []
    trails = machine.trail_lines(part.start, len(part))
    return [f"pages {part.start}", f"devices {part.start}", *trails, *done]


def seen_part(
    mappings: Mappings, turns: range, registers: list[RegisterWords], replies: list[str]
) -> SeenPart:
    pages, devices, *trails = replies
    is_ready, is_all = Devices.of(devices).disk_is_ready, True
    done: list[str] = []
    if len(turns) > 1:
        done, is_all = listed(trails.pop())
    acts = (act for reply in trails for act in turns_of(reply))
    seen = [Seen(*it) for it in zip(acts, registers, registers[1:])]
    is_known = is_all and (is_ready or len(turns) > 1)
    functions = list(map(Transfer.of, done)) if is_known else None
    return SeenPart(turns, seen, mappings.of(pages), is_ready, functions)


@dataclass
class Space:
    """Words and physical addresses as a walk over the turns meets them. Words are asked once, and
    again after they are written; addresses again once mapping is."""

    machine: Machine
    turn: int = 0
    transfer: Optional[DiskMove] = None
    known: dict[int, int] = field(default_factory=dict)
    blocks: dict[int, Optional[int]] = field(default_factory=dict)
    stored: list[int] = field(default_factory=list)
    is_remapped: bool = False  # by the turn, up to here

    def __post_init__(self) -> None:
        self.top = self.machine.setup.core_end

    def begin(self, turn: int, transfer: Optional[DiskMove]) -> None:
        """The turn begins with this transfer, if any. What the turn before it wrote is forgotten,
        not earlier: words are asked before the turn."""
        for address in self.stored:
            self.known.pop(address, None)
        self.stored.clear()
        self.remap(self.blocks)
        self.turn = turn
        self.transfer = transfer if transfer is not None and transfer.is_read else None
        if self.transfer is not None:
            moved = self.transfer.in_core
            self.known = {at: word for at, word in self.known.items() if at not in moved}

    def prepare(self, parts: Sequence[SeenPart]) -> None:
        """Asks together for the blocks of code that these parts run."""
        new = {
            (id(part.blocks), key): (part, key, it)
            for part in parts
            for key, it in part.code().items()
            if key not in part.blocks
        }
        asked = [(it.turns[0], MODES[mode], at * BLOCK) for it, _, (mode, at) in new.values()]
        for (part, key, _), place in zip(new.values(), self.machine.places(asked)):
            part.blocks[key] = place
        firsts = [(part, first) for part in parts for first in self.unknown_code(part)]
        lines = [f"mem {part.turns[0]} {it:o} {BLOCK // 2}" for part, it in firsts]
        replies = self.machine.read_all(lines, SHORT_SENT_AHEAD)
        for (part, first), reply in zip(firsts, replies):
            part.words.update(zip(range(first, first + BLOCK, 2), words_of(reply)))

    def unknown_code(self, part: SeenPart) -> list[int]:
        """Where the blocks of core begin that the part runs, as far as they aren't known."""
        known = self.known if part.turns[0] == self.turn + 1 else {}
        begins = {begin for it in part.code() if (begin := part.blocks[it]) is not None}
        return sorted(it for it in begins if it < self.top and it not in known)

    def start(self, part: SeenPart) -> None:
        """The walk goes on at this part."""
        if part.turns[0] != self.turn + 1:
            self.known, self.transfer = {}, None
            self.stored.clear()
        self.known.update(part.words)
        self.blocks = part.blocks

    def remap(self, blocks: dict[int, Optional[int]]) -> None:
        """The mapping is as before the turn: these blocks are under it."""
        self.blocks, self.is_remapped = blocks, False

    def wrote(self, address: int) -> None:
        if address < IO_PAGE:
            self.stored.append(address & ~1)
        elif address & ~1 == SR0:
            self.blocks, self.is_remapped = {}, True
        elif address >> 6 in MODE_OF_MAPPING:
            self.is_remapped = True
            page = address >> 1 & 7
            first = MODE_OF_MAPPING[address >> 6] * BLOCKS_OF_A_SPACE + page * BLOCKS_OF_A_PAGE
            remapped = range(first, first + BLOCKS_OF_A_PAGE)
            self.blocks = {key: it for key, it in self.blocks.items() if key not in remapped}

    def reset(self) -> None:
        self.blocks = {}

    def word(self, address: int) -> int:
        """The word at a physical address, as the act of the turn finds it."""
        if address not in self.known:
            self.ask(address)
        return self.known[address]

    def ask(self, address: int) -> None:
        moved = self.transfer
        if moved is not None and address in moved.in_core:
            word = moved.drive_word(address)
            self.known[address] = self.machine.disk_word(self.turn, moved.drive, word)
            return
        if address >= self.top:
            raise NotFollowed(
                f"turn {self.turn} takes its code or a pointer from a register at {address:06o}:"
                " that isn't followed"
            )
        first = address - address % BLOCK
        words = self.machine.words(self.turn, first, BLOCK // 2)
        for at, word in enumerate(words):
            place = first + 2 * at
            if moved is None or place not in moved.in_core:
                self.known[place] = word

    def place(self, mode: int, address: int) -> Optional[int]:
        """The physical address for a read in a mode, or None if memory management aborts it. What
        the turn has written to mapping counts from its next reference on: it is asked after it."""
        key = mode * BLOCKS_OF_A_SPACE + address // BLOCK
        if key not in self.blocks:
            first = address - address % BLOCK
            asked = self.turn + self.is_remapped, MODES[mode], first
            (self.blocks[key],) = self.machine.places([asked])
        begin = self.blocks[key]
        return None if begin is None else begin + address % BLOCK

    def answers(self, mode: int, address: int, place: int) -> bool:
        """Whether anything on the bus answers to the physical address."""
        if place < IO_PAGE:
            return place < self.top
        named = MODES[mode if mode == USER else KERNEL].value
        reply = self.machine.read(f"virtual {self.turn} {named} {address & ~1:o} 1")
        return " timeout " not in reply
