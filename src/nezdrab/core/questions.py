"""Questions about a machine, as values: `Machine.ask` asks one of them, `Machine.ask_all` and
`Machine.sweep` many, which are sent ahead. Each function here is a line of docs/LANGUAGE.md, and a
method of Machine asks it at once: `m.regs(40)` is `m.ask(questions.regs(40))`.

A turn is the number of turns since power-up, from 0 to 1,000,000,000 (LAST_TURN): a question about
turn N is about the machine before it. An address counts bytes, and is a number or the name of a
symbol, as "BUF" or "BUF+2" (octal). A word is a number from 0 to 0o177777. A range of turns goes
from `since` on and ends before `until`.

A question is refused, as Refused, by the rules of docs/LANGUAGE.md: a turn above LAST_TURN (7), a
count that isn't permitted (8), an address outside core (2) or odd (3), and so on. A number that
isn't whole is a TypeError, and an unknown symbol a NezdrabError, both when the question is asked.
"""
from __future__ import annotations

import operator
from array import array
from typing import Any, Callable, Generic, Optional, Sequence, SupportsIndex, TypeVar, Union

from . import sessions
from .engine import LAST_TURN, MOST_TURNS_OF_A_TRAIL, MOST_WORDS, Machine as Engine
from .errors import ExploreError
from .found import Found, Transfer, readable
from .language import STEPS, is_edit
from .moves_of_turns import TurnMoves, moves_of
from .past import Event, Setup
from .replies import Devices, LastWrite, Mode, Pages, Registers, Turn, TurnAccesses, WordRead
from .replies import accesses_of, listed, text_of, turns_of, words_of
from .values import dataclass

Answer = TypeVar("Answer")
Item = TypeVar("Item")
Address = Union[int, SupportsIndex, str]
ModeName = Union[Mode, str]
# What gives the number of an address, whose name is one of a mode if there is a mode.
Numbers = Callable[[Address, Optional[Mode]], int]


@dataclass(frozen=True)
class Question(Generic[Answer]):
    """The lines of a question, and what their replies are. It is of no machine."""

    lines: Callable[[Numbers], Sequence[str]]
    read: Callable[[Sequence[str]], Answer]


def decimal(number: SupportsIndex) -> str:
    return str(operator.index(number))


def octal(number: SupportsIndex) -> str:
    return f"{operator.index(number):o}"


def one(line: str, read: Callable[[str], Answer]) -> Question[Answer]:
    """The question of one line."""
    return Question(lambda _: [line], lambda replies: read(replies[0]))


def at_address(
    make: Callable[[str], str], address: Address, read: Callable[[str], Answer]
) -> Question[Answer]:
    """The question of one line that `make` makes of an address in octal."""
    return Question(lambda number: [make(octal(number(address, None)))], lambda it: read(it[0]))


def in_words(replies: Sequence[str]) -> array[int]:
    return array("H", [word for reply in replies for word in words_of(reply)])


def parts_of(count: SupportsIndex) -> list[tuple[int, int]]:
    """How far in each part begins of this number of words, and its words. A count that the program
    refuses is one part."""
    words = operator.index(count)
    parts = [(at, min(MOST_WORDS, words - at)) for at in range(0, words, MOST_WORDS)]
    return parts or [(0, words)]


def count_fault(line: str, reply: str) -> str:
    """Why a count was refused, if the question is one that is asked in parts: its count may be more
    than that of a line."""
    if not reply.startswith("refused 8 "):
        return ""
    word, turn, *_, count = line.split()
    if word in ("mem", "dsk") and int(count) == 0:
        return "the count is 1 or more"
    if word in ("trail", "accesses", "moves") and not 0 < int(count) <= int(turn):
        return "the count is 1 or more, and no more than the turn"
    return ""


def of_drive(drive: Optional[SupportsIndex]) -> str:
    return "" if drive is None else f"{octal(drive)} "


def turn_or_none(reply: str) -> Optional[int]:
    word = reply.split()[1]
    return None if word == "none" else int(word)


def all_of(of: Callable[[str], Item]) -> Callable[[str], Found[Item]]:
    """What a reply lists, a line each, and whether that is all."""

    def read(reply: str) -> Found[Item]:
        lines, is_all = listed(reply)
        return Found(list(map(of, lines)), is_all)

    return read


def octal_of(word: str) -> int:
    return int(word, 8)


def line(text: str) -> Question[str]:
    """A line of the language that asks; its answer is the reply, without its last line feed."""
    if is_edit(text):
        raise ExploreError(f"{text}: an edit is no question; Machine.edit makes it")
    if sessions.first_word(text) in STEPS:
        raise ExploreError(f"{text}: this is no question")
    if not sessions.has_reply(text.encode(errors="surrogateescape")):
        raise ExploreError(f"{text!r} is no line that gets a reply")
    return one(text, str)


def question_of(asked: object) -> Question[Any]:
    """A question, or that of a line. A TypeError if it is neither."""
    if isinstance(asked, str):
        return line(asked)
    if not isinstance(asked, Question):
        raise TypeError(f"{asked!r} is no question and no line")
    return asked


def regs(turn: SupportsIndex) -> Question[Registers]:
    """The registers of the processor: `.r0` to `.r5`, `.ksp`, `.usp`, `.sp`, `.pc`, `.ps`, the
    `.mode`, and the `.state`, which is run, wait or halted."""
    return one(f"regs {decimal(turn)}", Registers.of)


def mem(turn: SupportsIndex, address: Address, count: SupportsIndex = 1) -> Question[array[int]]:
    """`count` words of core from the address on, an address of core and not of a mode: an array
    whose memory numpy.frombuffer(words, "u2") takes as it is. All of core are 126,976 words."""

    def lines(number: Numbers) -> list[str]:
        begin = number(address, None)
        parts = parts_of(count)
        return [f"mem {decimal(turn)} {octal(begin + 2 * at)} {size}" for at, size in parts]

    return Question(lines, in_words)


def dsk(
    turn: SupportsIndex,
    index: SupportsIndex,
    count: SupportsIndex = 1,
    *,
    drive: Optional[SupportsIndex] = None,
) -> Question[array[int]]:
    """`count` words of the drive, or in version 2 of this drive, from word `index` on, as `mem`
    gives them."""
    before, begin = f"dsk {decimal(turn)} {of_drive(drive)}", operator.index(index)
    lines = [f"{before}{octal(begin + at)} {size}" for at, size in parts_of(count)]
    return Question(lambda _: lines, in_words)


def text(turn: SupportsIndex, begin: SupportsIndex = 0) -> Question[bytes]:
    """The bytes that were printed on the console, from byte `begin` on."""
    return one(f"text {decimal(turn)} from {decimal(begin)}", text_of)


def punched(turn: SupportsIndex, begin: SupportsIndex = 0) -> Question[bytes]:
    """The bytes that were punched, from byte `begin` on."""
    return one(f"punched {decimal(turn)} from {decimal(begin)}", text_of)


def last(turn: SupportsIndex, address: Address) -> Question[Optional[LastWrite]]:
    """The last write of a word of core: its `.turn`, the `.writer`, cpu or disk, and the `.word`.
    None if it was never written; an image and a patch are no writes."""
    return at_address(lambda it: f"last {decimal(turn)} {it}", address, LastWrite.of)


def devices(turn: SupportsIndex) -> Question[Devices]:
    """The registers of the devices, as `answer["RKCS"]`."""
    return one(f"devices {decimal(turn)}", Devices.of)


def pages(turn: SupportsIndex) -> Question[Pages]:
    """The registers of memory management."""
    return one(f"pages {decimal(turn)}", Pages.of)


def trail(turn: SupportsIndex, count: SupportsIndex) -> Question[list[Turn]]:
    """The last `count` turns before this one, in their order: `.turn`, `.pc`, the `.act`, and of
    an interrupt the `.vector`."""
    end, turns = operator.index(turn), operator.index(count)
    is_long = MOST_TURNS_OF_A_TRAIL < turns <= end
    lines = Engine.trail_lines(end - turns, turns) if is_long else [f"trail {end} {turns}"]
    return Question(lambda _: lines, lambda it: [turn for reply in it for turn in turns_of(reply)])


def accesses(turn: SupportsIndex, count: SupportsIndex = 1) -> Question[Found[TurnAccesses]]:
    """What the last 1 to 64 turns before this one have in them, each cycle of the processor on the
    bus too: all these turns, or the first of them that have at most 256 cycles. Machine.accesses
    gives all."""
    line = f"accesses {decimal(turn)} {decimal(count)}"
    return one(line, lambda reply: Found(*accesses_of(reply)))


def moves(turn: SupportsIndex, count: SupportsIndex = 1) -> Question[list[TurnMoves]]:
    """What the last 1 to 64 turns before this one make of what. Machine.moves takes any count."""
    return one(f"moves {decimal(turn)} {decimal(count)}", moves_of)


def condition_in_numbers(where: str, number: Numbers) -> str:
    """A CONDITION with a number for each name of an address in it."""
    words = sessions.words_of(where)
    pairs = zip(["", *words], words)
    is_address = [before in sessions.BEFORE_ADDRESS for before, _ in pairs]
    return " ".join(
        octal(number(word, None)) if at else word for at, word in zip(is_address, words)
    )


@dataclass(frozen=True)
class Sought:
    """What `first` and `latest` look for. One of the four is given."""

    pc: Optional[Address]
    mode: Optional[ModeName]
    vector: Optional[SupportsIndex]
    trap: Optional[SupportsIndex]
    where: Optional[str]

    def __post_init__(self) -> None:
        given = [it for it in (self.pc, self.vector, self.trap, self.where) if it is not None]
        if len(given) != 1:
            raise TypeError("one of pc, vector, trap and where says what is looked for")
        if self.mode is not None and self.pc is None:
            raise TypeError("a mode belongs to a pc; where='kernel' looks for a mode")

    def words(self, number: Numbers) -> str:
        mode = None if self.mode is None else Mode(self.mode)
        if self.pc is not None:
            in_mode = f" {mode.value}" if mode else ""
            return f"at {octal(number(self.pc, mode))}{in_mode}"
        if self.where is not None:
            return f"where {condition_in_numbers(self.where, number)}"
        if self.vector is not None:
            return f"vector {octal(self.vector)}"
        return f"trap {octal(self.trap or 0)}"


def found_by(line: str, sought: Sought) -> Question[Optional[int]]:
    """The question of a line that goes on with what is looked for."""
    return Question(
        lambda number: [f"{line} {sought.words(number)}"], lambda it: turn_or_none(it[0])
    )


def first(
    *,
    pc: Optional[Address] = None,
    mode: Optional[ModeName] = None,
    vector: Optional[SupportsIndex] = None,
    trap: Optional[SupportsIndex] = None,
    where: Optional[str] = None,
    since: SupportsIndex = 0,
    until: SupportsIndex = LAST_TURN,
) -> Question[Optional[int]]:
    """The first turn of the range, or None: the one that runs the instruction at `pc`, a virtual
    address, in any mode or in this one; that is an interrupt by a vector, or has a trap through it;
    or before which a CONDITION of the language holds, such as "R0 = 5 and user". Without `until`
    the search goes on to the end of the run, which may take many seconds."""
    sought = Sought(pc, mode, vector, trap, where)
    turns = f"{decimal(since)} {decimal(until)}"
    return found_by(f"first {turns}", sought)


def latest(
    *,
    until: SupportsIndex,
    pc: Optional[Address] = None,
    mode: Optional[ModeName] = None,
    vector: Optional[SupportsIndex] = None,
    trap: Optional[SupportsIndex] = None,
    where: Optional[str] = None,
    since: SupportsIndex = 0,
) -> Question[Optional[int]]:
    """As `first`, the last turn of the range. The search goes back from `until`."""
    sought = Sought(pc, mode, vector, trap, where)
    turns = f"{decimal(since)} {decimal(until)}"
    return found_by(f"latest {turns}", sought)


def counts(
    mode: ModeName,
    address: Address,
    count: SupportsIndex = 1,
    *,
    until: SupportsIndex,
    since: SupportsIndex = 0,
) -> Question[list[int]]:
    """How many turns of the range run the instruction at each of 1 to 256 words from a virtual
    address on, in this mode."""
    named, turns = Mode(mode), f"{decimal(since)} {decimal(until)}"
    return Question(
        lambda number: [
            f"counts {turns} {named.value} {octal(number(address, named))} {decimal(count)}"
        ],
        lambda replies: [int(it) for it in replies[0].split()[1:]],
    )


def writes(
    address: Address, *, until: SupportsIndex, since: SupportsIndex = 0
) -> Question[Found[LastWrite]]:
    """The turns of the range that write a word of core, the first 256 of them or some more; of a
    turn that writes it more than once the last write. Machine.writes gives all."""
    turns = f"{decimal(since)} {decimal(until)}"
    return at_address(lambda it: f"writes {turns} {it}", address, all_of(LastWrite.of_line))


def reads(
    address: Address, *, until: SupportsIndex, since: SupportsIndex = 0
) -> Question[Found[WordRead]]:
    """The turns of the range that read a word of core, the first 256 of them or some more; of a
    turn that reads it more than once the first read. Machine.reads gives all."""
    turns = f"{decimal(since)} {decimal(until)}"
    return at_address(lambda it: f"reads {turns} {it}", address, all_of(WordRead.of))


def transfers(*, until: SupportsIndex, since: SupportsIndex = 0) -> Question[Found[Transfer]]:
    """The functions of the disk that are done in the range, the first 256 of them or some more.
    Machine.transfers gives all."""
    return one(f"transfers {decimal(since)} {decimal(until)}", all_of(Transfer.of))


def change(
    index: SupportsIndex,
    *,
    drive: Optional[SupportsIndex] = None,
    since: SupportsIndex = 0,
    until: SupportsIndex = LAST_TURN,
) -> Question[Optional[int]]:
    """The first turn of the range that changes a word of the drive, or None. Machine.changes gives
    all."""
    turns = f"{decimal(since)} {decimal(until)}"
    return one(f"change {turns} {of_drive(drive)}{octal(index)}", turn_or_none)


def when(byte: SupportsIndex) -> Question[Optional[int]]:
    """The turn in which this byte of the text was printed, counted from 0, or None. The run goes on
    to that turn, or to its end, which may take many seconds."""
    return one(f"when {decimal(byte)}", turn_or_none)


def translate(turn: SupportsIndex, mode: ModeName, address: Address) -> Question[int]:
    """The physical address, in bytes, of a virtual one for a read in this mode. Unreadable if the
    read aborts."""
    named = Mode(mode)
    return Question(
        lambda it: [f"translate {decimal(turn)} {named.value} {octal(it(address, named))}"],
        lambda replies: int(readable(replies[0]).split()[1], 8),
    )


def virtual(
    turn: SupportsIndex, mode: ModeName, address: Address, count: SupportsIndex = 1
) -> Question[array[int]]:
    """1 to 256 words as an instruction of this mode would read them from a virtual address on.
    Unreadable if one of them can't be read: its page aborts, no memory replies, or it is the
    register of a device, which isn't read since that may change it."""
    named = Mode(mode)
    return Question(
        lambda it: [
            f"virtual {decimal(turn)} {named.value} {octal(it(address, named))} {decimal(count)}"
        ],
        lambda replies: in_words([readable(replies[0])]),
    )


def masked(mask: Optional[SupportsIndex]) -> str:
    return "" if mask is None else f" mask {octal(mask)}"


def find(
    turn: SupportsIndex,
    begin: Address,
    end: Address,
    word: SupportsIndex,
    *,
    mask: Optional[SupportsIndex] = None,
) -> Question[Found[int]]:
    """The addresses of the words of core from `begin` to `end`, that one too, that are this word,
    or agree with it in the bits of the mask: the first 256 of them. Machine.find gives all."""
    what = f"{octal(word)}{masked(mask)}"

    def lines(number: Numbers) -> list[str]:
        ends = f"{octal(number(begin, None))} {octal(number(end, None))}"
        return [f"find {decimal(turn)} {ends} {what}"]

    return Question(lines, lambda replies: all_of(octal_of)(replies[0]))


def finddsk(
    turn: SupportsIndex,
    begin: SupportsIndex,
    end: SupportsIndex,
    word: SupportsIndex,
    *,
    mask: Optional[SupportsIndex] = None,
    drive: Optional[SupportsIndex] = None,
) -> Question[Found[int]]:
    """As `find`, the numbers of words of the drive. Machine.finddsk gives all."""
    ends = f"{octal(begin)} {octal(end)}"
    before = f"finddsk {decimal(turn)} {of_drive(drive)}"
    return one(f"{before}{ends} {octal(word)}{masked(mask)}", all_of(octal_of))


def fades(turn: SupportsIndex, edit: str) -> Question[Optional[int]]:
    """The first turn, up to this one, from which on the run with an edit, a line of core, disk,
    at, alter or drop, would be the run as it is; None if there is none. The edit isn't made."""
    return one(f"fades {decimal(turn)} {edit}", turn_or_none)


def events() -> Question[list[Event]]:
    """The events of the script in their order: `.number`, `.turn` and `.text`."""
    return one("events", lambda reply: [Event.of(it) for it in reply.splitlines()[1:]])


def setup() -> Question[Setup]:
    """The `.version`, the `.units` of core, 4,096 words each, the `.start` address, and the
    `.delays` of the devices in turns."""
    return one("setup", Setup.of)


def patches() -> Question[list[str]]:
    """The patches, as lines of the language."""
    return one("patches", lambda reply: reply.splitlines()[1:])
