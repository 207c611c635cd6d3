"""Words where they are: `dump`."""
import itertools
from functools import partial
from typing import Callable, Iterator, Optional, Sequence

from ..core.all_words import core_lines, drive_lines, words_in
from ..core.engine import MOST_WORDS, SHORT_SENT_AHEAD, Machine, in_parts
from ..core.errors import ExploreError
from ..core.hardware import DRIVE_WORDS
from ..core.language import is_decimal
from ..core.replies import Mode, words_of
from ..core.values import dataclass, field
from ..core.visible import in_text
from .command import Arguments, command
from .explorer import Explorer
from .listing import Listed

WORDS_OF_A_LINE, MOST_DUMPED, VIRTUAL_END = 8, 4_096, 0o200000
FAULTS = {
    "abort": "a read is aborted, {}",
    "timeout": "a read times out",
    "device": "a register, which isn't read",
}


@dataclass
class Words:
    """The words of some addresses. One that can't be read is None, and says why."""

    digits: int
    step: int
    words: dict[int, Optional[int]] = field(default_factory=dict)
    why: dict[int, str] = field(default_factory=dict)
    end: str = ""

    def unread(self) -> Iterator[str]:
        """Why words can't be read: a line for those that follow one another."""
        for reason, found in itertools.groupby(self.whys(), key=lambda it: it[1:]):
            places = [at for at, _, _ in found]
            first, last = (f"{it:0{self.digits}o}" for it in (places[0], places[-1]))
            yield f"{first if first == last else f'{first} to {last}'}: {reason[0]}"

    def whys(self) -> Iterator[tuple[int, str, int]]:
        """Each address without a word, why, and a number that those share which follow."""
        for number, (at, why) in enumerate(sorted(self.why.items())):
            yield at, why, at - self.step * number


def in_core(machine: Machine, turn: int, address: int, count: int) -> Words:
    top = machine.setup.core_end
    places, end = range(address, address + 2 * count, 2), f"core ends at {top - 2:06o}"
    return read_words(machine, 6, places, top, end, partial(core_lines, turn))


def on_disk(machine: Machine, turn: int, drive: int, index: int, count: int) -> Words:
    places, end = range(index, index + count), f"a drive ends at {DRIVE_WORDS - 1:07o}"
    lines = partial(drive_lines, machine, turn, drive)
    return read_words(machine, 7, places, DRIVE_WORDS, end, lines)


def read_words(
    machine: Machine,
    digits: int,
    places: range,
    top: int,
    end: str,
    lines: Callable[[range], list[str]],
) -> Words:
    """The words at these places, up to the end of what they are in."""
    there = range(places.start, min(places.stop, top), places.step)
    if not there:
        raise ExploreError(end)
    words: dict[int, Optional[int]] = dict(zip(there, words_in(machine.read_all(lines(there)))))
    return Words(digits, places.step, words, end=end if len(there) < len(places) else "")


def in_mode(machine: Machine, turn: int, mode: Mode, address: int, count: int) -> Words:
    """The words at virtual addresses. Where the program names one that can't be read, the words of
    that question are asked one by one."""
    if address >= VIRTUAL_END:
        raise ExploreError(f"the addresses of a program end at {VIRTUAL_END - 2:o}")
    found = Words(6, 2)
    there = range(address, min(address + 2 * count, VIRTUAL_END), 2)
    parts = list(in_parts(there, MOST_WORDS))
    asked = [f"virtual {turn} {mode.value} {it[0]:o} {len(it)}" for it in parts]
    for part, reply in zip(parts, list(machine.read_all(asked))):
        if is_read(reply):
            found.words.update(zip(part, words_of(reply)))
            continue
        singly = [f"virtual {turn} {mode.value} {it:o} 1" for it in part]
        for at, single in zip(part, machine.read_all(singly, SHORT_SENT_AHEAD)):
            found.words[at] = words_of(single)[0] if is_read(single) else None
            if not is_read(single):
                found.why[at] = fault_in_words(single)
    ends = f"the addresses end at {VIRTUAL_END - 2:o}"
    found.end = ends if len(there) < count else ""
    return found


def is_read(reply: str) -> bool:
    """Whether a reply of `virtual` has words, and no reason why it has none."""
    return is_decimal(reply.split()[1])


def fault_in_words(reply: str) -> str:
    """Why a word can't be read, of a reply such as `virtual abort length at 020000`."""
    kind, *more = reply.split()[1:-2]
    return FAULTS[kind].format(*more)


# How the words of a line are shown


def in_octal(words: Sequence[Optional[int]]) -> str:
    return " ".join("------" if it is None else f"{it:06o}" for it in words)


def in_bytes(
    words: Sequence[Optional[int]], shown: Callable[[int], str] = "{:03o}".format
) -> str:
    """The bytes in the order of their addresses."""
    unread = len(shown(0)) * "-"
    bytes_of = ((None, None) if it is None else (it & 0o377, it >> 8) for it in words)
    return " ".join(unread if it is None else shown(it) for pair in bytes_of for it in pair)


def as_text(words: Sequence[Optional[int]]) -> str:
    return in_bytes(words, lambda it: f"{in_text(it):>4}")


def as_numbers(words: Sequence[Optional[int]]) -> str:
    """A word in octal, in decimal without and with sign, and as two characters."""
    (word,) = words
    if word is None:
        return "------"
    signed = word - 0o200000 if word & 0o100000 else word
    return f"{word:06o}  {word:>5}  {signed:>6}  {as_text(words)}"


FORMATS: dict[str, Callable[[Sequence[Optional[int]]], str]] = {
    **{"octal": in_octal, "bytes": in_bytes, "text": as_text, "words": as_numbers}
}


def dumped(found: Words, how: str) -> Iterator[str]:
    """The lines of a dump, equal ones folded; the last one never is."""
    size = 1 if how == "words" else WORDS_OF_A_LINE
    places = list(found.words)
    before, is_folded = "", False
    for at in range(0, len(places), size):
        line = FORMATS[how]([found.words[it] for it in places[at : at + size]])
        if line == before and at + size < len(places):
            yield from [] if is_folded else ["*"]
            is_folded = True
            continue
        yield f"{places[at]:0{found.digits}o}  {line}"
        before, is_folded = line, False
    yield from found.unread()
    yield from [found.end] if found.end else []


@command(
    "dump [kernel|user] A C [octal|bytes|text|words|instructions] [at N]"
    "  or  dump disk [D] I C [octal|bytes|text|words] [at N]",
    r"((?P<kind>disk) ((?P<drive>[0-7]) )?<index:octal>|((?P<mode>kernel|user) )?<address:address>)"
    r" <count:decimal>( (?P<how>octal|bytes|text|words|instructions))?( at <turn:decimal>)?",
    "C words from address A or word I on, before turn N",
)
def dump(explorer: Explorer, arguments: Arguments) -> Iterator[str]:
    """Shows C words, up to 4096, as they are before turn N, or without `at` before the current
    turn: those of core from address A on; those that a program of kernel or user mode would read
    from A on, through its pages; or those of the drive, or in version 2 of drive D, from word I on.
    At the left is the address or the number of the first word of a line. `octal`, which needn't be
    said, has 8 words a line; `bytes` and `text` have 16 bytes, the low byte of each word first, in
    octal or as the line `text` shows them; `words` has one word: in octal, in decimal without and
    with sign, and as text. With `instructions` C instructions are shown, as by `list`.
    A `*` stands for lines that are the same as the line before; the last line is always shown. A
    word that can't be read is `------`, and lines at the end say why. Registers aren't read:
    `devices N` and `pages N` show them. If the words end before C, the last line says so."""
    machine, turn = explorer.machine, arguments.decimal("turn", explorer.turn)
    address, count = arguments.octal("address"), arguments.decimal("count")
    how = arguments.optional("how") or "octal"
    mode = Mode(arguments.text("mode")) if arguments.optional("mode") else None
    check(arguments, address, count, how)
    if how == "instructions":
        listed = Listed.of(machine, turn, mode, address, count)
        lines = listed.lines(explorer, address, count)
    elif arguments.optional("kind"):
        drive, index = arguments.octal("drive"), arguments.octal("index")
        lines = dumped(on_disk(machine, turn, drive, index, count), how)
    elif mode:
        lines = dumped(in_mode(machine, turn, mode, address, count), how)
    else:
        lines = dumped(in_core(machine, turn, address, count), how)
    explorer.turn = turn
    yield from [] if arguments.optional("turn") else [f"before turn {turn}:"]
    yield from lines


def check(arguments: Arguments, address: int, count: int, how: str) -> None:
    if not 1 <= count <= MOST_DUMPED:
        raise ExploreError(f"C is 1 to {MOST_DUMPED}")
    if address % 2:
        raise ExploreError(f"{address:o} is odd")
    if how == "instructions" and arguments.optional("kind"):
        raise ExploreError("instructions are shown of core, and not of the disk")
