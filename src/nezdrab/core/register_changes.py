"""All values of a register of the I/O page: what a read would give before each turn, or of a buffer
that can't be read what the processor writes there."""
from typing import Iterator, NamedTuple, Optional

from .engine import LAST_TURN, Machine
from .errors import ExploreError
from .hardware import NAMES_IN_THE_IO_PAGE
from .register_rows import PS
from .register_search import writes_at

WRITTEN_ALONE = ("TPB", "PPB")  # a read gives 0
OF_PAGES = ("SR0", "SR2")
TURNS_OF_A_PART = 4_096


class RegisterChange(NamedTuple):
    """A turn before which a register has another value than after it. Of a buffer that can't be
    read: a turn that writes another value than the write before, None if there is none."""

    turn: int
    before: Optional[int]
    after: int


def shown_at(machine: Machine, name: str) -> tuple[str, slice]:
    """The line that shows a register, and where its word stands in the reply."""
    if name == "PS":
        return "regs", PS
    has_number = name[-1].isdigit() and name not in OF_PAGES
    of, number = (name[:-1], int(name[-1])) if has_number else (name, 0)
    line = "pages" if has_number or name in OF_PAGES else "devices"
    begin = machine.read(f"{line} 0").find(f" {of} ")
    if begin < 0:
        raise ExploreError(f"{name} always reads 0")
    at = begin + len(of) + 2 + 7 * number
    return line, slice(at, at + 6)


def register_changes(
    machine: Machine, turns: range, place: int
) -> Iterator[tuple[list[RegisterChange], int]]:
    """The changes of a register: some at a time, and the turn before which they are all there."""
    name = NAMES_IN_THE_IO_PAGE[place]
    if name in WRITTEN_ALONE:
        yield from written_changes(machine, turns, place)
        return
    line, part = shown_at(machine, name)
    turns = range(turns.start, min(turns.stop, LAST_TURN))
    for at in range(turns.start, turns.stop, TURNS_OF_A_PART):
        asked = range(at, min(at + TURNS_OF_A_PART, turns.stop) + 1)
        words = [row[part] for row in machine.of_each_turn(line, asked)]
        found = (it for it in zip(asked, words, words[1:]) if it[1] != it[2])
        yield [RegisterChange(it, int(one, 8), int(two, 8)) for it, one, two in found], asked[-1]


def written_changes(
    machine: Machine, turns: range, place: int
) -> Iterator[tuple[list[RegisterChange], int]]:
    before: Optional[int] = None
    for found, end in writes_at(machine, turns, place):
        changes = list[RegisterChange]()
        for it in found:
            changes += [RegisterChange(it.turn, before, it.word)] * (it.word != before)
            before = it.word
        yield changes, end
