"""Finds turns, by the searches of the program search."""
from typing import Callable, Iterable, Iterator, Optional, TypeVar

from ..core.drive_searches import LARGEST_PART, growing
from ..core.engine import Machine
from ..core.places import is_register
from ..core.register_rows import Batch, batches
from ..core.register_search import reads_at, writes_at
from ..core.replies import LastWrite, WordRead
from ..core.values import dataclass
from .crew import with_bar

TURNS_OF_A_SEARCH = LARGEST_PART  # searched at once, in a tenth of a second or more
Item = TypeVar("Item")
# A search that lists: lines for the first of some turns, and the turns that are left.
Listing = Callable[[range], tuple[list[str], range]]


def parts_of(turns: range) -> Iterator[range]:
    """The turns in parts that are searched at once, with a bar if they take long."""
    begins = range(0, len(turns), TURNS_OF_A_SEARCH)
    parts = (turns[at : at + TURNS_OF_A_SEARCH] for at in begins)
    return with_bar(parts, len(turns), lambda it: it.stop - turns.start)


def batches_of(machine: Machine, turns: range) -> Iterator[Batch]:
    """All turns, one after the other, in batches with a bar."""
    found = batches(machine, turns)
    return with_bar(found, len(turns), lambda it: it.turns.stop - turns.start)


def listed_in(turns: range, listing: Listing) -> Iterator[tuple[list[str], int]]:
    """What a search lists of these turns, some lines at a time, and the turn before which all lines
    are there by then."""
    for part in parts_of(turns):
        while part:
            lines, part = listing(part)
            yield lines, part.start


def found_with_bar(
    found: Iterable[tuple[list[Item], int]], turns: range
) -> Iterator[tuple[list[Item], int]]:
    """What is found in these turns, each part with the turn before which it is all, with a bar."""
    return with_bar(found, len(turns), lambda it: it[1] - turns.start)


def growing_parts(
    turns: range, is_backwards: bool = False, largest: int = TURNS_OF_A_SEARCH
) -> Iterator[range]:
    """The turns in parts that double, from the first turn on or from the last one back, with a
    bar."""

    def done(part: range) -> int:
        return turns.stop - part.start if is_backwards else part.stop - turns.start

    return with_bar(growing(turns, is_backwards, largest), len(turns), done)


@dataclass(frozen=True)
class Finder:
    """Searches in the run of a machine."""

    machine: Machine

    def first(self, turns: range, sought: str) -> Optional[int]:
        """The first of the turns that is sought, in the words of the line `first`."""
        found = (self.machine.found("first", part, sought) for part in parts_of(turns))
        return next((it for it in found if it is not None), None)

    def each(self, turns: range, sought: str) -> Iterator[int]:
        """All of the turns that are sought."""
        for part in parts_of(turns):
            while part:
                found = self.machine.found("first", part, sought)
                part = range(0) if found is None else range(found + 1, part.stop)
                yield from [] if found is None else [found]

    # The writes to a core word

    def next_write(self, turns: range, address: int) -> Optional[LastWrite]:
        """The first write to the word. `last`, which runs no known turn again, tells of parts that
        double whether they have one, and `writes`, which runs them, is asked of one part alone."""
        size = 1
        while turns:
            part, turns, size = turns[:size], turns[size:], 2 * size
            last = self.machine.last(part.stop, address)
            if last is not None and last.turn in part:
                return next(self.writes(part, address), None)
        return None

    def writes(self, turns: range, address: int) -> Iterator[LastWrite]:
        """The writes to the word in these turns, in their order; of each turn the last."""
        for found, _ in self.writes_of(turns, address):
            yield from found

    def writes_of(self, turns: range, address: int) -> Iterator[tuple[list[LastWrite], int]]:
        """The same of a register too, some at a time, and the turn before which these are all."""
        if is_register(address):
            yield from found_with_bar(writes_at(self.machine, turns, address), turns)
            return
        for lines, end in listed_in(turns, lambda it: self.machine.writes(it, address)):
            yield list(map(LastWrite.of_line, lines)), end

    def first_write_of(self, turns: range, address: int, word: int) -> Optional[LastWrite]:
        """The write that makes the word this value first. Before these turns it is another one."""
        found = self.first(turns[1:], f"where core {address:o} = {word:o}")
        last = self.machine.last(turns.stop if found is None else found, address)
        is_found = last is not None and last.turn >= turns.start and last.word == word
        return last if is_found else None

    # The reads of a core word or a register

    def reads(self, turns: range, address: int) -> Iterator[tuple[list[WordRead], int]]:
        """The reads of the word in these turns, in their order, of each turn the first: some at a
        time, and the turn before which these are all."""
        if is_register(address):
            yield from found_with_bar(reads_at(self.machine, turns, address), turns)
            return
        for lines, end in listed_in(turns, lambda it: self.machine.reads(it, address)):
            yield list(map(WordRead.of, lines)), end

    def last_read(self, turns: range, address: int) -> Optional[WordRead]:
        """The last turn of these that reads the word, with its first read. What is left of turns
        that have more reads than are listed is halved."""
        lines, left = self.machine.reads(turns, address)
        found = lines[-1:]
        while left:
            middle = left.start + len(left) // 2
            lines, later = self.machine.reads(range(middle, left.stop), address)
            found = lines[-1:] or found
            left = later if lines else range(left.start, middle)
        return WordRead.of(found[0]) if found else None

    # The text

    def printed_in(self, turns: range, string: bytes) -> Optional[tuple[int, int]]:
        """The first of the turns that prints the last byte of the string, all of which is printed
        in these turns, and how many bytes are printed then."""
        begin, text = self.machine.text_length(turns.start), b""
        for part in growing_parts(turns):
            looked_at = max(0, len(text) - len(string) + 1)
            text += self.machine.text_from(part.stop, begin + len(text))
            at = text.find(string, looked_at)
            if at >= 0:
                last = begin + at + len(string) - 1
                (turn,) = self.machine.printed_in([last])
                return turn, last + 1
        return None

    def end_of_text(self, turns: range, string: bytes) -> Optional[tuple[int, int]]:
        """The first of the turns that prints the last byte of the string, and how many bytes are
        printed then."""
        printed = self.machine.text_length(turns.start)
        text = self.machine.text(turns.stop)
        at = text.find(string, max(0, printed - len(string) + 1))
        if at < 0:
            return None
        (turn,) = self.machine.printed_in([at + len(string) - 1])
        return turn, at + len(string)
