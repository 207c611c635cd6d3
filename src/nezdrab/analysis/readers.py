"""Who read a word of core, or read or wrote a register: `readers`."""
from typing import Generic, Iterable, Iterator, Sequence, TypeVar, Union

from ..core.in_words import counted, span
from ..core.places import is_register
from ..core.replies import LastWrite, WordRead
from .command import Arguments, command, searched_range
from .crew import stopped_by
from .disk_words import acts_in_words
from .explorer import Explorer

MOST_SHOWN, SHOWN_AT_ONCE = 256, 16
WORDS = {"read": "readers", "write": "writers"}  # that list what is named so


# What is listed: turns with who read or wrote, and the word.
Listed = Union[WordRead, LastWrite]
Item = TypeVar("Item")


class Looked(Generic[Item]):
    """What is found in turns that are looked at: all, or what is shown and one more."""

    def __init__(self, turns: range):
        self.turns, self.found = turns, list[Item]()
        self.end = turns.start  # the turn before which they were looked at
        self.stopped = ""

    def look(self, parts: Iterable[tuple[Sequence[Item], int]]) -> Iterator[None]:
        for found, end in parts:
            self.found += found
            self.end = end
            yield
            if len(self.found) > MOST_SHOWN:
                return

    def how_many(self, what: str) -> str:
        count = counted(len(self.found), what)
        if self.stopped:
            where = f"before turn {self.end}"
            return f"{count} {where}; the turns from there on: {self.stopped}"
        return f"{count} in {span(self.turns)}"


def rows(explorer: Explorer, found: Sequence[Listed]) -> Iterator[str]:
    """A line for each of these, which ascend."""
    who = [it.reader if isinstance(it, WordRead) else it.writer for it in found]
    by = acts_in_words(explorer, [(it.turn, agent) for it, agent in zip(found, who)])
    for it, agent in zip(found, who):
        yield f"turn {it.turn}: {agent} {it.word:06o}, by {by[it.turn, agent]}"


def looked_lines(
    explorer: Explorer, looked: Looked[Listed], what: str, address: int
) -> Iterator[str]:
    """A line for each, how many there are, and how the search goes on."""
    shown, more = looked.found[:MOST_SHOWN], looked.found[MOST_SHOWN:]
    for at in range(0, len(shown), SHOWN_AT_ONCE):
        yield from rows(explorer, shown[at : at + SHOWN_AT_ONCE])
    if more:
        on = f"{WORDS[what]} {address:o} from {more[0].turn} to {looked.turns[-1]}"
        yield f"{MOST_SHOWN} {what}s or more; on: {on}"
    else:
        yield looked.how_many(what)


@command(
    "readers A [from N] [to M]",
    r"<address:place>{from}{to}",
    "the reads of a core word or a register, and who read it",
)
def readers(explorer: Explorer, arguments: Arguments) -> Iterator[str]:
    """Lists each of the turns N to M that reads the core word at A: who reads it, the processor or
    the disk, the word that is read, and the instruction or the function that reads it. All reads
    count: of instructions, index words and pointers, of operands, also those that are written then,
    of pops, of the vectors of traps and interrupts, and of words that the disk writes or compares.
    Of a turn with more than one read the first is listed, which is the disk's if the disk and the
    processor both read the word. Without `from` N is 0. Without `to` M is a million turns past the
    greatest turn that was asked so far. It is exact. After 256 reads the list is cut, and the last
    line says how it goes on. Ctrl-C ends it, and what was found up to there is shown.
    A may be a register on the bus: a name, TKS TKB TPS TPB PRS PRB PPS PPB LKS RKDS RKER RKCS RKWC
    RKBA RKDA SWR SR0 SR1 SR2 PS, KPAR0 to KPAR7, KPDR0, UPAR0, UPDR0 and so on; 777562, its address
    there; or 177562, if core has no such word. The reads are those that the processor makes at this
    address. A million turns take some 15 s, or a minute if mapping changes in every hundred."""
    turns, address = searched_range(explorer, arguments), arguments.octal("address")
    if not is_register(address):
        explorer.machine.check_taken(f"reads 0 0 {address:o}")
    looked = Looked[Listed](turns)
    looked.stopped = stopped_by(looked.look(explorer.finder.reads(turns, address)))
    yield from looked_lines(explorer, looked, "read", address)


def register_writes(explorer: Explorer, turns: range, place: int) -> Iterator[str]:
    """The writes of a register."""
    looked = Looked[Listed](turns)
    looked.stopped = stopped_by(looked.look(explorer.finder.writes_of(turns, place)))
    yield from looked_lines(explorer, looked, "write", place)
