"""All values of words, and all writes of words of core: `changes`, `writers`."""
from heapq import merge
from itertools import islice
from typing import Iterator, NamedTuple, Optional, Sequence

from ..core.all_words import differing, drive_lines, written
from ..core.engine import LAST_TURN, Machine
from ..core.errors import ExploreError
from ..core.hardware import NAMES_IN_THE_IO_PAGE
from ..core.in_words import counted, span
from ..core.places import is_register
from ..core.register_changes import WRITTEN_ALONE, RegisterChange, register_changes, shown_at
from ..core.values import dataclass
from .accesses import cycle_line, lines_of
from .command import Arguments, command, searched_range
from .crew import stopped_by
from .disk_words import DiskWord, acts_in_words
from .explorer import Explorer
from .finder import found_with_bar, parts_of
from .listing import turns_in_words
from .readers import Looked, register_writes
from .search import WORD_OF_DISK, disk_word_of
from .transfers import DiskMove, transfers_in

MOST_SHOWN, SHOWN_AT_ONCE, MOST_OF_A_RANGE = 256, 16, 4_096
WORDS = r"<begin:address>\.\.<end:address>|<address:place>( <count:decimal>)?"
OF_DISK = rf"(?P<kind>disk) {WORD_OF_DISK}<index:octal>(\.\.<further:octal>)?"


class Change(NamedTuple):
    """A turn that writes a word: its place, an address of core or a number of a drive; the word
    before the turn and after it; and who wrote it."""

    turn: int
    place: int
    before: int
    after: int
    writer: str


def writes_of_word(explorer: Explorer, turns: range, address: int) -> Iterator[Change]:
    before = explorer.machine.word(turns.start, address)
    for it in explorer.finder.writes(turns, address):
        yield Change(it.turn, address, before, it.word, it.writer)
        before = it.word


def writes_in_core(explorer: Explorer, turns: range, words: range) -> Iterator[Change]:
    """The writes of these words by turn. Of several words those that aren't written are passed
    over at once."""
    parts = {words[0]: turns} if len(words) == 1 else written(explorer.machine, turns, words)
    return iter(merge(*(writes_of_word(explorer, part, it) for it, part in parts.items())))


def changes_of_word(word: DiskWord, turns: range) -> Iterator[Change]:
    before = word.value(turns.start)
    for turn in word.changes(turns):
        after = word.value(turn + 1)
        yield Change(turn, word.index, before, after, "disk")
        before = after


def changes_on_drive(word: DiskWord, turns: range, words: range) -> Iterator[Change]:
    """The changes of this word, or of the words from it on."""
    if len(words) == 1:
        yield from changes_of_word(word, turns)
        return
    for part in parts_of(turns):
        for it in transfers_in(word.machine, part):
            if not it.is_read and it.drive == word.drive:
                yield from changed_by(word.machine, it, words)


def changed_by(machine: Machine, write: DiskMove, words: range) -> Iterator[Change]:
    """Those of the words that a write of the disk changes: the words before and after its turn."""
    places = range(max(words[0], write.on_drive[0]), min(words[-1], write.on_drive[-1]) + 1)
    turns = write.turn, write.turn + 1
    lines = [drive_lines(machine, turn, write.drive, places) for turn in turns]
    for at, before, after in differing(zip(*(list(machine.read_all(it)) for it in lines))):
        yield Change(write.turn, places[at], before, after, "disk")


@dataclass
class Listing:
    """Changes as a line lists them: its beginning, such as `changes 2000`, the words, the turns,
    and whether writes that leave a word as it was are listed. `on` is the turn from which on the
    line goes on, if it is cut."""

    explorer: Explorer
    line: str
    words: range
    turns: range
    has_same: bool = False
    count: int = 0
    same: int = 0
    on: Optional[int] = None

    @property
    def what(self) -> str:
        return "write" if self.has_same else "change"

    @property
    def is_on_drive(self) -> bool:
        return self.line.startswith("changes disk")

    def chosen(self, found: Iterator[Change]) -> Iterator[Change]:
        """The first of these, and all others of the last one's turn."""
        last = -1
        for it in found:
            if not self.has_same and it.before == it.after:
                self.same += 1
                continue
            if self.count >= MOST_SHOWN and it.turn != last:
                self.on = last + 1
                return
            self.count, last = self.count + 1, it.turn
            yield it

    def rows(self, changes: Sequence[Change]) -> Iterator[str]:
        by = acts_in_words(self.explorer, [(it.turn, it.writer) for it in changes])
        for it in changes:
            words = f"{'' if self.has_same else f'{it.before:06o}  '}{it.after:06o}  {it.writer:<4}"
            place = f"{it.place:0{6 + self.is_on_drive}o}"
            place = f"{place:<7}  " if len(self.words) > 1 else ""
            yield f"{it.turn:>10}  {place}{words}  {by[it.turn, it.writer]}"

    def lines(self, found: Iterator[Change]) -> Iterator[str]:
        chosen = self.chosen(found)
        part = list(islice(chosen, SHOWN_AT_ONCE))
        place = f"{'disk' if self.is_on_drive else 'core':<9}" if len(self.words) > 1 else ""
        titles = "word  " if self.has_same else "before  after "
        yield from [f"{'turn':>10}  {place}{titles}  who   by"] if part else []
        while part:
            yield from self.rows(part)
            part = list(islice(chosen, SHOWN_AT_ONCE))
        count = counted(self.count, self.what)
        if self.on is not None:
            yield f"cut after {count}; on: {self.line} from {self.on} to {self.turns[-1]}"
            return
        word = "the word as it was" if len(self.words) == 1 else "a word as it was"
        same = f"; {counted(self.same, 'write')} left {word}"
        is_told = not self.has_same and not self.is_on_drive
        end = ", where the run ends" if self.turns.stop == LAST_TURN else ""
        yield f"{count} in {span(self.turns)}{same * is_told}{end}"


# Registers


def register_rows(explorer: Explorer, found: Sequence[RegisterChange]) -> Iterator[str]:
    """A line for each of these: the turn, the words, and what the turn has in it besides cycles."""
    machine = explorer.machine
    by = turns_in_words(explorer, [it.turn for it in found])
    for it, act in zip(found, by):
        (turn,), _ = machine.accesses(range(it.turn, it.turn + 1))
        cycles = {cycle_line(cycle) for cycle in turn.cycles}
        had = [*(line for line in lines_of(turn) if line not in cycles), act]
        before = "------" if it.before is None else f"{it.before:06o}"
        yield f"{it.turn:>10}  {before}  {it.after:06o}  {'; '.join(had)}"


def register_lines(explorer: Explorer, turns: range, place: int) -> Iterator[str]:
    """The changes of a register in these turns, and how many there are."""
    name, looked = NAMES_IN_THE_IO_PAGE[place], Looked[RegisterChange](turns)
    if name not in WRITTEN_ALONE:
        shown_at(explorer.machine, name)  # an error if nothing shows it
    changes = found_with_bar(register_changes(explorer.machine, turns, place), turns)
    looked.stopped = stopped_by(looked.look(changes))
    shown, more = looked.found[:MOST_SHOWN], looked.found[MOST_SHOWN:]
    what = "was written" if name in WRITTEN_ALONE else "a read gives"
    yield from [f"{'turn':>10}  before  after   {name}: what {what}; in the turn"] if shown else []
    for at in range(0, len(shown), SHOWN_AT_ONCE):
        yield from register_rows(explorer, shown[at : at + SHOWN_AT_ONCE])
    if more:
        on = f"changes {name} from {more[0].turn} to {turns[-1]}"
        yield f"cut after {MOST_SHOWN} changes; on: {on}"
    else:
        yield looked.how_many("change")


def check_alone(count: str) -> None:
    if count:
        raise ExploreError("a register has no words behind it: changes A without C lists it")


# Commands


def words_of(arguments: Arguments) -> range:
    """The addresses of `A..B`, or of so many words from A on; or the numbers of `I..J`."""
    if arguments.parts.get("kind"):
        first = arguments.octal("index")
        words = range(first, arguments.octal("further", first) + 1)
    elif arguments.optional("begin"):
        words = range(arguments.octal("begin"), arguments.octal("end") + 1, 2)
    else:
        first, count = arguments.octal("address"), int(arguments.parts.get("count") or 1)
        words = range(first, first + 2 * count, 2)
    if not 1 <= len(words) <= MOST_OF_A_RANGE:
        most = f"a range has 1 to {MOST_OF_A_RANGE} words"
        raise ExploreError(f"{most}, and this one has {len(words)}")
    return words


def in_a_line(words: range) -> str:
    return f"{words[0]:o}" if len(words) == 1 else f"{words[0]:o}..{words[-1]:o}"


@command(
    "changes A [C] [from N] [to M]  or  changes A..B [from N] [to M]"
    "  or  changes disk [D] I[..J] [from N] [to M]",
    rf"({OF_DISK}|{WORDS}){{from}}{{to}}",
    "all values of a word, of the words of a range or a register, and who wrote them",
)
def changes_command(explorer: Explorer, arguments: Arguments) -> Iterator[str]:
    """Lists each of the turns N to M that changes the core word at A, or word I of a drive: the
    word before the turn and after it, who wrote it, and by which instruction or function. C words
    from A on, the words A to B, or I to J, up to 4096, are listed together by turn. Without `from`
    N is 0. Without `to` M is a million turns past the greatest turn that was asked so far. It is
    exact. After 256 changes, and all others of the last one's turn, the list is cut, and the last
    line says how it goes on. A write that leaves the word as it was is no change: the last line
    counts those to core, and `writers` lists them. If a turn writes a word more than once, only the
    last write counts. A may be a register, as in `readers`: listed are the turns before and after
    which a read of it would give different words, with their events, what comes out, and what the
    processor does, be it the cause or not. Of TPB and PPB, which can't be read, they are the writes
    of another word than the write before in these turns. A million turns take some 5 s."""
    turns, address = searched_range(explorer, arguments), arguments.octal("address")
    if is_register(address):
        check_alone(arguments.text("count"))
        yield from register_lines(explorer, turns, address)
        return
    words = words_of(arguments)
    machine = explorer.machine
    if arguments.optional("kind"):
        word = disk_word_of(explorer, arguments)
        named = f"changes disk {machine.named(word.drive)}{in_a_line(words)}"
        name, value = word.name, word.value(turns.start)
        found = changes_on_drive(word, turns, words)
    else:
        named, name = f"changes {in_a_line(words)}", f"core {words[0]:06o}"
        value = machine.word(turns.start, words[0])
        found = writes_in_core(explorer, turns, words)
    if len(words) == 1:
        yield f"before turn {turns.start} {name} is {value:06o}"
    yield from Listing(explorer, named, words, turns).lines(found)


@command(
    "writers A[..B] [from N] [to M]",
    r"(<begin:address>\.\.<end:address>|<address:place>){from}{to}",
    "all writes of a core word, of a range or a register, and who wrote them",
)
def writers(explorer: Explorer, arguments: Arguments) -> Iterator[str]:
    """Lists each of the turns N to M that writes the core word at A, or one of the words A to B, up
    to 4096: the address, the word that was written, who wrote it, and by which instruction or
    function. It lists a write that leaves the word as it was too, and no image and no patch. If a
    turn writes a word more than once, only the last write counts. N and M are as in `changes`, and
    so is where a list is cut. It is exact. A may be a register, as in `readers`: what the processor
    writes there, a word or a byte. What a device does to its own registers is no write."""
    turns, address = searched_range(explorer, arguments), arguments.octal("address")
    if is_register(address):
        yield from register_writes(explorer, turns, address)
        return
    words = words_of(arguments)
    listing = Listing(explorer, f"writers {in_a_line(words)}", words, turns, has_same=True)
    yield from listing.lines(writes_in_core(explorer, turns, words))
