"""Stops of one's own: what each looks for, and the turn in which the first or the last holds:
`break`, `watch`, `rwatch`, `catch`, `breakpoints`, `delete`, `continue`, `reverse-continue`."""
import re
from typing import Callable, Iterator, Optional

from ..core import sessions
from ..core.engine import Machine
from ..core.errors import ExploreError
from ..core.hardware import NAMES_IN_THE_IO_PAGE
from ..core.in_words import span
from ..core.places import is_register
from ..core.register_search import READ, WRITTEN, found_at
from ..core.replies import Mode, WordRead, turns_of
from ..core.values import dataclass, field
from .calls import turns_ahead
from .command import Arguments, command
from .explorer import Explorer
from .finder import TURNS_OF_A_SEARCH, Finder, growing_parts
from .listing import seen
from .search import checked_word

TURNS_OF_REGISTERS = 16_384  # that are looked at together for what is at a register
MOST_PARTS = 4  # of a CONDITION
OPERATOR = re.compile(r"\s*(==|!=|=|<|>|&)\s*")
OPERATORS = ("=", "!=", "<", ">", "&")
REGISTER = re.compile("r[0-5]|[ku]?sp|pc|ps", re.I)
NONE_SET = (
    "no breakpoint is set: break X, watch A, rwatch A, catch vector V or catch trap V sets one"
)


@dataclass(frozen=True)
class Breakpoint:
    """What a turn does at a breakpoint: what is sought, in the words of the lines `first` and
    `latest`, or a write or a read of the core word or the register at this address."""

    number: int
    text: str
    sought: str
    address: Optional[int] = None
    is_read: bool = False
    message: str = ""  # what an editor says there, which then doesn't stop

    @property
    def is_of_register(self) -> bool:
        return self.address is not None and is_register(self.address)

    def at_register(self, machine: Machine, turns: range) -> Iterator[int]:
        """The turns that read the register, or write it."""
        kinds = READ if self.is_read else WRITTEN
        for found, _ in found_at(machine, turns, self.address or 0, kinds, 0):
            yield from (turn for turn, _ in found)

    def first(self, machine: Machine, turns: range) -> Optional[int]:
        """The first of the turns at which it holds. Of writes `Finder` looks in parts that double,
        which runs few known turns again."""
        if self.address is None:
            return machine.found("first", turns, self.sought)
        if self.is_of_register:
            return next(self.at_register(machine, turns), None)
        if self.is_read:
            lines, _ = machine.reads(turns, self.address)
            return WordRead.of(lines[0]).turn if lines else None
        write = Finder(machine).next_write(turns, self.address)
        return None if write is None else write.turn

    def last(self, machine: Machine, turns: range) -> Optional[int]:
        if self.address is None:
            return machine.found("latest", turns, self.sought)
        if self.is_of_register:
            return max(self.at_register(machine, turns), default=None)
        if self.is_read:
            read = Finder(machine).last_read(turns, self.address)
            return read.turn if read is not None else None
        write = machine.last(turns.stop, self.address)
        return write.turn if write is not None and write.turn in turns else None


@dataclass(frozen=True)
class Reached:
    """The turn that was found, and the breakpoints that hold at it."""

    turn: int
    points: list[Breakpoint]


@dataclass
class Breakpoints:
    """The breakpoints that are set. A number is given once."""

    points: list[Breakpoint] = field(default_factory=list)
    count: int = 0
    say: Callable[[str], None] = print  # where an editor's messages go

    def add(
        self,
        machine: Machine,
        text: str,
        sought: str,
        address: Optional[int],
        is_read: bool = False,
    ) -> Breakpoint:
        """A new one, if the program takes the line that looks for it."""
        word = "reads" if is_read else "writes"
        line = f"first 0 0 {sought}" if address is None else f"{word} 0 0 {address:o}"
        if address is None or not is_register(address):
            machine.check_taken(line)
        self.count += 1
        self.points.append(Breakpoint(self.count, text, sought, address, is_read))
        return self.points[-1]

    @property
    def largest_part(self) -> int:
        """How many turns are looked at together at most."""
        is_slow = any(it.is_of_register for it in self.points)
        return TURNS_OF_REGISTERS if is_slow else TURNS_OF_A_SEARCH

    def delete(self, number: int) -> Breakpoint:
        found = next((it for it in self.points if it.number == number), None)
        if found is None:
            raise ExploreError(f"there is no breakpoint {number}; breakpoints lists them")
        self.points.remove(found)
        return found

    def reached(
        self, machine: Machine, turns: range, is_backwards: bool = False
    ) -> Optional[Reached]:
        """Where the first of these turns is at which one holds, or backwards the last one. The
        turns are asked in parts. In a part each breakpoint is looked for up to what was found,
        those of reads last: they take longest."""
        points = sorted(self.points, key=lambda it: (it.is_of_register, it.is_read))
        for part in growing_parts(turns, is_backwards, self.largest_part):
            found: list[tuple[int, Breakpoint]] = []
            for point in points:
                turn = (point.last if is_backwards else point.first)(machine, part)
                if turn is not None:
                    found.append((turn, point))
                    part = range(turn, part.stop) if is_backwards else range(part.start, turn + 1)
            if found:
                turn = found[-1][0]
                points = [it for at, it in found if at == turn]
                return Reached(turn, sorted(points, key=lambda it: it.number))
        return None


# Commands


def set_line(point: Breakpoint) -> str:
    return f"breakpoint {point.number}: {point.text}"


@command(
    "break [user|kernel] X [if CONDITION]",
    r"((?P<mode>user|kernel) )?<address:address>( if (?P<condition>[^\0]+))?",
    "a breakpoint: an instruction at X",
)
def break_command(explorer: Explorer, arguments: Arguments) -> Iterator[str]:
    """Sets a breakpoint at each turn that runs an instruction with PC X, an address as the program
    has it, in any mode or in this one, and before which CONDITION holds: that of `first N M where`.
    `continue` goes to it, `breakpoints` lists all, `delete` takes them away. They stay until
    explore ends, and edits leave them as they are; a session doesn't keep them."""
    address, mode = arguments.octal("address"), arguments.text("mode")
    condition = arguments.text("condition").strip(" \t")
    yield set_line(set_break(explorer, address, mode, condition))


def set_break(explorer: Explorer, address: int, mode: str, condition: str) -> Breakpoint:
    """A breakpoint at an instruction, in any mode or in this one."""
    text = f"break {mode + ' ' if mode else ''}{checked_word(address):o}"
    text += named(explorer, mode, address) + (f" if {condition}" if condition else "")
    sought = sought_at(explorer, address, mode, condition)
    return explorer.breakpoints.add(explorer.machine, text, sought, None)


def sought_at(explorer: Explorer, address: int, mode: str, condition: str) -> str:
    """A run of the instruction at an address, in any mode or in this one, if a condition holds, in
    the words of a search."""
    if condition:
        return condition_sought(explorer, [f"at {address:o}", *mode.split(), condition])
    return f"at {address:o} {mode}".rstrip()


def named(explorer: Explorer, mode: str, address: int) -> str:
    """The symbol of the address in this mode. Without a mode it is one of this very address."""
    near = explorer.symbols.near
    if mode:
        names = {near(Mode(mode), address)}
    else:
        names = {near(it, address) for it in (Mode.KERNEL, Mode.USER)}
        names = {it for it in names if "+" not in it}
    names -= {""}
    return f" ({names.pop()})" if len(names) == 1 else ""


def condition_in_words(text: str) -> str:
    """A CONDITION in words: gdb, editors and their users write ==, &&, $r0, 0x10, no spaces and
    `COUNT > 3`, which is about the word of core at COUNT."""
    joined = re.sub("[()]", " ", text.replace("&&", " and "))
    spaced = OPERATOR.sub(lambda it: f" {'=' if it[1] == '==' else it[1]} ", joined)
    words = [number_or_name(it) for it in spaced.split()]
    sides = zip(["and", *words], words, [*words[1:], ""])
    is_core = [
        before == "and" and after in OPERATORS and not REGISTER.fullmatch(it)
        for before, it, after in sides
    ]
    return " ".join(f"core {it}" if of_core else it for it, of_core in zip(words, is_core))


def number_or_name(word: str) -> str:
    """A word of a CONDITION as it is written here."""
    if re.fullmatch("0x[0-9a-f]{1,5}", word, re.I):
        return f"{int(word, 16):o}"
    return word[1:].upper() if word[:1] == "$" and REGISTER.fullmatch(word[1:]) else word


def condition_sought(explorer: Explorer, parts: list[str]) -> str:
    """A CONDITION of these parts, in the words of a search, if the program takes it."""
    machine, begin = explorer.machine, "first 0 0 "
    line = f"{begin}where {' and '.join(map(condition_in_words, parts))}"
    line = explorer.symbols.line_in_octal(line, machine)
    if machine.ask(line).startswith("refused 10"):
        most = MOST_PARTS - (len(parts) - 1)
        raise ExploreError(
            f"'{parts[-1]}' is no CONDITION, which has {most} parts at most here; a CONDITION is "
            f"{sessions.CONDITIONS_HERE}"
        )
    return line[len(begin) :]


@command("watch A", r"<address:place>", "a breakpoint: a write of a core word or a register")
def watch(explorer: Explorer, arguments: Arguments) -> Iterator[str]:
    """Sets a breakpoint at each turn that writes the core word at A, an address of core, also if
    the word stays the same, and also if the disk writes it. An image and a patch are no writes. A
    may be a register on the bus, such as TPB, as in `writers`."""
    yield set_line(set_watch(explorer, arguments.octal("address"), is_read=False))


@command("rwatch A", r"<address:place>", "a breakpoint: a read of a core word or a register")
def rwatch(explorer: Explorer, arguments: Arguments) -> Iterator[str]:
    """Sets a breakpoint at each turn that reads the core word at A, an address of core, as
    `readers` lists them: the processor or the disk. A may be a register on the bus, such as TKB."""
    yield set_line(set_watch(explorer, arguments.octal("address"), is_read=True))


def set_watch(explorer: Explorer, address: int, is_read: bool) -> Breakpoint:
    """A breakpoint at reads or writes of a core word, or of a register at its place."""
    name = NAMES_IN_THE_IO_PAGE.get(address, "")
    text = f"{'r' * is_read}watch {address:o}{f' ({name})' if name else ''}"
    return explorer.breakpoints.add(explorer.machine, text, "", address, is_read)


@command(
    "catch vector V  or  catch trap V",
    r"(?P<kind>vector|trap) <vector:octal>",
    "a breakpoint: an interrupt or a trap",
)
def catch(explorer: Explorer, arguments: Arguments) -> Iterator[str]:
    """Sets a breakpoint at each turn that is an interrupt by vector V, or that has a trap through
    vector V, as `first N M vector V` and `first N M trap V` find it."""
    yield set_line(set_catch(explorer, arguments.text("kind"), arguments.octal("vector")))


def set_catch(explorer: Explorer, kind: str, vector: int) -> Breakpoint:
    """A breakpoint at an interrupt or a trap."""
    sought = f"{kind} {checked_word(vector):o}"
    return explorer.breakpoints.add(explorer.machine, f"catch {sought}", sought, None)


@command("breakpoints", r"", "lists the breakpoints")
def breakpoints(explorer: Explorer, arguments: Arguments) -> Iterator[str]:
    """Lists the breakpoints with their numbers."""
    yield from map(set_line, explorer.breakpoints.points)
    if not explorer.breakpoints.points:
        yield NONE_SET


@command("delete [N]", r"<number:decimal>?", "takes away breakpoint N, or all of them")
def delete(explorer: Explorer, arguments: Arguments) -> Iterator[str]:
    """Takes away the breakpoint with number N, or without N all of them."""
    points = explorer.breakpoints.points
    if arguments.optional("number"):
        gone = [explorer.breakpoints.delete(arguments.decimal("number"))]
    else:
        gone, points[:] = list(points), []
    for point in gone:
        yield f"breakpoint {point.number} is gone: {point.text}"
    if not gone:
        yield NONE_SET


def check_set(explorer: Explorer) -> None:
    if not explorer.breakpoints.points:
        raise ExploreError(NONE_SET)


def reached_line(explorer: Explorer, point: Breakpoint, turn: int) -> str:
    """The breakpoint, and for a write or a read who wrote or read what."""
    line = set_line(point)
    if point.address is None:
        return line
    finder, turns = explorer.finder, range(turn, turn + 1)
    if point.is_read:
        read = [it for found, _ in finder.reads(turns, point.address) for it in found]
        return line + "".join(f": {it.reader} {it.word:06o}" for it in read)
    written = [it for found, _ in finder.writes_of(turns, point.address) for it in found]
    return line + "".join(f": {it.writer} {it.word:06o}" for it in written)


def gone_on(explorer: Explorer, arguments: Arguments, turns: range, back: bool) -> Iterator[str]:
    """The K-th turn of these at a breakpoint, which is the current one then, and which breakpoints
    hold."""
    count, machine, where = arguments.decimal("count", 1), explorer.machine, span(turns)
    if count < 1:
        raise ExploreError("K is 1 or more")
    found = list[Reached]()
    while len(found) < count:
        reached = explorer.breakpoints.reached(machine, turns, back)
        if reached is None:
            held = f"breakpoints hold at {len(found)} of {where}"
            yield held if found else f"no breakpoint holds in {where}"
            return
        found.append(reached)
        turns = range(reached.turn) if back else range(reached.turn + 1, turns.stop)
    reached = found[-1]
    trail = turns_of(machine.read(f"trail {reached.turn + 1} 1"))
    lines = [it.line() for it in seen(explorer, trail)]
    explorer.turn = reached.turn
    yield from (reached_line(explorer, it, reached.turn) for it in reached.points)
    yield from lines


@command("continue [K] [to M]", r"<count:decimal>?{to}", "goes on to the next turn at a breakpoint")
def continue_command(explorer: Explorer, arguments: Arguments) -> Iterator[str]:
    """Goes on from the current turn to the first turn after it at which a breakpoint holds, or to
    the K-th, says which one holds, and shows the turn as `see` does; it is then the current turn.
    Without `to` the search goes on to the end of the run: for turns that nothing has asked about
    yet it takes a second or more for 100000000, and Ctrl-C ends it. It is exact."""
    check_set(explorer)
    yield from gone_on(explorer, arguments, turns_ahead(explorer, arguments), back=False)


@command("reverse-continue [K]", r"<count:decimal>?", "goes back to the last turn at a breakpoint")
def reverse_continue(explorer: Explorer, arguments: Arguments) -> Iterator[str]:
    """Goes back from the current turn to the last turn before it at which a breakpoint holds, or to
    the K-th one back, says which one holds, and shows the turn as `see` does; it is then the
    current turn. A search far back takes as long as `continue` over these turns. A write is found
    at once. It is exact."""
    check_set(explorer)
    if not explorer.turn:
        raise ExploreError("the current turn is turn 0")
    yield from gone_on(explorer, arguments, range(explorer.turn), back=True)
