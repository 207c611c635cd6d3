"""What a value is made of: `why`. Its steps are lines, like an account book: what a step is made of
stands below it, and the part with the most behind it goes on at the same indent."""
import itertools
from typing import Iterable, Iterator, NamedTuple, Optional, Sequence, Union

from ..core.engine import SHORT_SENT_AHEAD, Machine
from ..core.errors import ExploreError
from ..core.in_words import counted, ranges
from ..core.replies import Registers, words_of
from ..core.values import dataclass, field
from .branches import sent_here
from .cells import ALL_CODES, CODES, DRIVES, NAMES, REST, TPB, byte_of_drive, drive_cell, is_core
from .cells import is_of_drive, is_register, name_of, register_cells, word_cells
from .command import Arguments, command
from .disk_words import DiskWord
from .explorer import Explorer
from .labels import events_with_data
from .listing import turns_in_words
from .operands import pointer_of
from .origins import MOST_LOOKS, MOST_TURNS_BACK, Graph, Origin, OriginKind, Origins, Source
from .origins import ValueStep, ValueSteps

ASKED = ("[core] A", "disk [D] I", "R", "PC", "text [C]")
ELSEWHERE = "a write that went to another address, and might have come here, isn't found"
MOST_STEPS, MOST_CHANGES, COUNTED_CHANGES = 2_000, 16, 64
MOST_LINES, MOST_LEVELS, MOST_NAMES = 100, 30, 6
LONG_RUN, LOOKED_AT = 3, 40  # steps of one input each: from so many on they are one line
FEW_TURNS, MOST_ENDS = 3, 6
NOT_FOLLOWED, NOT_WHOLE = ", not followed", ", followed in part"
OTHER_ENDS = {
    OriginKind.TAPE: "a byte of the tape",
    OriginKind.DEVICE: "what the register {:06o} showed",
    OriginKind.POINT: "where the program stood",
}


class CellBefore(NamedTuple):
    """A cell before a turn."""

    cell: int
    turn: int


class Head(NamedTuple):
    """The beginning of a line: a name, or a cell with its value, and how often it was copied."""

    of: Union[str, CellBefore]
    copied: str


@dataclass
class Line:
    """A line, which ends with what its step is. Before it stands a run, which its step went into,
    if any."""

    depth: int
    head: Head
    step: ValueStep
    written: int  # the cell that the step wrote
    run_head: Optional[Head] = None
    run: Sequence[ValueStep] = ()
    note: str = ""

    @property
    def result(self) -> CellBefore:
        """What the step gave to the cell that it wrote."""
        return CellBefore(self.written, self.step.turn + 1)

    def places(self) -> Iterator[CellBefore]:
        """Those whose values it shows."""
        yield from [self.result] if self.step.is_write else []
        for it in (self.head, self.run_head):
            if it is not None and not isinstance(it.of, str):
                yield it.of


@dataclass
class Account:
    """Makes the lines."""

    explorer: Explorer
    steps: ValueSteps
    lines: list[Line] = field(default_factory=list)
    above: set[ValueStep] = field(default_factory=set)  # which have lines
    texts: dict[int, str] = field(default_factory=dict)
    values: dict[tuple[int, int], str] = field(default_factory=dict)
    is_cut: bool = False

    def __post_init__(self) -> None:
        self.machine = self.explorer.machine
        lines = self.machine.patches()
        self.patches = {tuple(it.split()[:-1]) for it in lines}

    # Names and values

    def name(self, cell: int) -> str:
        return name_of(cell, self.machine.setup.version == 2)

    def question(self, at: CellBefore) -> str:
        """The line that tells the word of a cell, or an empty text."""
        if is_of_drive(at.cell):
            byte = byte_of_drive(at.cell)
            return self.machine.disk_line(at.turn, byte.drive, byte.word)
        if is_core(at.cell):
            return f"mem {at.turn} {at.cell & ~1:o} 1"
        return f"regs {at.turn}" if is_register(at.cell) or CODES <= at.cell < DRIVES else ""

    def in_reply(self, at: CellBefore, reply: str) -> str:
        """The value of a cell in the reply to its question."""
        if is_of_drive(at.cell) or is_core(at.cell):
            return f"{words_of(reply)[0]:06o}"
        registers = Registers.of(reply)
        if is_register(at.cell):
            return f"{registers.words[self.name(at.cell)]:06o}"
        is_code = at.cell < CODES + 4
        return str(registers.ps >> at.cell - CODES & 1) if is_code else f"{registers.ps:06o}"

    def know_values(self, places: Iterable[CellBefore]) -> None:
        """Asks together for the values before these turns, upwards."""
        asked = {it: self.question(it) for it in {*places} - self.values.keys()}
        ordered = sorted((it for it in asked if asked[it]), key=lambda it: it.turn)
        replies = self.machine.read_all([asked[it] for it in ordered], SHORT_SENT_AHEAD)
        self.values.update((it, "") for it in asked)
        self.values.update((it, self.in_reply(it, reply)) for it, reply in zip(ordered, replies))

    def value(self, cell: int, turn: int) -> str:
        """The value of the word of a cell before a turn, if a question tells it."""
        self.know_values([CellBefore(cell, turn)])
        return self.values[cell, turn]

    def shown(self, head: Head) -> str:
        if isinstance(head.of, str):
            return f"{head.of}{head.copied} <- "
        named = f"{self.name(head.of.cell)} {self.values[head.of]}".rstrip()
        return f"{named}{head.copied} <- "

    def copied(self, copies: Sequence[ValueStep]) -> str:
        disk = sorted(it.turn for it in copies if it.kind == OriginKind.MOVED)
        others = len(copies) - len(disk)
        parts = [f"{others} times" if others > 1 else "once"] if others else []
        if len(disk) > FEW_TURNS:
            parts.append(f"{len(disk)} times by the disk, turns {disk[0]} to {disk[-1]}")
        elif disk:
            turns = f"turn{'s' if len(disk) > 1 else ''} {' and '.join(map(str, disk))}"
            parts.append(f"by the disk in {turns}")
        return f", copied {' and '.join(parts)}," if parts else ""

    def end(self, step: ValueStep) -> str:
        """What an end of the way back is."""
        if step.kind == OriginKind.EVENT:
            event = self.machine.event(step.at)
            return f"event {step.at}: {event.explained() if event else ''}, turn {step.turn}"
        if step.kind == OriginKind.START:
            return self.at_power_up(step.at)
        if step.kind in OTHER_ENDS:
            return OTHER_ENDS[step.kind].format(step.at)
        looked = f"{MOST_TURNS_BACK} turns"
        if is_of_drive(step.at):
            looked = f"{MOST_LOOKS} looks at what the disk did"
        return f"{self.name(step.at)} before turn {step.turn}: {looked} before it have no write"

    def at_power_up(self, cell: int) -> str:
        word = self.value(cell, 0) or "000000"
        key = ("core", f"{cell:o}")
        if is_of_drive(cell):
            at = byte_of_drive(cell)
            key = ("disk", f"{self.machine.named(at.drive)}{at.word:o}")
        is_patch = key[:1] + tuple(key[1].split()) in self.patches
        return f"{self.name(cell)}, {word} since power-up{' (a patch)' if is_patch else ''}"

    def what(self, step: ValueStep) -> str:
        """What a step is. The texts of its turn must be known."""
        if not step.is_write:
            return self.end(step)
        if step.kind == OriginKind.MOVED:
            is_filled = not self.steps.inputs[step] and step not in self.steps.left
            kind = "write" if is_of_drive(step.at) else "read"
            how = "the zeros that fill the sector of" if is_filled else f"a {kind} of the disk to"
            return f"turn {step.turn}: {how} {self.name(step.at)}"
        return f"turn {step.turn}: {self.texts[step.turn]}"

    def know(self, steps: Iterable[ValueStep]) -> None:
        """Asks for the texts of the turns of these steps."""
        turns = sorted({it.turn for it in steps if it.kind == OriginKind.MADE} - self.texts.keys())
        self.texts.update(zip(turns, turns_in_words(self.explorer, turns)))

    def made(self, line: Line) -> str:
        """What the step of a line is, with the value that it gave."""
        value = self.values[line.result] if line.step.is_write else ""
        return f"{self.what(line.step)}{f': {value}' if value else ''}"

    # The tree

    def add(self, source: Source, depth: int, head: Head) -> None:
        """A step and what it is made of."""
        while not self.is_full(depth):
            step = source.step
            line = Line(depth, head, step, source.written)
            self.lines.append(line)
            sources = self.sources(line)
            if not sources or self.add_run(line):
                return
            is_single = len(sources) == 1 or not sources[-1].step.is_write
            for it in sources if is_single else sources[:-1]:
                self.add(it, depth + 1, self.head(step, it))
            if is_single:
                return
            head, source = self.head(step, sources[-1]), sources[-1]

    def sources(self, line: Line) -> list[Source]:
        """What the step of a line is made of, unless that stands above or wasn't followed."""
        step = line.step
        sources = self.steps.sources(step) if step.is_write else []
        if step in self.above and sources:
            line.note = ", as above"
            return []
        self.above.add(step)
        if step in self.steps.left:
            line.note = NOT_WHOLE if sources else NOT_FOLLOWED
        return sources

    def is_full(self, depth: int) -> bool:
        is_full = len(self.lines) >= MOST_LINES or depth > MOST_LEVELS
        self.is_cut = self.is_cut or is_full
        return is_full

    def head(self, step: ValueStep, source: Source) -> Head:
        return Head(CellBefore(source.cell, step.turn), self.copied(source.copies))

    def add_run(self, line: Line) -> bool:
        """One value that goes through many operations before this one: one line for all."""
        run = self.steps.run_of_one(line.step)[1:]
        if len(run) < LONG_RUN:
            return False
        self.above.update(run)
        (first,), (source,) = map(self.steps.sources, (line.step, run[-1]))
        begin = len(self.lines)
        self.add(source, line.depth + 1, self.head(run[-1], source))
        if begin < len(self.lines):
            self.lines[begin].run_head = self.head(line.step, first)
            self.lines[begin].run = run
        return True

    def run_in_words(self, line: Line) -> str:
        run = line.run
        names = list(dict.fromkeys(operation(self.texts[it.turn]) for it in run[:LOOKED_AT]))
        last = f"the last {LOOKED_AT}: " if len(run) > LOOKED_AT else ""
        others = " and others" if len(names) > MOST_NAMES else ""
        shown = f"{last}{' '.join(names[:MOST_NAMES])}{others}"
        turns = f"turns {run[-1].turn} to {run[0].turn}"
        head = self.shown(line.run_head) if line.run_head else ""
        return f"{head}{len(run)} operations on it ({shown}) in {turns}, from "

    def written(self) -> Iterator[str]:
        """The lines as they are shown."""
        self.know_values(place for it in self.lines for place in it.places())
        self.know(it.step for it in self.lines)
        self.know(step for it in self.lines for step in it.run[:LOOKED_AT])
        for it in self.lines:
            run = self.run_in_words(it) if it.run else ""
            yield f"{'  ' * it.depth}{run}{self.shown(it.head)}{self.made(it)}{it.note}"
        if self.is_cut:
            yield "  .. further lines aren't shown; what follows counts all steps"


def operation(text: str) -> str:
    """The name of the instruction, in the text of a turn."""
    words = text.split()
    return next((it for it in words[2:] if not it.startswith("(")), text)


# What is asked, and what is shown


@dataclass(frozen=True)
class Asked:
    """What is asked about: a name, and the cells, or the last bytes of the text."""

    name: str
    cells: Sequence[int] = ()
    text_bytes: int = 0


def asked(explorer: Explorer, arguments: Arguments, turn: int) -> Asked:
    register = (arguments.optional("register") or "").upper()
    if register == "SP":
        number = pointer_of(explorer.machine.registers(turn).ps >> 14)
        return Asked(NAMES[number], register_cells(number))
    if register == "PC":
        return Asked("PC")
    if register in NAMES:
        return Asked(register, register_cells(NAMES.index(register)))
    if register:
        cells = dict(zip("NZVC", ((it,) for it in ALL_CODES)), PS=(REST, *ALL_CODES))[register]
        return Asked(name_of(cells[0]), cells)
    if arguments.optional("text"):
        return Asked("text", text_bytes=arguments.decimal("count", 1))
    if arguments.optional("disk"):
        drive, index = arguments.octal("drive"), arguments.octal("index")
        explorer.machine.disk_word(turn, drive, index)  # refused if there is no such word
        cell = drive_cell(drive, index)
        return Asked(DiskWord(explorer.machine, drive, index).name, (cell, cell + 1))
    address = arguments.octal("address")
    explorer.machine.word(turn, address)
    return Asked(f"core {address:06o}", word_cells(address))


class Root(NamedTuple):
    """A cell or a byte of the text, by its name, and where it comes from."""

    name: str
    cell: int
    origin: Origin


def roots(machine: Machine, origins: Origins, what: Asked, turn: int) -> list[Root]:
    if not what.text_bytes:
        return [Root(what.name, it, origins.before(it, turn)) for it in what.cells]
    text = machine.text(turn)
    if not 1 <= what.text_bytes <= len(text):
        raise ExploreError(f"the text has {counted(len(text), 'byte')} before turn {turn}")
    numbers = range(len(text) - what.text_bytes, len(text))
    printed = zip(numbers, machine.printed_in(numbers))
    return [
        Root(f"text {in_quotes(text[number])}", TPB, origins.before(TPB, it))
        for number, it in printed
    ]


def in_quotes(byte: int) -> str:
    return f"'{chr(byte)}'" if 0o40 <= byte < 0o177 else f"\\{byte:03o}"


def add_roots(account: Account, begins: Sequence[Root]) -> None:
    """Bytes of one word that come from one step are one."""
    found: dict[ValueStep, Root] = {}
    for root in begins:
        found.setdefault(account.steps.step_of(root.origin), root)
    for step, root in found.items():
        source = account.steps.source(step, root.cell)
        account.add(source, 1, Head(root.name, account.copied(source.copies)))


def end_lines(account: Account, graph: Graph, turn: int, most: int) -> Iterator[str]:
    """What a value is made of in all, and what isn't known of it."""
    machine, steps = account.machine, account.steps
    events = graph.events()
    others = [
        it.number
        for it in sorted(events_with_data(machine))
        if it.turn < turn and it.number not in events
    ]
    limit = "" if graph.is_whole else ", as far as it was followed"
    made = f"event{'s' if len(events) > 1 else ''} {ranges(events)}" if events else "no event"
    yield f"made of {made}, not of {ranges(others)}{limit}" if others else f"made of {made}{limit}"
    ends = [it for it in steps.ordered if not it.is_write and it.kind != OriginKind.EVENT]
    if ends:
        shown = "; ".join(account.end(it) for it in ends[:MOST_ENDS])
        more = f"; and {len(ends) - MOST_ENDS} more" if len(ends) > MOST_ENDS else ""
        yield f"and of {shown}{more}"
    if graph.left:
        last = max(it.turn for it in graph.left)
        why = graph.stopped or f"the limit is {counted(most, 'step')}, which `steps C` sets"
        some = counted(len(graph.left), "write")
        are = "wasn't" if len(graph.left) == 1 else "weren't"
        yield f"{some} in turn {last} or before it {are} followed: {why}"


def change_lines(account: Account, what: Asked, turn: int) -> Iterator[str]:
    """The changes of a word of a drive that left nothing in it."""
    machine, at = account.machine, byte_of_drive(what.cells[0])
    word = DiskWord(machine, at.drive, at.word)
    changes = list(itertools.islice(word.changes(range(0, turn)), COUNTED_CHANGES))
    if len(changes) == COUNTED_CHANGES:
        return
    word_of = what.cells[0]
    moved = (OriginKind.MOVED, word_of)
    known = {it.turn for it in account.steps.inputs if (it.kind, it.at) == moved}
    gone = [it for it in changes if it not in known]
    values = [(word.value(it), word.value(it + 1)) for it in gone[:MOST_CHANGES]]
    shown = ", ".join(f"{it} ({old:06o} to {new:06o})" for it, (old, new) in zip(gone, values))
    if gone:
        several, more = "s" if len(gone) > 1 else "", " .." if len(gone) > len(values) else ""
        yield f"changes of {what.name} that left nothing in it: turn{several} {shown}{more}"


@command(
    "  or  ".join(f"why {it} [at N] [steps C] [places]" for it in ASKED),
    r"((?P<register>[Rr][0-5]|[KUku]?[Ss][Pp]|[Pp][SsCc]|[NZVC])|(?P<text>text)( <count:decimal>)?"
    r"|(?P<disk>disk) ((?P<drive>[0-7]) )?<index:octal>|(core )?<address:address>)"
    r"( at <turn:decimal>)?( steps <steps:decimal>)?(?P<places> places)?",
    "what a word, a register or the end of the text is made of",
)
def why(explorer: Explorer, arguments: Arguments) -> Iterator[str]:
    """Shows what a word of core or of a drive, a register (R0 to R5, KSP, USP, SP, PS, or one of
    the codes N, Z, V and C), or the last C bytes of the text were made of before turn N: without
    `at` the current turn. Of PC it shows what sent the program there: the last conditional branch,
    as `branches` does, the last turns since then that went elsewhere, without a condition, and what
    the codes were made of that the branch looked at. Each line has a value and `<-` the operation
    that made it. Below it stands what that was made of, and the part with the most behind it goes
    on at the same indent. Copies have no line, and many operations on one value have one, with what
    it was before them. At the end stand the events that the value is made of. 'Made of' is of data:
    what a branch decided isn't followed, and at which address a value was only with `places`. After
    2000 steps, or C of `steps`, the rest isn't followed, nor is a register further back than 20000
    turns: both are said. The page draws the turns of these steps. `moves` has what single turns
    make of what, as the program proves it: explore's rules are compared with that."""
    machine, turn = explorer.machine, arguments.decimal("turn", explorer.turn)
    what, most = asked(explorer, arguments, turn), arguments.decimal("steps", MOST_STEPS)
    if not most:
        raise ExploreError("C of steps is 1 or more")
    end = turn
    if what.name == "PC":
        branch, lines = sent_here(explorer, end)
        yield from lines
        if branch is None:
            explorer.turn = end
            return
        turn, cells = branch.act.turn, tuple(branch.sources)
        what = Asked(", ".join(dict.fromkeys(map(name_of, cells))), cells)
    origins = Origins(machine, turn, bool(arguments.optional("places")))
    begins = roots(machine, origins, what, turn)
    graph = origins.graph([it.origin for it in begins], most)
    steps = ValueSteps(origins, graph)
    account = Account(explorer, steps)
    value = account.value(what.cells[0], turn) if what.cells and "," not in what.name else ""
    yield f"{what.name} before turn {turn}{f': {value}' if value else ''}"
    add_roots(account, begins)
    yield from account.written()
    yield from end_lines(account, graph, turn, most)
    yield from [ELSEWHERE] if origins.places else []
    if what.cells and is_of_drive(what.cells[0]) and graph.is_whole:
        yield from change_lines(account, what, turn)
    explorer.turn = end
