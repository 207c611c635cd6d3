"""Which runs of an instruction have left nothing, which keys weren't read: `lost`."""
from typing import Iterator, Optional, Sequence

from ..core.engine import LAST_TURN, Machine
from ..core.errors import ExploreError
from ..core.in_words import counted, some_are, span
from ..core.replies import INSTRUCTION, MODES, Mode
from ..core.struck import Fate, StruckKey, struck_keys
from ..core.values import dataclass, field
from .cells import is_core, is_of_drive, is_register
from .command import SEARCHED_TURNS, Arguments, command, turns_before, turns_between
from .crew import Progress, stopped_by
from .explorer import Explorer
from .labels import RESULTS, Labels
from .listing import turns_in_words
from .operands import Flow
from .search import word_of
from .turn_flow import flows_with_bar

MOST_RUNS, MOST_LINES = 4_096, 60
HEADING = f"{'event':>5}  {'turn':>10}  {'key':<12}  {'until':>10}  {'turns':>10}"


@dataclass
class Runs:
    """The runs of an instruction, each with a label of its own."""

    machine: Machine
    pc: int
    mode: int
    turns: list[int] = field(default_factory=list)
    labels: Labels = field(default_factory=Labels)
    without_result: int = 0  # runs that wrote no word and no register
    end: int = 0  # the turn before which the walk is

    def walk(self, turns: range) -> Iterator[None]:
        """Walks over these turns, one at a time. Before the first run there is nothing to carry."""
        self.end = turns.start
        found = self.machine.found("first", turns, f"at {self.pc:o} {MODES[self.mode].value}")
        if found is None:
            self.end = turns.stop
            return
        for flow in flows_with_bar(self.machine, range(found, turns.stop)):
            self.take(flow)
            yield

    def take(self, flow: Flow) -> None:
        if flow.transfer is not None:
            self.labels.transfer(flow.transfer)
        self.labels.turn(flow.moves, self.label(flow))
        self.end = flow.turn + 1

    def label(self, flow: Flow) -> int:
        """The label of what the turn writes, if it runs the instruction to its end."""
        is_here = flow.act.pc == self.pc and flow.mode == self.mode
        if not is_here or flow.act.act != INSTRUCTION or flow.vector is not None:
            return 0
        if not any(it.how in RESULTS for it in flow.moves):
            self.without_result += 1
            return 0
        if len(self.turns) == MOST_RUNS:
            raise ExploreError(f"there are more than {MOST_RUNS} runs; name fewer turns")
        self.turns.append(flow.turn)
        return 1 << len(self.turns) - 1

    @property
    def count(self) -> int:
        return len(self.turns) + self.without_result

    @property
    def place(self) -> str:
        return f"{MODES[self.mode].value} {self.pc:06o}"

    def left(self) -> tuple[int, int]:
        """The labels on the drives, and those in core and in registers."""
        on_disk = in_core = 0
        for cell, labels in self.labels.bits.items():
            if is_of_drive(cell):
                on_disk |= labels
            elif is_core(cell) or is_register(cell):
                in_core |= labels
        return on_disk, in_core


@command(
    "lost keys [N M]  or  lost PC A [user|kernel] from N to M",
    r"((?P<keys>keys)( <turn:decimal> <end:decimal>)?"
    r"|(PC|pc) <address:address>( (?P<mode>user|kernel))? from <first:decimal> to <last:decimal>)",
    "keys that weren't read; runs of an instruction that have left nothing on the disk",
)
def lost(explorer: Explorer, arguments: Arguments) -> Iterator[str]:
    """`lost keys` shows what became of each key that is struck from turn N on and before turn M,
    without N and M of all keys. First come those that were lost: before the program read TKB
    another key took its place there, or RESET cleared done. Then come those that were read, the
    longest delay first. `until` is the turn of that, and `turns` is how many it took. A read of TKB
    counts if done is set. It is exact, and Ctrl-C shows what was found up to there.
    `lost PC` follows what each run of the instruction at A wrote, over the turns N to M, and shows
    the runs of which nothing is left after turn M: on no drive, but in core or a register; or
    nowhere. A is an address as the program has it, in kernel mode if none is named. A run that
    traps doesn't count. 'Left' is of data, as in `follow`: a word that was only counted with, or
    that decided a branch, is none. Only writes of the disk in the turns N to M bring something to a
    drive. Ctrl-C ends it, and what was found up to there is shown."""
    if arguments.optional("keys"):
        yield from lost_keys(explorer, arguments)
        return
    turns = turns_between(arguments.decimal("first"), arguments.decimal("last"))
    pc, mode = word_of(arguments, "address"), MODES.index(Mode(arguments.text("mode") or "kernel"))
    runs = Runs(explorer.machine, pc, mode)
    stopped = stopped_by(runs.walk(turns))
    yield from lines_of(explorer, runs, range(turns.start, max(runs.end, turns.start + 1)))
    if stopped:
        yield f"the turns from {runs.end} on weren't looked at: {stopped}"


def lines_of(explorer: Explorer, runs: Runs, turns: range) -> Iterator[str]:
    on_disk, in_core = runs.left()
    kept = [at for at in range(len(runs.turns)) if not on_disk >> at & 1]
    gone = [at for at in kept if not in_core >> at & 1]
    shown = [runs.turns[at] for at in kept[:MOST_LINES]]
    for at, turn, text in zip(kept, shown, turns_in_words(explorer, shown)):
        where = "in core or a register, not on the disk" if in_core >> at & 1 else NOTHING_LEFT
        yield f"turn {turn}: {text}: {where}"
    if len(kept) > len(shown):
        yield f".. {counted(len(kept) - len(shown), 'run')} more"
    yield f"{counted(runs.count, 'run')} of {runs.place} in {span(turns)}: " + ", ".join(
        f"{count} {what}"
        for count, what in (
            (len(runs.turns) - len(kept), "on the disk"),
            (len(kept) - len(gone), "in core or a register alone"),
            (len(gone), "left nothing"),
            (runs.without_result, "wrote no word and no register"),
        )
        if count or what == "left nothing"
    )


NOTHING_LEFT = "nothing of it is left"


# Keys


def looked_at(machine: Machine, turns: range, found: list[StruckKey]) -> Iterator[None]:
    """Finds what became of the keys of these turns, with a bar."""
    with Progress(sum(it in turns for it in machine.turns_of("key ")), "keys") as progress:
        for key in struck_keys(machine, turns):
            found.append(key)
            progress.step()
            yield


def lost_keys(explorer: Explorer, arguments: Arguments) -> Iterator[str]:
    struck = explorer.machine.turns_of("key ")
    if arguments.optional("turn"):
        turns = turns_before(arguments.decimal("turn"), arguments.decimal("end"))
    else:
        known = max([explorer.machine.asked.greatest, *struck])
        turns = range(min(LAST_TURN, known + SEARCHED_TURNS))
    keys: list[StruckKey] = []
    stopped = stopped_by(looked_at(explorer.machine, turns, keys))
    lost = [it for it in keys if it.fate in (Fate.OVERWRITTEN, Fate.DROPPED)]
    waiting = [it for it in keys if it.fate is Fate.WAITS]
    read = sorted((it for it in keys if it.fate is Fate.READ), key=lambda it: -it.delay)
    shown = [*lost[:MOST_LINES], *waiting, *read[:MOST_LINES]]
    yield from [HEADING] if shown else []
    yield from key_rows(explorer, shown)
    for found, what in ((lost, "lost"), (read, "read, none after more turns than these")):
        if len(found) > MOST_LINES:
            yield f".. {counted(len(found) - MOST_LINES, 'key')} more {what}"
    were = ", ".join(f"{len(it)} {what}" for it, what in ((lost, "lost"), (read, "read")))
    count = f"{counted(len(keys), 'key')} in {span(turns)}"
    if stopped:
        of = some_are(len(keys), sum(it in turns for it in struck), "key")
        count = f"{stopped}: {of} looked at"
    yield f"{count}: {were}{waits(waiting)}"


def waits(waiting: Sequence[StruckKey]) -> str:
    return "".join(f", 1 waits before turn {it.turn}" for it in waiting)


def key_rows(explorer: Explorer, keys: Sequence[StruckKey]) -> Iterator[str]:
    """A line for each of these keys."""
    turns = sorted({it.turn for it in keys if it.by is None and it.fate is not Fate.WAITS})
    by = dict(zip(turns, turns_in_words(explorer, turns)))
    for it in keys:
        yield f"{place_of(it)}  {it.turn:>10}  {it.delay:>10}  {said(it, by.get(it.turn))}"


def place_of(key: StruckKey) -> str:
    number, turn, _ = key.event
    return f"{number:>5}  {turn:>10}  {key.event.explained():<12}"


def said(key: StruckKey, by: Optional[str]) -> str:
    if key.by is not None:
        return f"lost: event {key.by.number}, {key.by.explained()}, takes its place"
    if key.fate is Fate.WAITS:
        return "waits still"
    return f"{'read' if key.fate is Fate.READ else 'lost: dropped'} by {by}"
