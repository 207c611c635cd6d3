"""Which events a reply depends on, and how near a move of each changes it: `matters`."""
import re
from pathlib import Path
from typing import Iterable, Iterator, Optional, Sequence

from ..core.asked import sparse_stride
from ..core.engine import LAST_TURN, Machine
from ..core.errors import ExploreError
from ..core.in_words import counted, some_are
from ..core.language import comma_fault
from ..core.moves import USUAL_MOST, Asking, Moved, Moves, Task, Trial, Tried, Way, common
from ..core.moves import events_of
from ..core.past import Event
from ..core.sessions import words_of
from ..core.twins import each_of
from ..core.values import dataclass, field
from .command import Arguments, command
from .crew import Progress
from .explorer import Explorer
from .long_work import WorkOptions, job_lines, kept_in, read_files, stopped_work
from .matters_table import EventRow, table
from .sought_reply import is_reply, reply_of_turn
from .sweep import digest_of, end_of, in_one_line

JOBS = 64
FORM = "matters [E ..] [within C|near C]: QUESTION [until REPLY]"
MATTERS = re.compile(
    r"(?P<events>[0-9]{1,10}( [0-9]{1,10})*)?"
    r"((^| )(?P<how>within|near)( (?P<most>[0-9]{1,10}))?)? ?: ?(?P<question>.+)"
)
HEADING = re.compile(
    r"# matters(?P<near> near)?: (?P<question>.+?)( until (?P<until>.+))?"
    r", past [0-9a-f]{16}, reply (?P<reply>.*)"
)
RESULT = re.compile(
    r"(?P<event>[0-9]{1,10}) (?P<turn>[0-9]{1,10}) (?P<text>[a-z]+( [0-7]{1,6})?): "
    r"(?P<way>dropped|earlier|later) (?P<first>[0-9]{1,10}) (?P<last>[0-9]{1,10}) (?P<reply>.+)"
)
SAME = "same"


@dataclass
class Results:
    """What is known of the moves, in lines `EVENT TURN WHAT: WAY FIRST LAST REPLY` of a file after
    a heading. The reply is that of the move by LAST turns, and `same` before it; or all are. The
    events of a file are those of the script, if there is one."""

    work = "matters"
    heading: str = ""
    script: Optional[Sequence[Event]] = None
    tried: dict[tuple[Event, Way], Tried] = field(default_factory=dict)

    def of(self, event: Event, way: Way) -> Tried:
        return self.tried.setdefault((event, way), Tried())

    def add(self, task: Task, change: Optional[Moved[str]]) -> str:
        """Takes in what came of a task. Returns its line for a file."""
        first, last = task.shifts[0], task.shifts[-1]
        last = change.turns if change else last
        self.of(task.event, task.way).add(range(first, last + 1), change)
        event = f"{task.event.number} {task.event.turn} {task.event.text}"
        return f"{event}: {task.way.value} {first} {last} {change.answer if change else SAME}"

    def __post_init__(self) -> None:
        self.events = None if self.script is None else frozenset(self.script)

    def __len__(self) -> int:
        return sum(len(it.known) for it in self.tried.values())

    def take(self, line: str) -> str:
        found = RESULT.fullmatch(line)
        event = Event(int(found["event"]), int(found["turn"]), found["text"]) if found else None
        is_foreign = event is not None and self.events is not None and event not in self.events
        if is_foreign or line.startswith("#") and line != self.heading:
            return f"of another question, or of another past: {line}"
        if found is None or event is None:
            return "" if HEADING.fullmatch(line) else "no line of matters"
        first, last = int(found["first"]), int(found["last"])
        change = None if found["reply"] == SAME else Moved(last, found["reply"])
        self.of(event, Way(found["way"])).add(range(first, last + 1), change)
        return ""

    def rows(self, events: Iterable[Event]) -> list[EventRow]:
        return [EventRow(it, {way: self.of(it, way) for way in Way}) for it in events]

    def count(self, event: Event, way: Way, moves: range) -> int:
        """How many of these moves are known."""
        return sum(len(common(it, moves)) for it in self.of(event, way).known)


@dataclass(frozen=True)
class Matters:
    """What a line asks: the question, its reply without a move, the moves, and the events that are
    moved. `until` is the reply that is looked for, or empty for any other one."""

    question: str
    reply: str
    until: str
    moves: Moves
    events: Sequence[Event]
    left_out: int  # events that no move brings before the end, if none are named

    @classmethod
    def of(cls, machine: Machine, text: str) -> "Matters":
        text, *until = re.split(r"[ \t]until[ \t]+", text, maxsplit=1)
        match = MATTERS.fullmatch(" ".join(words_of(text)))
        if match is None:
            commas = comma_fault(text)
            raise ExploreError(f"{commas}; " * bool(commas) + f"the form is: {FORM}")
        most = int(match["most"] or USUAL_MOST)
        if not 1 <= most <= LAST_TURN:
            raise ExploreError(f"C is 1 to {LAST_TURN}")
        question, sought = match["question"], "".join(until).strip(" \t")
        reply = reply_of_turn(machine, question)
        if sought and is_reply(sought, reply):
            raise ExploreError(f"the reply is that without a move: {reply}")
        moves = Moves(end_of(question), most, match["how"] == "near")
        named = [int(it) for it in (match["events"] or "").split()]
        events = events_of(machine, moves, named or None)
        left_out = 0 if named else len(machine.script) - len(events)
        return cls(question, reply, sought, moves, events, left_out)

    @property
    def asked(self) -> str:
        """What is asked, in the words of a line."""
        return self.question + (f" until {self.until}" if self.until else "")

    def is_sought(self, reply: str) -> bool:
        """Whether a move that gives this reply is one that is looked for."""
        return is_reply(self.until, reply) if self.until else reply != self.reply

    @property
    def asking(self) -> Asking[str]:
        return Asking([self.question], lambda it: in_one_line(it[0]), self.is_sought)

    def heading(self, machine: Machine) -> str:
        """What results are of: the question, the past and its reply."""
        near = " near" if self.moves.is_near else ""
        past = f"past {digest_of(machine)}, reply {self.reply}"
        return f"# matters{near}: {self.asked}, {past}"

    @property
    def runs(self) -> dict[tuple[Event, Way], range]:
        """The moves of each event in each way that need a run."""
        pairs = ((event, way) for event in self.events for way in Way)
        return {pair: self.moves.runs(*pair) for pair in pairs}

    @property
    def count(self) -> int:
        """How many moves there are to try."""
        return sum(map(len, self.runs.values()))

    @property
    def most_runs(self) -> int:
        """How many of them are tried at most, one after the other."""
        doubled = 2 * self.moves.most.bit_length()
        is_near = self.moves.is_near
        return sum(min(len(it), doubled) if is_near else len(it) for it in self.runs.values())

    def known(self, results: Results) -> int:
        """How many of them are known."""
        return sum(results.count(*pair, runs) for pair, runs in self.runs.items())

    def tasks(self, results: Results) -> Iterator[Task]:
        """What isn't known yet, the nearest moves of all events first. No move of an event is tried
        that is farther than one that is known to change the reply."""
        left = [self.tasks_left(results.of(it, way), it, way) for it in self.events for way in Way]
        while left:
            tasks = [next(it, None) for it in left]
            left = [it for it, task in zip(left, tasks) if task]
            yield from filter(None, tasks)

    def tasks_left(self, tried: Tried, event: Event, way: Way) -> Iterator[Task]:
        for task in self.moves.tasks_of(event, way):
            if tried.is_nearest or tried.change and tried.change.turns < task.shifts.start:
                return
            if not tried.has(task.shifts):
                yield task


def tried(
    machine: Machine, matters: Matters, results: Results, hands: int
) -> Iterator[str]:
    """The lines of what comes of each task, as it comes."""
    moves, trial = matters.moves, Trial(machine, matters.moves, matters.asking)
    stride, hands = sparse_stride(moves.end), min(hands, 3 * len(matters.events))
    with Progress(matters.count - matters.known(results), "moves") as progress:
        for task, change in each_of(machine, matters.tasks(results), trial.change, hands, stride):
            farthest = moves.runs(task.event, task.way).stop
            done = (farthest if change else task.runs.stop) - task.runs.start
            progress.step(min(done, progress.total - progress.done))
            yield results.add(task, change)


def lines_of(
    explorer: Explorer, matters: Matters, hands: int, path: Optional[Path]
) -> Iterator[str]:
    machine, moves = explorer.machine, matters.moves
    results = Results(matters.heading(machine), machine.script)
    work = tried(machine, matters, results, hands) if matters.events else ()
    stopped = stopped_work(results, work, path)
    rows = results.rows(matters.events)
    yield from table(matters.question, matters.reply, rows, moves.is_near, matters.until)
    if matters.left_out:
        events_are = counted(matters.left_out, "event")
        yield f"left out: {events_are}, which no such move brings before turn {moves.end}"
    if stopped:
        moves_are = some_are(matters.known(results), matters.count, "move")
        yield f"{stopped}: {moves_are} tried{kept_in(path)}"


def parts_of(machine: Machine, matters: Matters) -> Iterator[str]:
    """The same for some of the events each. The session of the parts numbers its events anew."""
    moves, script = matters.moves, machine.script
    places = {event: str(at) for at, event in enumerate(script, 1)}
    how = f"{'near' if moves.is_near else 'within'} {moves.most}"
    size = max(1, -(-len(matters.events) // JOBS))
    for at in range(0, len(matters.events), size):
        part = matters.events[at : at + size]
        yield f"{' '.join(places[it] for it in part)} {how}: {matters.asked}"


def gathered(paths: Sequence[str]) -> Iterator[str]:
    results = Results()
    read_files(results, paths)
    heading = HEADING.fullmatch(results.heading)
    if heading is None:
        raise ExploreError(f"{paths[0]} has no results")
    rows = results.rows({event for event, _ in results.tried})
    shown = heading["question"], heading["reply"], rows, bool(heading["near"])
    yield from table(*shown, heading["until"] or "")


@command(
    "matters [-j N] [-o FILE] [-y] [--jobs FILE] [E ..] [within C|near C]: QUESTION [until REPLY]"
    "  or  matters --gather FILE ..",
    r"(?P<words>.+)",
    "which events a reply depends on, and by how few turns; which change makes a reply",
)
def matters_command(explorer: Explorer, arguments: Arguments) -> Iterator[str]:
    """Asks QUESTION, a line of the language that names its turn, with each event dropped, and moved
    earlier and later by 1 turn, by 2 and so on up to C turns, without `within` up to 1024. It shows
    the nearest move that changes the reply, and the reply then, cut at .. if it is long. The events
    that the smallest moves matter of come first. Numbers E name the events to try; without them all
    are tried. A moved event comes last in its new turn. The past stays as it is.
    `same (to C)` is exact: each of these moves was tried, but for those that can't matter before
    the turn of QUESTION, and those of a key from a turn in which the program doesn't notice it to
    the next one: both make the same run. With `near C` moves of 1, 2, 4, 8 turns and so on are
    tried until one changes the reply, and then halves. That takes far fewer runs, and may miss a
    nearer move, or the only one.
    With `until REPLY` a move counts only if it makes the reply that REPLY: the table has the
    nearest of these, and the last line the nearest of all that was found. REPLY is the reply as it
    is shown, with or without its first word and zeros before numbers; `..` stands for anything.
    -j N, -o FILE, -y, --jobs FILE and --gather FILE .. are those of `sweep`."""
    options = WorkOptions(arguments.text("words"), ["-y"])
    if options.gathered is not None:
        yield from gathered(options.gathered)
        return
    matters = Matters.of(explorer.machine, options.line(explorer))
    options.check(explorer, "matters", matters.most_runs, "moves")
    jobs = options.path("--jobs")
    if jobs:
        parts = list(parts_of(explorer.machine, matters))
        yield from job_lines(explorer.machine, "matters", parts, jobs)
    else:
        yield from lines_of(explorer, matters, options.hands, options.path("-o"))


def raw_lines(explorer: Explorer, text: str) -> Iterator[str]:
    """What one job does: a heading, and a line for each task."""
    matters = Matters.of(explorer.machine, text)
    results = Results(matters.heading(explorer.machine))
    yield results.heading
    yield from tried(explorer.machine, matters, results, 1)
