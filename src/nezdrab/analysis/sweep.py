"""One event at each of many turns: `sweep`."""
import hashlib
import re
from contextlib import closing
from pathlib import Path
from typing import Iterator, Optional, Sequence

from ..core import sessions
from ..core.asked import last_turn_of
from ..core.engine import LAST_TURN, Machine
from ..core.errors import ExploreError
from ..core.in_words import counted, some_are
from ..core.language import MOST_DIGITS, SEARCHES, comma_fault, is_decimal, is_edit
from ..core.sessions import words_of
from ..core.twins import Sweep, each_of
from ..core.values import dataclass, field
from .command import Arguments, check_turn, command
from .crew import Progress
from .explorer import Explorer
from .fades import fade_of
from .long_work import WorkOptions, job_lines, kept_in, read_files, stopped_work
from .script import past_lines

SWEEP = re.compile(
    r"(?P<fades>--fades )?(?P<event>[0-9]{1,10}|[a-z].*?)"
    r" from (?P<first>[0-9]{1,10}) to (?P<last>[0-9]{1,10})"
    r"( step (?P<step>[0-9]{1,10}))? ?: ?(?P<question>.+)"
)
QUESTIONS = SEARCHES | {it.decode() for it in sessions.QUESTIONS}
JOBS = 64
WITH_FADES = "# sweep --fades "
AGAIN = re.compile(r"(.*; the old run again from turn) ([0-9]{1,10}) on", re.DOTALL)


@dataclass
class LineSweep(Sweep):
    """The sweep that a line asks for, with the turns at which the event is put."""

    turns: range = range(0)
    faded_to: Optional[int] = None  # up to where an edit is looked at, with --fades

    @property
    def question(self) -> str:
        return self.lines[0]

    @classmethod
    def of_line(cls, machine: Machine, text: str) -> "LineSweep":
        match = SWEEP.fullmatch(" ".join(words_of(text)))
        if match is None:
            form = "the form is: sweep EVENT|E from N to M [step K]: QUESTION"
            commas = comma_fault(text)
            raise ExploreError(f"{commas}; {form}" if commas else form)
        for turn in (match["first"], match["last"]):
            check_turn(int(turn))
        step = int(match["step"] or 1)
        if not step:
            raise ExploreError("K of step is 1 or more")
        turns = range(int(match["first"]), int(match["last"]) + 1, step)
        event, question, moved = match["event"], match["question"], None
        if is_decimal(event):
            moved = machine.event(int(event))
            if moved is None:
                raise ExploreError(f"no event has the number {int(event)}; events lists them")
            event = moved.text
        if not turns:
            raise ExploreError(f"turn {match['last']} comes before turn {match['first']}")
        check_question(question)
        faded_to = end_of(question) if match["fades"] else None
        return cls(machine, event, moved, [question], turns=turns, faded_to=faded_to)

    def check(self, machine: Machine) -> None:
        """Tries the event and the question, once, on a twin."""
        with closing(machine.twin()) as twin:
            self.part(twin, [self.turns[0]])

    def row(self, twin: Machine, turn: int) -> str:
        """The reply with the event at this turn, and with --fades where the edit fades."""
        ((reply,),) = self.part(twin, [turn])
        if self.faded_to is None:
            return in_one_line(reply)
        word = "at" if self.moved is None else f"alter {self.moved.number}"
        return in_one_line(reply) + fades_of(twin, f"{word} {turn} {self.event}", self.faded_to)

    def heading(self, machine: Machine) -> str:
        """What results are of: the event, the question and the past. The turns may be others."""
        moved = f" moved from turn {self.moved.turn}" if self.moved else ""
        heading = "# sweep " if self.faded_to is None else WITH_FADES
        return f"{heading}{self.event}{moved}: {self.question}, past {digest_of(machine)}"


def end_of(question: str) -> int:
    """The last turn that a question is about: up to it the program looks whether an edit fades."""
    turn = last_turn_of(question)
    if turn is None:
        raise ExploreError(f"--fades looks up to the question's turn, and '{question}' has none")
    return min(turn, LAST_TURN)


def fades_of(twin: Machine, edit: str, end: int) -> str:
    """Where an edit of this past fades, to be put behind a reply."""
    fade = fade_of(twin, edit, end)
    if fade is None:
        raise ExploreError(f"{edit}: the program doesn't say whether it fades")
    if fade.turn is None:
        return f"; not the old run again before turn {end}"
    return f"; the old run again from turn {fade.turn} on"


def parted(heading: str, reply: str) -> tuple[str, Optional[int]]:
    """A reply without the turn in which the edit fades, and that turn, if it has one."""
    match = AGAIN.fullmatch(reply) if heading.startswith(WITH_FADES) else None
    return (match[1], int(match[2])) if match else (reply, None)


def together(reply: str, fades: list[int]) -> str:
    """The reply that turns have in common, with the turns in which their edits fade."""
    if not fades:
        return reply
    first, last = min(fades), max(fades)
    return f"{reply} {first} on" if first == last else f"{reply}s {first} to {last} on"


def digest_of(machine: Machine) -> str:
    """What tells a past from others: a digest of the options and the edits."""
    past = "\n".join([*machine.start.options, *past_lines(machine)])
    return hashlib.sha256(past.encode(errors="surrogateescape")).hexdigest()[:16]


def in_one_line(reply: str) -> str:
    return reply.replace("\n", " / ")


def check_question(question: str) -> None:
    """An error if a line is none of the language that asks."""
    word = sessions.first_word(question)
    if not sessions.has_reply(question.encode(errors="surrogateescape")):
        raise ExploreError("a comment is no question")
    if is_edit(question):
        raise ExploreError("an edit is no question")
    if word not in QUESTIONS:
        raise ExploreError(f"'{word}' is no question; these are: {', '.join(sorted(QUESTIONS))}")


@dataclass
class Run:
    """Turns that follow one another with equal replies, and where their edits fade."""

    first: int
    last: int
    reply: str
    fades: list[int]


@dataclass
class Results:
    """Replies by turn, in lines `TURN REPLY` of a file after a heading."""

    work = "sweep"
    heading: str = ""
    replies: dict[int, str] = field(default_factory=dict)
    known: dict[str, str] = field(default_factory=dict)

    def add(self, turn: int, reply: str) -> None:
        """Equal replies are kept as one text."""
        self.replies[turn] = self.known.setdefault(reply, reply)

    def __len__(self) -> int:
        return len(self.replies)

    def take(self, line: str) -> str:
        turn, _, reply = line.partition(" ")
        if line.startswith("#"):
            return "" if line == self.heading else f"of another sweep, or of another past: {line}"
        if not is_decimal(turn) or len(turn) > MOST_DIGITS or not reply:
            return "no line of a sweep"
        self.add(int(turn), reply)
        return ""

    def lines(self, step: int) -> Iterator[str]:
        """Runs of turns with equal replies, each `step` turns after the one before."""
        runs: list[Run] = []
        for turn, text in sorted(self.replies.items()):
            reply, fades = parted(self.heading, text)
            if not runs or runs[-1].reply != reply or turn - runs[-1].last != step:
                runs.append(Run(turn, turn, reply, []))
            runs[-1].last = turn
            runs[-1].fades += [] if fades is None else [fades]
        by = f" step {step}" if step > 1 else ""
        for run in runs:
            is_one = run.first == run.last
            where = f"turn {run.first}" if is_one else f"turns {run.first} to {run.last}{by}"
            yield f"{where}: {together(run.reply, run.fades)}"
        yield f"{counted(len(self.replies), 'turn')}, {counted(len(runs), 'run')} of equal replies"


def swept(machine: Machine, sweep: LineSweep, results: Results, hands: int) -> Iterator[str]:
    """The turns that aren't known yet, with their replies, as they come."""
    known = results.replies
    count = sum(1 for it in sweep.turns if it not in known) if known else len(sweep.turns)
    wanted = (it for it in sweep.turns if it not in known)
    if not count:
        return
    hands = min(hands, count)
    with Progress(count, "turns") as progress:
        stride = sweep.stride(sweep.turns[0])
        for turn, reply in each_of(machine, wanted, sweep.row, hands, stride):
            progress.step()
            results.add(turn, reply)
            yield f"{turn} {reply}"


def sweep_lines(
    explorer: Explorer, sweep: LineSweep, hands: int, path: Optional[Path]
) -> Iterator[str]:
    machine = explorer.machine
    results = Results(sweep.heading(machine))
    stopped = stopped_work(results, swept(machine, sweep, results, hands), path)
    results.replies = {turn: it for turn, it in results.replies.items() if turn in sweep.turns}
    yield from results.lines(sweep.turns.step)
    if stopped:
        turns_are = some_are(len(results.replies), len(sweep.turns), "turn")
        yield f"{stopped}: {turns_are} done{kept_in(path)}"


def parts_of(machine: Machine, sweep: LineSweep) -> Iterator[str]:
    """The sweeps of some of its turns each that are the whole sweep together."""
    event = sweep.event
    if sweep.moved:  # the session of the parts numbers its events anew
        event = str(machine.script.index(sweep.moved) + 1)
    fades = "" if sweep.faded_to is None else "--fades "
    size = -(-len(sweep.turns) // JOBS)
    for at in range(0, len(sweep.turns), size):
        part = sweep.turns[at : at + size]
        where = f"from {part[0]} to {part[-1]} step {part.step}"
        yield f"{fades}{event} {where}: {sweep.question}"


def gathered(paths: Sequence[str]) -> Iterator[str]:
    results = Results()
    read_files(results, paths)
    turns = sorted(results.replies)
    steps = [after - before for before, after in zip(turns, turns[1:])]
    step = min(steps, default=1)
    yield results.heading
    yield from results.lines(step)
    missing = sum(it // step - 1 for it in steps)
    if missing:
        yield f"missing between the first and the last: {counted(missing, 'turn')}"


@command(
    "sweep [-j N] [-o FILE] [-y] [--fades] [--jobs FILE] EVENT|E from N to M [step K]: QUESTION"
    "  or  sweep --gather FILE ..",
    r"(?P<words>.+)",
    "a question with an event at each of these turns",
)
def sweep_command(explorer: Explorer, arguments: Arguments) -> Iterator[str]:
    """Puts EVENT at each of the turns N to M (each K-th), one at a time, and asks QUESTION, a line
    of the language. A number E moves the event with this number. Turns with equal replies that
    follow one another are one line. The past stays as it is. -j N takes N processes (without it one
    for each processor). -o FILE keeps each reply at once: after Ctrl-C the same line goes on. Two
    sweeps can't write to one FILE. More than 100000 turns want a `y`, or -y.
    --fades adds to each reply from which turn on the run is the old one again, if it is by the turn
    of QUESTION. For turns with equal replies it names the first and the last of these turns.
    --jobs FILE writes commands for GNU parallel instead, on this machine or on others with the same
    folders, and --gather FILE .. reads what they have written."""
    options = WorkOptions(arguments.text("words"), ("-y", "--fades"))
    if options.gathered is not None:
        yield from gathered(options.gathered)
        return
    fades = "--fades " if options.has("--fades") else ""
    sweep = LineSweep.of_line(explorer.machine, fades + options.line(explorer))
    options.check(explorer, "sweep", len(sweep.turns), "turns")
    jobs = options.path("--jobs")
    if jobs:
        sweep.check(explorer.machine)
        yield from job_lines(explorer.machine, "sweep", [*parts_of(explorer.machine, sweep)], jobs)
    else:
        yield from sweep_lines(explorer, sweep, options.hands, options.path("-o"))


def raw_lines(explorer: Explorer, text: str) -> Iterator[str]:
    """The sweep of one job: a heading, and each turn with its reply."""
    sweep = LineSweep.of_line(explorer.machine, text)
    yield sweep.heading(explorer.machine)
    yield from swept(explorer.machine, sweep, Results(), 1)
