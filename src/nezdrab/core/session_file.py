"""A session as a file: its edits, as a machine takes them."""
from itertools import groupby
from pathlib import Path
from typing import Iterator

from . import sessions
from .engine import UNDO, Machine, in_parts, is_refused, is_taken
from .errors import ExploreError
from .language import STEPS, explanation
from .values import dataclass

LINES_AT_ONCE, LONGEST_SHOWN = 10_000, 200
NOTHING_LEFT = "refused 17 NoSuchEdit"


@dataclass(frozen=True)
class RefusedLine:
    """A line of a session that was refused, its number, its reply, and why."""

    number: int
    line: str
    reply: str
    why: str


def session_lines(path: Path) -> list[tuple[int, str]]:
    """The lines of a session that get a reply, with their numbers. Its questions have no effect,
    and are left out."""
    try:
        lines = sessions.lines_of(path.read_bytes())
    except OSError as error:
        raise ExploreError(f"{path}: {error.strerror}") from error
    acting = (sessions.EDIT, sessions.STEP)
    asked = {sessions.command_of(it) for it in sessions.TABLE if it.kind not in acting}
    bare = ((number, sessions.without_end(it)) for number, it in enumerate(lines, 1))
    return [
        (number, line.decode(errors="surrogateescape"))
        for number, line in bare
        if sessions.has_reply(line) and sessions.first_word(line) not in asked
    ]


def is_step(line: str) -> bool:
    """Whether the line is undo or redo, and nothing else."""
    return line.split() in [[it] for it in STEPS]


def steps_taken(machine: Machine, steps: Iterator[str], first: int, undone: list[str]) -> list[str]:
    """The replies to lines undo and redo, which take edits of the journal back as far as `first` or
    make again those in `undone`. `version 2` isn't taken back, nor what stands before it."""
    replies = []
    for line in steps:
        journal = machine.journal
        is_undo = line.split() == [UNDO]
        if is_undo and len(journal) > first and sessions.first_word(journal[-1]) != "version":
            undone.append(journal[-1])
            machine.take_back(1)
        elif not is_undo and undone:
            machine.make_again([undone.pop()])
        else:
            replies.append(NOTHING_LEFT)
            continue
        replies.append("ok")
    return replies


def replies_to(machine: Machine, lines: list[str]) -> Iterator[str]:
    """The replies to the lines of a session: edits, and undo and redo, which take back edits of
    this session alone."""
    first, undone = len(machine.journal), list[str]()
    for are_steps, group in groupby(lines, is_step):
        if are_steps:
            yield from steps_taken(machine, group, first, undone)
            continue
        for part in in_parts(list(group), LINES_AT_ONCE):
            replies = machine.edit_all(part)
            if any(map(is_taken, replies)):
                undone.clear()
            yield from replies


def made_edits(machine: Machine, path: Path) -> Iterator[RefusedLine]:
    """Makes the edits of a session, and yields those that are refused."""
    version = 1  # as the lines before have it: it isn't asked between lines that are sent ahead
    lines = session_lines(path)
    replies = replies_to(machine, [line for _, line in lines])
    for (number, line), reply in zip(lines, replies):
        if is_refused(reply):
            yield RefusedLine(number, line, reply, explanation(line, reply, version))
        elif sessions.first_word(line) == "version":
            version = 2


def refused_lines(machine: Machine, path: Path) -> Iterator[str]:
    """Makes the edits of a session, and tells of each that is refused."""
    for it in made_edits(machine, path):
        shown = it.line if len(it.line) <= LONGEST_SHOWN else f"{it.line[:LONGEST_SHOWN]}.."
        yield f"{path}:{it.number}: {shown}: {it.reply} {it.why}".rstrip()
