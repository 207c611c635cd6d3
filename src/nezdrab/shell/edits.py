"""Edits that are taken back: `undo`, `redo`, `drop from`."""
from typing import Iterator

from ..analysis.command import Arguments, command
from ..analysis.explorer import Explorer, UndoStep
from ..analysis.restart import begin_as
from ..core.errors import ExploreError
from ..core.in_words import counted
from ..core.interrupts import INTERRUPTS

MOST_LOOKED_AT = 64  # edits that are made at once


def step_in_words(step: UndoStep) -> str:
    count = len(step.edits)
    return step.line if count < 2 else f"{step.line} ({counted(count, 'edit')})"


@command("undo", r"", "takes back the edits of the last line that made any")
def undo(explorer: Explorer, arguments: Arguments) -> Iterator[str]:
    """Takes back the last edit, or all edits of one line, such as the keys of a `type`. The past
    and the numbers of events are those of before. Edits of the session aren't taken back."""
    steps = explorer.steps
    if not steps.done:
        raise ExploreError("no edit was made here; those of the session stay")
    step = steps.done[-1]
    with INTERRUPTS.held():
        if step.edits:
            explorer.machine.take_back(len(step.edits))
        if step.starts:
            begin_as(explorer.machine, step.starts[0])
        steps.undone.append(steps.done.pop())
        steps.count = len(explorer.machine.journal)
    yield f"taken back: {step_in_words(step)}"


@command("redo", r"", "makes the edits again that the last undo took back")
def redo(explorer: Explorer, arguments: Arguments) -> Iterator[str]:
    """Makes again what the last `undo` took back. A new edit ends that."""
    steps = explorer.steps
    if not steps.undone:
        raise ExploreError("nothing was taken back, or an edit came after it")
    step = steps.undone[-1]
    explorer.machine.begin()
    if explorer.machine.file is not None:
        explorer.machine.file.begins(step.line)
    with INTERRUPTS.held():
        if step.starts:
            begin_as(explorer.machine, step.starts[1])
        explorer.machine.make_again(step.edits)
        steps.done.append(steps.undone.pop())
        steps.count = len(explorer.machine.journal)
    yield f"made again: {step_in_words(step)}"


@command("drop from T", r"from <turn:decimal>", "takes out all events from turn T on")
def drop_from(explorer: Explorer, arguments: Arguments) -> Iterator[str]:
    """Takes out each event whose turn is T or later. `undo` takes that back as one."""
    machine, turn = explorer.machine, arguments.decimal("turn")
    found = [f"drop {it.number}" for it in machine.script if it.turn >= turn]
    is_looked_at = explorer.is_terminal and 0 < len(found) <= MOST_LOOKED_AT
    with INTERRUPTS.held():
        if is_looked_at:
            explorer.fading.make(machine, found)
        else:
            machine.edit_all(found)
    yield f"{counted(len(found), 'event')} dropped"
    if is_looked_at:
        yield from explorer.fading.said(machine)
