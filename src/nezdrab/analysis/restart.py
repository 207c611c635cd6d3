"""The program started again with other options, and with all edits."""
from pathlib import Path
from typing import Callable, Mapping, Optional, Sequence

from ..core.engine import Machine, Start, is_refused
from ..core.errors import ExploreError
from ..core.interrupts import INTERRUPTS
from ..core.options import Options, faults_of, option_lines, options_of_words, words_of_options
from ..core.values import replace
from .explorer import Explorer


def options_of(start: Start) -> Options:
    """The options that a program is started with. Paths are absolute."""
    return options_of_words(start.options, "explore", Path(start.folder))


def begin_as(machine: Machine, start: Start) -> None:
    """Starts the program so, with all edits, and the journal says so. If it doesn't run, all is as
    before."""
    before = machine.start
    if start == before:
        return
    machine.restart()
    machine.start = start
    try:
        machine.begin()
    except BaseException:
        machine.restart()
        machine.start = before
        raise
    if machine.file is not None:
        lines = [list(option_lines(options_of(it))) for it in (before, start)]
        machine.file.change_options(*lines)


def make(
    explorer: Explorer, options: Mapping[str, str], edits: Callable[[], list[str]]
) -> list[str]:
    """Starts the program again if it hasn't these options, and makes the edits, which it returns.
    If the program refuses anything, all is as before."""
    machine, steps = explorer.machine, explorer.steps
    before = machine.start
    now = options_of(before)
    as_now = {**now, "start": f"{machine.setup.start:o}"}
    is_other = any(as_now.get(name) != value for name, value in options.items())
    then = {**now, **options}
    for wrong in faults_of(then).values():
        raise ExploreError(wrong)
    with INTERRUPTS.held():
        if is_other:
            begin_as(machine, replace(before, options=words_of_options(then)))
            steps.starts, explorer.saved = (before, machine.start), []
        try:
            made = edits()
            edit_whole(machine, made)
        except BaseException:
            begin_as(machine, before)
            steps.starts = None
            raise
    return made


def edit_whole(
    machine: Machine, edits: Sequence[str], made: Optional[Callable[[], list[str]]] = None
) -> None:
    """Makes all these edits, or none. `made` makes them in another way, and returns the replies."""
    count = len(machine.journal)
    for line, reply in zip(edits, made() if made else machine.edit_all(edits)):
        if is_refused(reply):
            if len(machine.journal) > count:
                machine.take_back(len(machine.journal) - count)
            raise ExploreError(f"{line}: {reply}; nothing was changed")
