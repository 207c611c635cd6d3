"""A file that has what is typed and shown, and all turns that run an instruction, each with what a
text names: `log`."""
import os
from itertools import islice
from pathlib import Path
from typing import Iterable, Iterator

from ..analysis.breakpoints import sought_at
from ..analysis.command import Arguments, command, searched_range
from ..analysis.crew import stopped_by
from ..analysis.explorer import Explorer
from ..analysis.search import word_of
from ..core.errors import ExploreError
from ..core.expressions import ALL_REGISTERS, Before
from ..core.in_words import counted, span
from ..core.written_files import OUTPUT
from .output import LINES, Log

MOST_SHOWN, SHOWN_AT_ONCE = 4_096, 64
FORM = "log at [user|kernel] X [from N] [to M] [if CONDITION] [: FORMAT]"
WORDS = (
    r"at ((?P<mode>user|kernel) )?<address:address>{from}{to}"
    r"( if (?P<condition>[^:\0]+))?(( )?:(?P<format>[^\0]*))?"
)


def opened(path: Path) -> int:
    """The file, which is empty then. A pipe that nobody reads is an error."""
    target, _ = OUTPUT.target(path)
    flags = os.O_WRONLY | os.O_CREAT | os.O_TRUNC | os.O_APPEND | os.O_NONBLOCK | os.O_CLOEXEC
    try:
        handle = os.open(target, flags, 0o666)
    except OSError as error:
        raise ExploreError(f"{path} can't be written: {error.strerror}") from error
    os.set_blocking(handle, True)
    return handle


def gathered(found: Iterable[int]) -> tuple[list[int], str]:
    """These turns, or those before what stops the search, and what has stopped it."""
    part: list[int] = []

    def gather() -> Iterator[None]:
        for it in found:
            part.append(it)
            yield

    stopped = stopped_by(gather())
    return part, stopped


def log_lines(explorer: Explorer, arguments: Arguments) -> Iterator[str]:
    """A line for each of the turns, in their order, and one that says how many there are."""
    address, turns = word_of(arguments, "address"), searched_range(explorer, arguments)
    mode, condition = arguments.text("mode"), arguments.text("condition").strip(" \t")
    text = arguments.text("format").strip(" \t") or ALL_REGISTERS
    machine, symbols = explorer.machine, explorer.symbols
    Before(machine, symbols, turns.start).filled(text)  # an error if a name is none
    sought = sought_at(explorer, address, mode, condition)
    machine.check_taken(f"first 0 0 {sought}")
    found = explorer.finder.each(turns, sought)
    shown, stopped, is_all = list[int](), "", False
    while not stopped and not is_all and len(shown) < MOST_SHOWN:
        part, stopped = gathered(islice(found, SHOWN_AT_ONCE))
        is_all = len(part) < SHOWN_AT_ONCE
        for it in Before.each(machine, symbols, part):
            yield f"turn {it.turn}: {it.filled(text)}"
        shown += part
    further = None if stopped or is_all else next(found, None)
    runs = counted(len(shown), "run")
    if stopped:
        end = shown[-1] + 1 if shown else turns.start
        yield f"{runs} before turn {end}; the turns from there on: {stopped}"
    elif further is not None:
        words = [f"log at {mode} {address:o}".replace("  ", " "), f"from {further} to {turns[-1]}"]
        words += [f"if {condition}"] * bool(condition) + [f": {text}"] * (text != ALL_REGISTERS)
        yield f"{runs} or more; on: {' '.join(words)}"
    else:
        yield f"{runs} in {span(turns)}"


@command(
    f"log [FILE|off]  or  {FORM}",
    rf"((?P<off>off)|{WORDS}|<file:file>)?",
    "what is typed and shown goes to FILE too; or all runs of an instruction",
)
def log(explorer: Explorer, arguments: Arguments) -> Iterator[str]:
    """Writes each line that is typed, and what is shown, to FILE too: from now on, until `log off`
    or another `log FILE`. What a console shows is there too. A file that was there before is
    overwritten by log! FILE alone. If FILE can't be written any more explore says so, and goes on
    without it. `log` alone says which file it is.
    `log at X` lists the turns N to M that run an instruction with PC X, as `break` has it, before
    which CONDITION holds, each with FORMAT: a text with names in braces, such as `count {R0}`. A
    name is a register, also of a device, such as {TKS}, {core A}, {user A} or {kernel A}, a symbol,
    {2(SP)}, the word at the sum of both in the mode of the turn, or {turn}; {{ is a brace. Words
    are octal, as before the turn; one that isn't in core is ------. Without FORMAT it is R0 to R5
    and SP. Without `from` N is 0, without `to` M a million turns past the greatest turn asked. It
    is exact. After 4096 turns the last line says how it goes on. Ctrl-C ends it."""
    if arguments.optional("address"):
        yield from log_lines(explorer, arguments)
        return
    before = LINES.log
    if arguments.optional("file") is not None:
        path = Path(arguments.text("file"))
        handle = opened(path)
        LINES.begin_log(Log(path, handle))
        yield f"the log is {path}"
    elif arguments.optional("off") is not None:
        if before is None:
            raise ExploreError("there is no log")
        yield f"the log {before.path} ends"
        LINES.begin_log(None)
    else:
        yield f"the log is {before.path}" if before else "there is no log: log FILE begins one"
