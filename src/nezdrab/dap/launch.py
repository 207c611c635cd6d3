"""The machine that a request `launch` asks for: its session, images, symbols and listings."""
import argparse
import os
import shlex
from pathlib import Path
from typing import Iterator

from ..analysis.command import check_turn
from ..analysis.disassembly import disassembler_of
from ..analysis.explorer import Explorer
from ..core.engine import LAST_TURN, Machine, Start
from ..core.errors import ExploreError
from ..core.journal import Journal, session_line
from ..core.options import FILES, NUMBERS, check_session, option_lines, words_of_options
from ..core.programs import program_of
from ..core.session_file import refused_lines
from ..core.values import dataclass
from ..shell.command_line import check_options, options_of
from ..shell.command_table import COMMANDS
from ..shell.load import warnings_of
from .sources import Sources, mode_of
from .wire import Fields, Object


@dataclass(frozen=True)
class Programs:
    """The paths of search and disassemble that explore was given. An empty one is found."""

    search: str = ""
    disassemble: str = ""


@dataclass
class Launched:
    """A machine, its listings, the turn where it stops at last, and what there is to say."""

    explorer: Explorer
    sources: Sources
    end: int
    said: list[str]


def path_of(fields: Fields, name: str) -> str:
    """The absolute path that a field names. One that isn't is in the folder `cwd`."""
    folder = fields.path("cwd") if fields.has("cwd") else os.getcwd()
    return os.path.abspath(os.path.join(folder, fields.path(name)))


def given_options(fields: Fields) -> argparse.Namespace:
    """The options of pdp11 that a launch has."""
    found = argparse.Namespace()
    for name in (*FILES, *NUMBERS):
        value = None
        if fields.has(name) and name in FILES:
            value = path_of(fields, name)
        elif fields.has(name):
            is_number = isinstance(fields.values[name], int) and name != "start"
            value = str(fields.number(name)) if is_number else fields.text(name)
        setattr(found, name, value)
    return found


def files_of(fields: Fields, name: str) -> Iterator[Fields]:
    """The files in a list, each a path or an object with `path`; `cwd` is that of the launch."""
    of_launch = {"cwd": fields.values["cwd"]} if fields.has("cwd") else {}
    for it in fields.items(name):
        if not isinstance(it, (str, dict)):
            raise ExploreError(f"launch: '{name}' has an item that is no path and no object")
        item: Object = {"path": it} if isinstance(it, str) else it
        yield Fields({**of_launch, **item}, fields.request)


def take_symbols(explorer: Explorer, fields: Fields) -> Iterator[str]:
    """Takes the names of the files in `symbols`, as the command `names` does."""
    for it in files_of(fields, "symbols"):
        path, mode = path_of(it, "path"), mode_of(it)
        words = [shlex.quote(path)]
        words += ["at", it.text("at")] if it.has("at") else []
        words += [mode.value] if mode else []
        for line in COMMANDS["names"].lines(explorer, " ".join(words)):
            yield f"{path}: {line}"


def take_listings(sources: Sources, fields: Fields) -> Iterator[str]:
    for it in files_of(fields, "listings"):
        path = path_of(it, "path")
        yield f"{path}: {sources.read(path, it)} lines with words"


def started(fields: Fields, programs: Programs) -> tuple[Explorer, list[str]]:
    """The machine with the edits of the session, and what there is to say of it."""
    session = Path(path_of(fields, "session")) if fields.has("session") else None
    if session:
        check_session(session)
    given = given_options(fields)
    options = options_of(given, session)
    check_options(options, given, session)
    said = list(warnings_of(options))
    disassembler = disassembler_of(programs.disassemble, said.append)
    _ = disassembler.program  # it is looked for at once, so that the editor is told without one
    try:
        search = program_of("search", programs.search)
        machine = Machine(Start(search, words_of_options(options), Path.cwd()))
    except BaseException:
        disassembler.close()
        raise
    explorer = Explorer(machine, disassembler, session=session)
    try:
        said += refused_lines(machine, session) if session else []
    except BaseException:
        close(explorer)
        raise
    explorer.steps.count, explorer.saved = len(machine.journal), list(machine.journal)
    machine.file = Journal([*option_lines(options), session_line(session)], is_own=True)
    return explorer, said


def close(explorer: Explorer) -> None:
    explorer.machine.close()
    explorer.disassembler.close()


def launched(fields: Fields, programs: Programs) -> Launched:
    """All that a launch asks for. An error leaves no program behind."""
    turn, end = fields.number("turn", 0), fields.number("end", LAST_TURN)
    if not 0 <= turn <= end:
        raise ExploreError(f"launch: turn is 0 up to end, and {turn} isn't: end is {end}")
    check_turn(end)
    explorer, said = started(fields, programs)
    sources = Sources()
    try:
        said += take_symbols(explorer, fields)
        said += take_listings(sources, fields)
    except BaseException:
        close(explorer)
        raise
    explorer.turn = turn
    return Launched(explorer, sources, end, said)
