"""The options of explore, and how it begins and ends."""
import argparse
import os
import sys
from pathlib import Path
from typing import Iterator, Optional

from .analysis.disassembly import disassembler_of
from .analysis.explorer import Explorer, UndoStep
from .core.engine import Machine, Start, is_refused
from .core.errors import ExploreError
from .core.in_words import counted
from .core.interrupts import INTERRUPTS
from .core.journal import NO_SESSION, Contents, Journal, in_use, newest, session_line
from .core.journal import state_folder, there_already, told
from .core.options import FILES, Options, check_session, option_lines, words_of_options
from .core.programs import program_of
from .core.session_file import refused_lines
from .core.values import replace
from .shell.command_line import Parser, ShowVersion, add_options, check_options, options_of
from .shell.output import Unwritable, complain, fault_in_words, flush, leave_streams
from .shell.output import prepare_streams, put
from .shell.prompt import Prompt, read_at_terminal, read_lines

DESCRIPTION = """\
A prompt over the session language of Nezdrab's PDP-11 (docs/LANGUAGE.md). Its lines go through,
and beside them there are commands to see instructions, to find the turn in which something happens,
to sweep an event over many turns, and to draw a run. At the prompt `help` has them by topic.

SESSION is read first: its edits are made, its questions aren't asked. Options may stand in it, in
comment lines `#! OPTIONS` before its first line, as `save` writes them. Without such a line those
of a file beside it with the ending .args hold, one word a line. An option that is given here takes
the place of the one with its name there. Paths in them are those of the session's folder.
Lines from a pipe are read too: ./explore --echo SESSION < my.lines
./explore web [SESSION] opens the machine as a page in the browser: ./explore web --help
./explore dap is what an editor starts to debug in the recorded run: ./explore dap --help

At a terminal each edit is written at once to a journal, a session in ~/.local/state/nezdrab (or in
the folder nezdrab of XDG_STATE_HOME), so that a closed terminal or a power cut loses none (but of
the keys of a console or of `type` a power cut may lose those of the last moment). It goes when all
edits are saved, or with `quit!`; the 30 newest are kept."""


def new_parser() -> Parser:
    """What reads the arguments of explore."""
    parser = Parser(
        prog="explore",
        description=DESCRIPTION,
        allow_abbrev=False,
        formatter_class=argparse.RawDescriptionHelpFormatter,
    )
    add_options(parser)
    parser.add_argument("--version", action=ShowVersion, help="shows the newest release, and ends")
    parser.add_argument(
        "--echo", action="store_true", help="shows each line from a pipe before its replies"
    )
    part = parser.add_mutually_exclusive_group()
    part.add_argument(
        "--sweep",
        metavar="TEXT",
        help="does one part of a sweep, as `sweep --jobs` writes it, and ends",
    )
    part.add_argument(
        "--matters", metavar="TEXT", help="the same with a part that `matters --jobs` writes"
    )
    parser.add_argument(
        "--program", metavar="FILE", help="a built search, in place of what tools/program finds"
    )
    parser.add_argument(
        "--disassembler", metavar="FILE", help="a built disassemble, in the same way"
    )
    parser.add_argument(
        "--resume",
        metavar="FILE",
        nargs="?",
        const="",
        help="takes up a journal, in place of a SESSION: the newest one, or FILE",
    )
    journal = parser.add_mutually_exclusive_group()
    journal.add_argument("--journal", metavar="FILE", help="the journal is FILE, from a pipe too")
    journal.add_argument("--no-journal", action="store_true", help="there is no journal")
    parser.add_argument("session", metavar="SESSION", nargs="?")
    return parser


def arguments(words: list[str]) -> argparse.Namespace:
    return new_parser().parse_args(words)


def read_session(machine: Machine, path: Path) -> None:
    """Makes the edits of a session, and complains of each that is refused."""
    for refused in refused_lines(machine, path):
        complain(refused)


def resumed(found: argparse.Namespace) -> Path:
    """The journal to take up."""
    if found.session or found.journal:
        raise ExploreError("--resume takes up a journal: there is no SESSION and no --journal")
    path = Path(found.resume) if found.resume else newest()
    if path is None:
        raise ExploreError(in_use() or "no journal with edits is kept")
    check_session(path)
    return path


def journal_of(found: argparse.Namespace, options: Options) -> Optional[Journal]:
    """The journal of this run, if it has one."""
    if found.no_journal or not (found.journal or sys.stdin.isatty()):
        return None
    session = os.path.abspath(found.session) if found.session else None
    heading = [*option_lines(options), session_line(session)]
    if not found.journal:
        return Journal(heading, is_own=True)
    path = Path(found.journal)
    if path.exists():
        raise there_already(path)
    return Journal(heading, path)


def take_up(explorer: Explorer, path: Path, is_kept_on: bool) -> Iterator[str]:
    """Makes the edits of a journal, and goes on with it."""
    machine, steps = explorer.machine, explorer.steps
    journal = Journal.taken_up(path, path.parent == state_folder()) if is_kept_on else None
    contents = Contents.of(path)
    replies = machine.edit_all([*contents.of_session, *contents.edits])
    refused = [it for it in replies if is_refused(it)]
    if refused:
        count = counted(len(refused), "edit")
        raise ExploreError(f"{path} has {count} that can't be made: {refused[0]}")
    machine.file = journal
    steps.count = len(machine.journal)
    explorer.saved = list(contents.of_session)
    steps.done = taken_steps(contents, path, machine.start)
    if contents.session != NO_SESSION:
        explorer.session = Path(contents.session)
    yield f"{counted(len(contents.edits), 'edit')} taken up (session: {contents.session})"


def taken_steps(contents: Contents, path: Path, start: Start) -> list[UndoStep]:
    """The steps of a journal, whose options are those of this start by now."""
    steps: list[UndoStep] = []
    for kept in reversed(contents.steps):
        options = kept.options_before(path)
        before = start if options is None else replace(start, options=words_of_options(options))
        steps.append(UndoStep(kept.line, kept.edits, None if options is None else (before, start)))
        start = before
    return steps[::-1]


def begun(found: argparse.Namespace) -> Explorer:
    """The machine with the session's edits, and what shows instructions."""
    if found.session:
        check_session(Path(found.session))
    taken_up = resumed(found) if found.resume is not None else None
    session = Path(found.session) if found.session else None
    options = options_of(found, taken_up or session)
    if options.keys() & {*FILES}:
        from .shell.load import warnings_of  # which reads what knows kinds of files

        for warning in warnings_of(options):
            complain(warning)
    check_options(options, found, taken_up or session)
    program = program_of("search", found.program)
    machine = Machine(Start(program, words_of_options(options), Path.cwd()))
    explorer = Explorer(machine, disassembler_of(found.disassembler, complain))
    explorer.is_terminal = sys.stdin.isatty()
    explorer.session = session
    if taken_up:
        for line in take_up(explorer, taken_up, not found.no_journal):
            put(line)
        return explorer
    if session:
        read_session(machine, session)
    explorer.steps.count = len(machine.journal)
    explorer.saved = list(machine.journal)
    machine.file = journal_of(found, options)
    if explorer.is_terminal and not found.no_journal and not has_part(found):
        for line in told():
            put(line)
    return explorer


def has_part(found: argparse.Namespace) -> bool:
    return found.sweep is not None or found.matters is not None


def part_lines(explorer: Explorer, found: argparse.Namespace) -> Iterator[str]:
    """What a part of long work gives."""
    from .analysis import matters, sweep  # which a prompt reads when they are typed

    if found.sweep is not None:
        return sweep.raw_lines(explorer, found.sweep)
    return matters.raw_lines(explorer, found.matters)


def explore(found: argparse.Namespace) -> None:
    with INTERRUPTS.allowed():
        explorer = begun(found)
    prompt = Prompt(explorer, found.echo)
    try:
        if has_part(found):
            with INTERRUPTS.allowed():
                prompt.show(part_lines(explorer, found))
        elif explorer.is_terminal:
            read_at_terminal(prompt)
        else:
            read_lines(prompt)
    except (ExploreError, BrokenPipeError, Unwritable):
        raise
    except Exception as error:
        raise ExploreError(prompt.fault(error)) from error
    finally:
        explorer.machine.close()
        explorer.disassembler.close()
        flush()


def status() -> int:
    """Does what the arguments say, and returns the exit status."""
    try:
        if sys.argv[1:2] == ["web"]:
            from .shell.web import show_page  # what a prompt doesn't need

            with INTERRUPTS.allowed():
                show_page(sys.argv[2:])
        elif sys.argv[1:2] == ["dap"]:
            from .dap.server import serve  # the same

            return serve(sys.argv[2:])
        else:
            explore(arguments(sys.argv[1:]))
        return 0
    except ExploreError as error:
        complain(str(error))
        return 1
    except BrokenPipeError:
        complain("the output can't be written")
        return 3
    except Unwritable as error:
        complain(f"the output can't be written: {error}")
        return 1
    except KeyboardInterrupt:
        complain("stopped")
        return 130
    except Exception as error:
        complain(fault_in_words(error))
        return 1


def main() -> int:
    INTERRUPTS.install()
    prepare_streams()
    try:
        return status()
    finally:
        leave_streams()


def dap() -> int:
    """The command nezdrab-dap of an installed package, which is `explore dap`."""
    sys.argv.insert(1, "dap")
    return main()
