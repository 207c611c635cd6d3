"""The arguments of explore that are options of the program, and how they are told."""
import argparse
from pathlib import Path
from typing import Any, NoReturn, Optional

from ..core.errors import ExploreError
from ..core.options import FILES, NUMBERS, Options, faults_of, options_of_session, options_of_words
from ..core.programs import release
from ..core.visible import visible
from .output import put


class Parser(argparse.ArgumentParser):
    """A parser whose help is an error of explore if it can't be written, and which shows a wrong
    argument as text."""

    def print_help(self, file: Any = None) -> None:
        put(self.format_help().rstrip("\n"))

    def error(self, message: str) -> NoReturn:
        super().error(visible(message))


def version_of(name: str) -> str:
    """What --version shows of a program, which may be newer than the release that it names."""
    return f"{name} of Nezdrab, release {release()} or later"


class ShowVersion(argparse.Action):
    """The option --version, which ends explore as --help does."""

    def __init__(self, option_strings: list[str], dest: str, **more: Any):
        super().__init__(option_strings, dest, nargs=0, **more)

    def __call__(self, parser: argparse.ArgumentParser, *ignored: Any) -> None:
        put(version_of(parser.prog))
        parser.exit()


def add_options(parser: argparse.ArgumentParser) -> None:
    """Has a parser take the options of the program."""
    of_program = parser.add_argument_group("options of pdp11 (./pdp11 --help)")
    for name in FILES:
        of_program.add_argument(f"--{name}", metavar="FILE")
    for name, number in NUMBERS.items():
        of_program.add_argument(f"--{name}", metavar=number.letter)


def options_of(found: argparse.Namespace, session: Optional[Path]) -> Options:
    """The options of the program: those of the session, and those that are given."""
    named = [(name, getattr(found, name)) for name in (*FILES, *NUMBERS)]
    words = [word for name, value in named if value is not None for word in (f"--{name}", value)]
    given = options_of_words(words, "explore", Path.cwd())
    return {**(options_of_session(session) if session else {}), **given}


def check_options(options: Options, found: argparse.Namespace, session: Optional[Path]) -> None:
    """An error if the program would refuse an option, given or of the session."""
    for name, wrong in faults_of(options).items():
        where = "" if getattr(found, name) is not None else f"{session}: "
        raise ExploreError(f"{where}{wrong}")
