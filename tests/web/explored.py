"""What explore tells of a session, for the page to be compared with."""
from pathlib import Path
from typing import Sequence

from nezdrab.analysis.disassembly import Disassembler
from nezdrab.analysis.explorer import Explorer
from nezdrab.core.engine import Machine, Start
from nezdrab.core.options import options_of_session, words_of_options
from nezdrab.core.replies import Mode
from nezdrab.core.symbol_files import symbol_file
from nezdrab.main import read_session
from nezdrab.shell import prompt  # noqa: F401, it adds the commands
from nezdrab.shell.command_table import COMMANDS

from tests import under_test

SYMBOLS = {"kernel.sym": Mode.KERNEL, "user.sym": Mode.USER}


class Explored:
    """A session in explore, with the symbols that lie beside it."""

    def __init__(self, session: Path, edits: Sequence[str] = ()):
        options = words_of_options(options_of_session(session))
        self.machine = Machine(Start(under_test.program("search"), options, session.parent))
        self.disassembler = Disassembler(under_test.program("disassemble"))
        self.explorer = Explorer(self.machine, self.disassembler)
        read_session(self.machine, session)
        for line in edits:
            self.machine.ask(line)
        for name, mode in SYMBOLS.items():
            path = session.parent / name
            if path.is_file():
                self.name(path, mode=mode)

    def name(self, *paths: Path, mode: Mode = Mode.KERNEL) -> None:
        """Takes the symbols of a mode from files."""
        for path in paths:
            self.explorer.symbols.add(symbol_file(path.read_text()).symbols, [mode])

    def lines(self, line: str) -> list[str]:
        """What a line of explore shows."""
        word, _, rest = line.partition(" ")
        return list(COMMANDS[word].lines(self.explorer, rest))

    def close(self) -> None:
        self.machine.close()
        self.disassembler.close()
