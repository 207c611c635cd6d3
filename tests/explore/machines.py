"""Tests on a machine of their own process, whose questions can be looked at."""
from pathlib import Path
from typing import Sequence

from nezdrab.analysis.disassembly import Disassembler
from nezdrab.analysis.explorer import Explorer
from nezdrab.core.engine import Machine, Start
from nezdrab.main import read_session
from nezdrab.shell import prompt  # noqa: F401, it adds the commands

from .explore_case import BUILT, ROOT, Case

LEDGER = "ledger/ledger.session"


class OnMachine(Case):
    """A test that works with explorers in this process."""

    def explorer(self, session: str = "", edits: Sequence[str] = ()) -> Explorer:
        machine = Machine(Start(BUILT.program, [], Path.cwd()))
        self.addCleanup(machine.close)
        disassembler = Disassembler(BUILT.disassembler)
        self.addCleanup(disassembler.close)
        if session:
            read_session(machine, ROOT / "examples" / session)
        for line in edits:
            self.assertEqual(machine.ask(line).split()[0], "event" if line[:2] == "at" else "ok")
        return Explorer(machine, disassembler)
