"""Stored systems as machines beside explore, for what is found by brute force."""
from nezdrab.core.engine import Machine, Start
from tests import stored_sessions as sessions

from .explore_case import BUILT, Case

LEDGER = ("examples/ledger/ledger.session",)
KEYS = ("--start", "2000", "--disk", "examples/moved-keys.disk", "examples/moved-keys.session")
SYSTEMS = ((LEDGER, 238_000), (KEYS, 20_000))
TOP = 0o760000  # the end of core


class OfSystems(Case):
    """The machine of a stored system, beside explore."""

    def machine(self, words: tuple[str, ...]) -> Machine:
        *options, session = words
        machine = Machine(Start(BUILT.program, options, self.folder))
        self.addCleanup(machine.close)
        lines = (self.folder / session).read_bytes().splitlines()
        edits = [it.decode() for it in lines if sessions.first_word(it) in sessions.EDITS]
        machine.edit_all(edits)
        return machine
