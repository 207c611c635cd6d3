"""A recorded PDP-11/40 whose past can be edited, from Python.

    from nezdrab import Machine

    with Machine.of_session("x.session") as m:
        m.at(11, key="A")
        print(m.regs(40).r0, m.last(40, 0o2000))

Machine is the machine, and `questions` has what it is asked. docs/USING.md shows more, and
docs/LANGUAGE.md has the rules of edits and questions. Each error is a NezdrabError, except a
TypeError or a ValueError for an argument that is none."""
import importlib
from typing import TYPE_CHECKING

if TYPE_CHECKING:
    from .core import hardware as hardware, questions as questions
    from .core.program import ProgramEnded as ProgramEnded
    from .core.engine import LAST_TURN as LAST_TURN, Refused as Refused
    from .core.errors import ExploreError
    from .core.found import Found as Found, Transfer as Transfer, Unreadable as Unreadable
    from .core.machine import Machine as Machine
    from .core.moves import EventMoves as EventMoves, Moved as Moved
    from .core.moves_of_turns import Cell as Cell, CellKind as CellKind, DiskMoved as DiskMoved
    from .core.moves_of_turns import TapeByte as TapeByte, TurnMoves as TurnMoves
    from .core.past import Event as Event, Setup as Setup
    from .core.program import TimedOut as TimedOut
    from .core.questions import Question as Question
    from .core.replies import BusCycle as BusCycle, CycleKind as CycleKind
    from .core.replies import Devices as Devices, LastWrite as LastWrite, Mode as Mode
    from .core.replies import Pages as Pages, Registers as Registers, Turn as Turn
    from .core.replies import TurnAccesses as TurnAccesses, WordRead as WordRead
    from .core.struck import Fate as Fate, StruckKey as StruckKey

    NezdrabError = ExploreError
    __version__: str

# Where each name comes from, and the modules that a program reads whole. Only what is used is read:
# explore, which is part of the package, starts without all of this.
MODULES = ("hardware", "questions")
NAMES = {
    "engine": "LAST_TURN Refused",
    "errors": "NezdrabError",
    "found": "Found Transfer Unreadable",
    "machine": "Machine",
    "moves": "EventMoves Moved",
    "moves_of_turns": "Cell CellKind DiskMoved TapeByte TurnMoves",
    "past": "Event Setup",
    "program": "ProgramEnded TimedOut",
    "questions": "Question",
    "replies": "BusCycle CycleKind Devices LastWrite Mode Pages Registers Turn TurnAccesses "
    "WordRead",
    "struck": "Fate StruckKey",
}
PLACES = {name: f"core.{module}" for module, names in NAMES.items() for name in names.split()}
OTHERWISE_NAMED = {"NezdrabError": "ExploreError"}
__all__ = list(PLACES)

if not TYPE_CHECKING:

    def __getattr__(name):
        if name == "__version__":  # the release, by its day
            return importlib.import_module(".core.programs", __name__).release()
        if name in MODULES:
            return importlib.import_module(f".core.{name}", __name__)
        if name not in PLACES:
            raise AttributeError(f"module {__name__!r} has no attribute {name!r}")
        module = importlib.import_module(f".{PLACES[name]}", __name__)
        found = globals()[name] = getattr(module, OTHERWISE_NAMED.get(name, name))
        return found

    def __dir__():
        return sorted([*globals(), *MODULES, *PLACES])
