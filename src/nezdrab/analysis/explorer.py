"""What commands work on: the machine, the current turn, and what lines have made."""
import re
from functools import cached_property
from pathlib import Path
from typing import TYPE_CHECKING, Iterator, Optional

from ..core import sessions
from ..core.engine import Machine, Start
from ..core.errors import ExploreError
from ..core.replies import Registers
from ..core.symbols import Symbols
from ..core.values import dataclass, field
from .disassembly import Disassembler
from .fades import Fading
from .quotes import WORD, quote_fault

if TYPE_CHECKING:
    from .breakpoints import Breakpoints
    from .finder import Finder

PROMPT = "explore> "
# What stands for an argument, for all of them, and for the current turn.
PLACE = r"\$([1-9*]|turn\b)"
ALL, TURN = "*", "turn"
LONGEST_LINE = 65_536  # characters, with the arguments in it
MOST_DEEP = 16  # words that lead to one another


@dataclass(frozen=True)
class UndoStep:
    """A line at the prompt that made edits, and these edits; if it started the program again with
    other options, how it was started before and is since."""

    line: str
    edits: list[str]
    starts: Optional[tuple[Start, Start]] = None


@dataclass
class UndoSteps:
    """What `undo` takes back and `redo` makes again, and how many edits there are so far."""

    count: int = 0
    done: list[UndoStep] = field(default_factory=list)
    undone: list[UndoStep] = field(default_factory=list)
    starts: Optional[tuple[Start, Start]] = None

    def note(self, line: str, journal: list[str]) -> None:
        """Takes in what a line has added to the edits, and whether it has changed the options."""
        if len(journal) > self.count or self.starts:
            self.done.append(UndoStep(line.strip(), journal[self.count :], self.starts))
            self.undone = []
        self.count, self.starts = len(journal), None


@dataclass
class Sitting:
    """How somebody sits at the console: the turn where the last one was left, turns a second,
    whether bit 7 of what is printed is cleared, whether control bytes are shown as text, and
    whether the terminal answers the program's queries."""

    turn: Optional[int] = None
    rate: int = 250_000
    is_7bit: bool = False
    is_escaped: bool = False
    has_answers: bool = False


@dataclass(frozen=True)
class Shown:
    """The registers that `show` showed last: before which turn, and of which past."""

    turn: int
    registers: Registers
    start: Start
    journal: list[str]


@dataclass
class Displays:
    """The lines that are displayed, by numbers that are given once, and the current turn that they
    were shown for last."""

    lines: dict[int, str] = field(default_factory=dict)
    count: int = 0
    turn: int = 0


class Interpreter:
    """What does lines: the prompt."""

    def lines(self, line: str) -> Iterator[str]:
        """What a line shows."""
        raise ExploreError("there is no prompt, which does lines")

    def lines_as_typed(self, line: str) -> Iterator[str]:
        """What a line shows that is done as if it were typed."""
        return self.lines(line)


def arguments_of(rest: str) -> list[str]:
    """The words after a defined word, with their quotes. An apostrophe may be one of MACRO-11."""
    return sessions.words_of(rest) if quote_fault(rest) else re.findall(WORD, rest)


@dataclass
class Definitions:
    """The line that each defined word stands for."""

    lines: dict[str, str] = field(default_factory=dict)

    def expanded(self, line: str, turn: str) -> str:
        """The line that this one stands for, whose first word may be a defined one."""
        for _ in range(MOST_DEEP + 1):
            bare = line.strip(" \t")
            word = sessions.first_word(bare)
            if word not in self.lines:
                return line
            line = self.with_arguments(word, bare[len(word) :].strip(" \t"), turn)
        raise ExploreError(f"words that are defined by one another: more than {MOST_DEEP}")

    def with_arguments(self, word: str, rest: str, turn: str) -> str:
        line, given = self.lines[word], arguments_of(rest)
        places = {it for it in re.findall(PLACE, line) if it != TURN}
        most = max((int(it) for it in places if it != ALL), default=0)
        if len(given) < most:
            raise ExploreError(f"${len(given) + 1} is missing; {word} is: {line}")
        if len(given) > most and ALL not in places:
            raise ExploreError(f"'{given[most]}' is too much; {word} is: {line}")
        values = {ALL: rest, TURN: turn, **{f"{at}": it for at, it in enumerate(given, 1)}}
        found = re.sub(PLACE, lambda it: values[it[1]], line)
        if len(found) > LONGEST_LINE:
            raise ExploreError(f"the line has more than {LONGEST_LINE} characters with its words")
        return found


@dataclass
class Explorer:
    """What the commands work on. `turn` is the current turn: the one that a line found or showed
    last, also if an edit changes what happens before it. The edits that were saved last are those
    of the session at first."""

    machine: Machine
    disassembler: Disassembler
    symbols: Symbols = field(default_factory=Symbols)
    session: Optional[Path] = None
    turn: int = 0
    shown: Optional[Shown] = None
    is_terminal: bool = False
    steps: UndoSteps = field(default_factory=UndoSteps)
    saved: list[str] = field(default_factory=list)
    sitting: Sitting = field(default_factory=Sitting)
    fading: Fading = field(default_factory=Fading)
    definitions: Definitions = field(default_factory=Definitions)
    displays: Displays = field(default_factory=Displays)
    interpreter: Interpreter = field(default_factory=Interpreter)
    depth: int = 0  # of files that do one another

    @property
    def prompt(self) -> str:
        """The prompt, at a terminal with the current turn if it isn't turn 0."""
        return f"explore {self.turn}> " if self.turn and self.is_terminal else PROMPT

    @cached_property
    def breakpoints(self) -> "Breakpoints":
        from .breakpoints import Breakpoints  # which few lines need

        return Breakpoints()

    @property
    def finder(self) -> "Finder":
        from .finder import Finder  # the same

        return Finder(self.machine)
