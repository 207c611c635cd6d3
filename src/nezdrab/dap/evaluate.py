"""What is typed in an editor: lines of explore in the debug console, and expressions."""
import re
from typing import Callable, Iterable, Iterator, Optional

from ..analysis.explorer import Explorer
from ..core import sessions
from ..core.errors import ExploreError, LineRefused
from ..core.expressions import Before
from ..core.values import dataclass
from ..shell.command_table import WORDS
from ..shell.completion import completions
from ..shell.display import check_only_shows, lines_at
from ..shell.output import LINES
from ..shell.prompt import BLANKS, Prompt
from .memory import reference
from .wire import Object


class Console(Prompt):
    """The prompt of an editor's debug console. `say` has the editor show a line there."""

    def __init__(self, explorer: Explorer, say: Callable[[str], None]):
        super().__init__(explorer)
        self.say = say

    def show(self, lines: Iterable[str]) -> None:
        for line in lines:
            self.say(line)


@dataclass(frozen=True)
class Value:
    """A word, and the reference to where it points or stands."""

    text: str
    reference: str

    def shown(self) -> Object:
        return {"result": self.text, "variablesReference": 0, "memoryReference": self.reference}


def value_of(explorer: Explorer, expression: str, turn: int) -> Optional[Value]:
    """The value of a register, or of the word at an address, before the turn; None if the
    expression is neither."""
    found = before(explorer, turn).named(expression)
    if found is None:
        return None
    return Value(f"{found.word:06o}", reference(found.mode, found.address))


def before(explorer: Explorer, turn: int) -> Before:
    return Before(explorer.machine, explorer.symbols, turn)


def is_line(explorer: Explorer, line: str) -> bool:
    """Whether a line is one of explore's prompt by its first word."""
    word = sessions.first_word(line).rstrip("!")
    return word in explorer.definitions.lines or word in WORDS


def watched(explorer: Explorer, expression: str, turn: int) -> Object:
    """The value of an expression, or what a line shows that only shows something."""
    text = expression.strip(BLANKS)
    found = value_of(explorer, text, turn)
    if found is not None:
        return found.shown()
    if not is_line(explorer, text):
        raise ExploreError(f"'{text}' is no register, no symbol and no address of core")
    check_only_shows(text)
    current, explorer.turn = explorer.turn, turn
    try:
        lines = list(lines_at(explorer, explorer.definitions.expanded(text, "$turn")))
    finally:
        explorer.turn = current
    return {"result": "\n".join(lines), "variablesReference": 0}


def typed(prompt: Prompt, line: str, turn: int) -> Iterator[str]:
    """What a line shows that is typed in the debug console. It is a line of explore's prompt, or
    an expression, which has its value before the turn."""
    explorer = prompt.explorer
    bare = line.strip(BLANKS)
    if not bare or bare.startswith("#"):
        return
    LINES.note(f"{explorer.prompt}{line}")
    explorer.depth = 0
    found = None if is_line(explorer, bare) else value_of(explorer, bare, turn)
    lines = iter([found.text]) if found is not None else prompt.lines_as_typed(line)
    for shown in lines:
        LINES.note(shown)
        yield shown


def done(prompt: Prompt, text: str, turn: int) -> str:
    """What lines show that are typed in the debug console. The first one that fails is the last."""
    shown: list[str] = []
    for line in text.splitlines():
        try:
            shown += typed(prompt, line, turn)
        except LineRefused:
            raise ExploreError("\n".join(shown)) from None
        except KeyboardInterrupt:
            prompt.note(line)
            raise
        except (ExploreError, OSError) as error:
            word = sessions.first_word(line.strip(BLANKS))
            raise ExploreError("\n".join([*shown, f"{word}: {error}"])) from error
        finally:
            LINES.flush_log()
    return "\n".join(shown)


def targets(explorer: Explorer, text: str, column: int) -> Iterator[Object]:
    """What the beginning of a line may go on to, as the console's Tab has it. The column is the one
    behind what is typed, from 0 on."""
    typed_so_far = text[:column]
    begun = re.split(r"[ \t\n]", typed_so_far)[-1]
    before = typed_so_far[: len(typed_so_far) - len(begun)]
    for it in completions(explorer, before.split("\n")[-1], begun):
        yield {"label": it.rstrip(), "text": it, "start": len(before), "length": len(begun)}
