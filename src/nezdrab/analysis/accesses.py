"""The cycles on the bus of some turns: `accesses`."""
from typing import Iterable, Iterator

from ..core.engine import MOST_TURNS_OF_A_TRAIL
from ..core.errors import ExploreError
from ..core.found import Transfer
from ..core.in_words import counted
from ..core.replies import BusCycle, TurnAccesses
from .command import Arguments, command
from .explorer import Explorer
from .listing import HEADING, seen
from .operand_values import name_of

INDENT = " " * 20


def cycle_line(cycle: BusCycle) -> str:
    """A cycle as the line of the program has it, with the name of a register."""
    has_name = cycle.value is not None and not cycle.is_core
    return f"{cycle.line()} {name_of(cycle.address) if has_name else ''}".rstrip()


def function_line(done: Transfer) -> str:
    """A function of the disk that was done before the act of a turn."""
    drive, core = f"word {done.index:07o} of drive {done.drive}", f"core {done.address:06o}"
    what, words = done.function.replace("-", " "), counted(done.count, "word")
    if done.function == "write":
        what += f" of {words} from {core} to {drive}"
    elif done.function == "read":
        what += f" of {words} from {drive} to {core}"
    elif done.function in ("write-check", "read-check"):
        what += f" of {words}, {drive} and {core}"
    return f"disk: {what}{f', RKER {done.error:06o}' if done.error else ''}"


def lines_of(turn: TurnAccesses) -> Iterator[str]:
    """What a turn has in it, in its order."""
    yield from (f"event {it}" for it in turn.events)
    yield from (f"printed {it:03o}" for it in turn.printed)
    yield from (f"punched {it:03o}" for it in turn.punched)
    if turn.done is not None:
        yield function_line(Transfer.of(f"{turn.turn.turn} before {turn.done}"))
    yield from map(cycle_line, turn.cycles)


def turns_before(explorer: Explorer, arguments: Arguments) -> range:
    """The C turns before turn N of a line `[N [C]]`, one without C, those before the current turn
    without N."""
    end = arguments.decimal("turn", explorer.turn)
    count = arguments.decimal("count", 1)
    if not 1 <= count <= MOST_TURNS_OF_A_TRAIL:
        raise ExploreError(f"C is 1 to {MOST_TURNS_OF_A_TRAIL}")
    if not end:
        raise ExploreError("no turn comes before turn 0")
    return range(end - min(end, count), end)


def shown(
    explorer: Explorer, turns: range, below: Iterator[Iterable[str]]
) -> Iterator[str]:
    """These turns as `see` has them, each with lines below it."""
    heads = [it.line() for it in seen(explorer, list(explorer.machine.turns(turns[0], len(turns))))]
    yield HEADING
    for head, lines in zip(heads, below):
        yield head
        yield from (f"{INDENT}{it}" for it in lines)
    explorer.turn = turns.stop


@command(
    "accesses [N [C]]",
    r"(<turn:decimal>( <count:decimal>)?)?",
    "the cycles on the bus of the C turns before turn N",
)
def accesses(explorer: Explorer, arguments: Arguments) -> Iterator[str]:
    """Shows the C turns before turn N, one if C isn't given and at most 64, each as `see` has it,
    and below it what it has in it, in its order: its events, the bytes that come out, the function
    of the disk that is done, and the cycles that the processor makes on the bus. A cycle is `read`,
    `write` or `byte`, the write of a byte, with the address on the bus and the value, and of a
    register its name; `timeout` if nothing answers. A reference that memory management aborts makes
    no cycle. Without N it is the current turn."""
    turns = turns_before(explorer, arguments)
    yield from shown(explorer, turns, map(lines_of, explorer.machine.accesses_of(turns)))
