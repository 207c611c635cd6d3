"""Words that people know from other debuggers: `step`, `back`, `run`."""
from typing import Callable, Iterator

from ..core.engine import LAST_TURN
from ..core.errors import ExploreError
from .command import Arguments, command
from .explorer import Explorer
from .seeing import show


def shown(explorer: Explorer, turn: int) -> Iterator[str]:
    if not 0 <= turn <= LAST_TURN:
        where = "before turn 0" if turn < 0 else f"after turn {LAST_TURN}"
        raise ExploreError(f"that is {where}: the current turn is {explorer.turn}")
    return show(explorer, Arguments({"turn": str(turn), "operands": None}))


def each_step(
    explorer: Explorer, arguments: Arguments, step_once: Callable[[], Iterator[str]]
) -> Iterator[str]:
    """What K steps show, or those up to one that leaves the current turn as it is."""
    count = arguments.decimal("count", 1)
    if count < 1:
        raise ExploreError("K is 1 or more")
    for _ in range(count):
        before = explorer.turn
        yield from step_once()
        if explorer.turn == before:
            return


@command("step [K]", r"<count:decimal>?", "shows the turn after the current one, or the K-th")
def step(explorer: Explorer, arguments: Arguments) -> Iterator[str]:
    """Shows what `show` shows, K turns after the current turn, or one turn. That turn is then the
    current one. `help turn` says what else sets the current turn; at first it is turn 0."""
    return shown(explorer, explorer.turn + arguments.decimal("count", 1))


@command("back [K]", r"<count:decimal>?", "shows the turn before the current one, or the K-th")
def back(explorer: Explorer, arguments: Arguments) -> Iterator[str]:
    """Shows what `show` shows, K turns before the current turn, or one turn. That turn is then the
    current one. `help turn` says what else sets the current turn; at first it is turn 0."""
    return shown(explorer, explorer.turn - arguments.decimal("count", 1))


@command("run", r".*", "says what to type: the machine runs as far as a question needs")
def run(explorer: Explorer, arguments: Arguments) -> Iterator[str]:
    """There is nothing to start: each turn is there, and a question runs the machine up to it."""
    yield "each turn is there already: show N, text N; until PC X finds the turn that comes to X"
