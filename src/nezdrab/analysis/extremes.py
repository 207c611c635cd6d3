"""The longest, deepest and slowest of some turns: `extremes`."""
from typing import Iterator

from ..core.extreme_turns import Extremes
from ..core.hardware import INTERRUPTS
from ..core.in_words import counted, span
from .command import Arguments, command, turns_before
from .crew import stopped_by
from .explorer import Explorer
from .finder import batches_of
from .listing import turn_in_words


def lines_of(explorer: Explorer, found: Extremes) -> Iterator[str]:
    longest = found.longest
    by = turn_in_words(explorer, longest[0] - 1) if longest and longest[0] else "power-up"
    where = f" in {span(longest)}, after {by}" if longest else ""
    yield f"priority 7: {counted(len(longest), 'turn')}{where}"
    for name, (value, turn) in sorted(found.least.items()):
        yield f"deepest stack: {name} {value:06o} before turn {turn}"
    for vector, took in sorted(found.slowest.items(), key=lambda it: -len(it[1])):
        name = f"{vector:03o} {INTERRUPTS.get(vector, '')}".rstrip()
        yield f"slowest handler of {name}: {counted(len(took), 'turn')} in {span(took)}"
    for it in found.open:
        yield f"the handler of {it.vector:03o} from turn {it.turn} on isn't left"


@command(
    "extremes N M",
    r"<turn:decimal> <end:decimal>",
    "the longest time at priority 7, the deepest stacks, the slowest handlers",
)
def extremes(explorer: Explorer, arguments: Arguments) -> Iterator[str]:
    """Looks at each turn from N on and before M, and shows the longest stretch of turns with
    priority 7 in PS, the least KSP and the least USP before one of them or turn M, where 0 counts
    as none yet, and of each vector the interrupt whose handler took the most turns. A handler takes
    the turns from the interrupt on until KSP is above what the interrupt pushed, those of other
    handlers within it too; a load of KSP with an address above ends it. Only handlers in kernel
    mode count. It is exact. Ctrl-C ends it, and shows what was found."""
    turns = turns_before(arguments.decimal("turn"), arguments.decimal("end"))
    found = Extremes()
    stopped = stopped_by(found.walk(batches_of(explorer.machine, turns)))
    yield from lines_of(explorer, found)
    if stopped:
        yield f"{stopped}: the turns before turn {found.end} were looked at"
