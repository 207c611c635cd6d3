"""What some turns make of what: `moves`."""
from collections import defaultdict
from typing import Iterator, Sequence

from ..core.found import Transfer
from ..core.moves_of_turns import TurnMoves, grouped, in_words
from ..core.past import Event
from .accesses import function_line, shown, turns_before
from .command import Arguments, command
from .explorer import Explorer


def lines_of(turn: TurnMoves, events: Sequence[Event]) -> Iterator[str]:
    """What a turn with these events moves: in its beginning, and then in its act."""
    for name, number in (("TKB", turn.key), ("switches", turn.switches)):
        if number is not None:
            yield f"{name} of event {events[number].number}, {events[number].explained()}"
    if turn.tape is not None:
        yield f"PRB of byte {turn.tape.number} of the tape{', which ends' * turn.tape.is_at_end}"
    if turn.disk is not None:
        it = turn.disk
        moved = it.function, it.drive, it.index, it.address, it.count
        yield f"{function_line(Transfer(turn.turn, None, *moved, 0))}{', in place' * it.stays}"
    for cells, sources in grouped(turn.made):
        yield f"{in_words(cells)} of {in_words(sources)}"


@command(
    "moves [N [C]]",
    r"(<turn:decimal>( <count:decimal>)?)?",
    "what the C turns before turn N make of what",
)
def moves(explorer: Explorer, arguments: Arguments) -> Iterator[str]:
    """Shows the C turns before turn N, one if C isn't given and at most 64, each as `see` has it,
    and below it what it makes of what: first what its events, the reader and the disk bring, and
    then the cells that its act makes, each of the cells as they were when the act began, or `of
    nothing`. A cell is a half of a word, `.0` the low one, a condition code, or what a device
    holds; a word without a half has both. One that isn't shown is made of itself alone: it stays,
    or changes as by INC. Addresses, branches and PC are no data. This is a reply of the program,
    which is proved; `why` goes back over many turns. Without N it is the current turn."""
    turns, events = turns_before(explorer, arguments), defaultdict[int, list[Event]](list)
    for it in explorer.machine.script:
        events[it.turn].append(it)
    moved = explorer.machine.moves_of(turns)
    yield from shown(explorer, turns, (lines_of(it, events[it.turn]) for it in moved))
