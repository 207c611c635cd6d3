"""Turns with their instructions and operands: `see`, `show`."""
from typing import Iterator

from ..core.engine import LAST_TURN
from ..core.errors import ExploreError
from ..core.replies import INSTRUCTION
from .command import END_OF_RUN, Arguments, command
from .explorer import Explorer, Shown
from .listing import HEADING, SHOWN_AT_ONCE, SeenTurn, seen
from .operand_values import operands_of

SEEN_AT_ONCE = 4_096


def operand_lines(explorer: Explorer, it: SeenTurn) -> Iterator[str]:
    """A line for each operand of the turn's instruction, if it is one."""
    if it.turn.act == INSTRUCTION and it.words:
        operands = operands_of(explorer.machine, it.turn.turn, it.registers, it.words[0], it.text)
        yield from (operand.line() for operand in operands)


@command(
    "see [N [C]] [operands]",
    r"(<turn:decimal>( <count:decimal>)?)?((^| )(?P<operands>operands))?",
    "the C turns before turn N",
)
def see(explorer: Explorer, arguments: Arguments) -> Iterator[str]:
    """Shows the C turns before turn N, 16 if C isn't given: the turn, the mode, PC as the program
    has it, the address of core that it is at, the instruction or interrupt, and the symbol.
    With mapping off both addresses are the same. Without N it is the current turn. C may be large:
    the turns are asked upwards, so turns late in a run take little longer than early ones.
    With `operands` each operand of an instruction has a line below it, also the word that a call
    pushes or a return pops: its mode and its addresses, as above; how it is written; what the
    instruction finds there; and after `then` what is there before the next turn, if the instruction
    writes it. Of SP the mode says which one it is. A byte of core has three digits, and a register
    has all six, of a byte too. A device's register has its name alone, since a read of it may
    change it. An instruction that can't reach an operand says why, and has no further line."""
    end = arguments.decimal("turn", explorer.turn)
    count = min(end, arguments.decimal("count", SHOWN_AT_ONCE))
    if count == 0:
        raise ExploreError("C is 1 or more" if end else "no turn comes before turn 0")
    for first in range(end - count, end, SEEN_AT_ONCE):
        part = min(SEEN_AT_ONCE, end - first)
        turns = list(explorer.machine.turns(first, part))
        yield from [HEADING] if first == end - count else []
        for it in seen(explorer, turns):
            yield it.line()
            yield from operand_lines(explorer, it) if arguments.optional("operands") else []
    explorer.turn = end


REGISTER_ROWS = (("R0", "R3", "KSP"), ("R1", "R4", "USP"), ("R2", "R5", "PC"))


@command(
    "show [N] [operands]",
    r"<turn:decimal>?((^| )(?P<operands>operands))?",
    "the registers before turn N, and what it does",
)
def show(explorer: Explorer, arguments: Arguments) -> Iterator[str]:
    """Shows the registers before turn N as a table, and what the machine does in turn N. Without N
    it is the current turn. A `*` marks what is different from the last registers that `show`,
    `step` or `back` showed. With `operands` those of its instruction follow, as `see` has them."""
    turn = arguments.decimal("turn", explorer.turn)
    machine, before = explorer.machine, explorer.shown
    now = Shown(turn, machine.registers(turn), machine.start, list(machine.journal))
    words = now.registers.words

    def mark(name: str) -> str:
        return "*" if before is not None and before.registers.words[name] != words[name] else " "

    since = f"   (* {difference_in_words(before, now)})" if before is not None else ""
    yield f"before turn {turn}: {now.registers.state}{since}"
    for row in REGISTER_ROWS:
        yield "   ".join(f"{name:<3} {words[name]:06o}{mark(name)}" for name in row).rstrip()
    yield f"PS  {now.registers.ps:06o}{mark('PS')}  {now.registers.status()}"
    if turn == LAST_TURN:
        yield END_OF_RUN
    else:
        (it,) = seen(explorer, list(machine.turns(turn, 1)))
        yield f"turn {turn}: {it.brief()}"
        yield from operand_lines(explorer, it) if arguments.optional("operands") else []
    explorer.shown, explorer.turn = now, turn


def difference_in_words(before: Shown, now: Shown) -> str:
    """What a mark of `show` says."""
    if (before.start, before.journal) == (now.start, now.journal):
        return f"changed since turn {before.turn}"
    return f"different from turn {before.turn} of the past as it was then"
