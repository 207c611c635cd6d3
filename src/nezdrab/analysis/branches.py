"""The conditional branches before a turn, and what they were decided by: `branches`."""
from typing import Iterator, NamedTuple, Optional, Sequence

from ..core.engine import SHORT_SENT_AHEAD, Machine
from ..core.errors import ExploreError
from ..core.in_words import counted, span
from ..core.replies import Registers, Turn
from ..core.values import dataclass
from .cells import ALL_CODES, C, Cells, N, V, Z, first_of, is_register, name_of, some_of
from .cells import register_cells
from .command import Arguments, command
from .explorer import Explorer
from .listing import HEADING, SeenTurn, instruction_of, seen, turns_in_words
from .operands import Flow, pointer_of
from .turn_flow import flows_with_bar

# The codes that a branch looks at, by the upper bits of its word. SOB looks at its register.
LOOKED_AT = {1: (Z,), 2: (N, V), 3: (Z, N, V), 0o100: (N,), 0o101: (C, Z), 0o102: (V,), 0o103: (C,)}
SOB = 0o077
USUAL_COUNT, MOST_COUNT = 8, 64
FIRST_TURNS, MOST_TURNS = 128, 32_768
INDENT = " " * 36


class Source(NamedTuple):
    """The turn in which a cell got its value, and the cells that it is made of."""

    turn: int
    values: Cells


@dataclass(frozen=True)
class Branch:
    """A turn that is a conditional branch, and where the cells that it looks at have their values
    from; None if they have them from before the turns that were walked over."""

    act: Turn
    sources: dict[int, Optional[Source]]

    @property
    def is_known(self) -> bool:
        return None not in self.sources.values()


def looked_at(flow: Flow) -> Cells:
    """The cells that a conditional branch looks at; none of another turn."""
    if flow.place is None:
        return ()
    register = flow.word >> 6 & 7
    if flow.word >> 9 == SOB and register < 7:
        return register_cells(pointer_of(flow.mode) if register == 6 else register)
    return LOOKED_AT.get(flow.word >> 9, ())


def branches_in(machine: Machine, turns: range) -> Iterator[Branch]:
    sources: dict[int, Source] = {}
    for flow in flows_with_bar(machine, turns):
        cells = looked_at(flow)
        if cells:
            yield Branch(flow.act, {it: sources.get(it) for it in cells})
        sources.update(
            (it.cell, Source(flow.turn, it.values))
            for it in flow.moves
            if it.cell in ALL_CODES or is_register(it.cell)
        )


def last_branches(machine: Machine, end: int, count: int) -> tuple[list[Branch], int]:
    """The last branches before a turn, and the first turn that was walked over. More turns are, as
    long as there are too few, or a source isn't known."""
    size = FIRST_TURNS
    while True:
        begin = max(0, end - size)
        found = list(branches_in(machine, range(begin, end)))[-count:]
        is_all = len(found) == count and all(it.is_known for it in found)
        if is_all or not begin or size >= MOST_TURNS:
            return found, begin
        size *= 4


def code_value(registers: Registers, cell: int) -> str:
    """A cell before a branch, with its name."""
    if is_register(cell):
        name = name_of(cell)
        return f"{name} {registers.words[name]:06o}"
    return f"{name_of(cell)[-1]} {registers.ps >> (3, 2, 1, 0)[ALL_CODES.index(cell)] & 1}"


def source_lines(
    branch: Branch, shown: SeenTurn, by: dict[int, str], begin: int
) -> Iterator[str]:
    """What the branch looks at, with the turn that each value is from."""
    turns: dict[Optional[int], list[int]] = {}
    for cell, source in branch.sources.items():
        turns.setdefault(source.turn if source else None, []).append(cell)
    for turn, cells in turns.items():
        names = ", ".join(dict.fromkeys(code_value(shown.registers, it) for it in cells))
        made_of = dict.fromkeys(name_of(first_of(it)) for it in values_of(branch, cells))
        if turn is None:
            yield f"{INDENT}{names}: since {f'before turn {begin}' if begin else 'power-up'}"
        else:
            of = f", of {some_of(list(made_of), 4)}" if made_of else ""
            yield f"{INDENT}{names}: turn {turn} {by[turn]}{of}"


def values_of(branch: Branch, cells: Sequence[int]) -> Iterator[int]:
    """The cells that these ones are made of."""
    for it in cells:
        source = branch.sources[it]
        yield from source.values if source else ()


def branch_lines(explorer: Explorer, found: Sequence[Branch], begin: int) -> Iterator[str]:
    machine = explorer.machine
    turns = sorted({it.turn for branch in found for it in branch.sources.values() if it})
    by = dict(zip(turns, turns_in_words(explorer, turns)))
    lines = [f"regs {it.act.turn + 1}" for it in found]
    after = [Registers.of(it).pc for it in machine.read_all(lines, SHORT_SENT_AHEAD)]
    for branch, shown, pc in zip(found, seen(explorer, [it.act for it in found]), after):
        is_taken = pc != branch.act.pc + 2 & 0o177777
        yield f"{shown.line()}  {'taken' if is_taken else 'not taken'}"
        yield from source_lines(branch, shown, by, begin)


def went_elsewhere(explorer: Explorer, turns: range) -> Iterator[SeenTurn]:
    """Those of these turns after which PC isn't behind their instruction, nor where it was."""
    machine = explorer.machine
    acts = list(machine.turns(turns.start, len(turns)))
    after = (it.pc for it in [*acts[1:], *machine.turns(turns.stop, 1)] if acts)
    for it, pc in zip(seen(explorer, acts), after):
        size = instruction_of(explorer, it.turn.pc, list(it.words)).words if it.words else 0
        if it.turn.act != "idle" and pc != it.turn.pc + 2 * size & 0o177777:
            yield it


def sent_here(explorer: Explorer, end: int) -> tuple[Optional[Branch], list[str]]:
    """The last conditional branch before a turn, and lines about it and about the turns since."""
    machine = explorer.machine
    found, begin = last_branches(machine, end, 1) if end else ([], 0)
    since = range(found[0].act.turn + 1 if found else begin, end)
    last = since[-MOST_COUNT:]
    lines = [f"PC before turn {end}: {machine.registers(end).pc:06o}"]
    if found:
        lines += [HEADING, *branch_lines(explorer, found, begin)]
    else:
        lines.append(f"no conditional branch in {span(since)}" if since else "no turn comes before")
    if last != since:
        lines.append(f"where PC went in {span(since[: -len(last)])} isn't shown")
    lines += [it.line() for it in went_elsewhere(explorer, last)] if last else []
    return (found[0] if found else None), lines


@command(
    "branches [N [C]]",
    r"(<turn:decimal>( <count:decimal>)?)?",
    "the last conditional branches before turn N, and what they were decided by",
)
def branches(explorer: Explorer, arguments: Arguments) -> Iterator[str]:
    """Shows the last C conditional branches before turn N, SOB among them, 8 if C isn't given and
    at most 64, each as `see` has it, and whether it was taken. One that leads to the instruction
    behind it counts as not taken. Below it stand the condition codes that it looks at, or the
    register of SOB, before the turn; the turn that made them; and what that turn made them of, as
    `why` has it. An interrupt and RTI make codes of words too. Without N it is the current turn. It
    is exact. If there are fewer in the last 32768 turns, no more are looked at."""
    end, count = arguments.decimal("turn", explorer.turn), arguments.decimal("count", USUAL_COUNT)
    if not 1 <= count <= MOST_COUNT:
        raise ExploreError(f"C is 1 to {MOST_COUNT}")
    if not end:
        raise ExploreError("no turn comes before turn 0")
    found, begin = last_branches(explorer.machine, end, count)
    yield from [HEADING] if found else []
    yield from branch_lines(explorer, found, begin)
    if len(found) < count:
        are = counted(len(found), "conditional branch")
        yield f"{are} in {span(range(begin, end))}{', and no more were looked at' * (begin > 0)}"
    explorer.turn = end
