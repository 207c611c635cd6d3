"""Whether the replies to `moves` are what explore's own rules of data say of each turn. The cells
that both have are compared: bytes of core and of drives, R0 to R5, KSP, USP, the four codes, TKB,
TPB, PRB, PPB and the switches. Cells of addresses, PC and the rest of PS are left out: `moves` has
none of them.

The rows of pdp_made, which `moves` tells, mean more than explore in these things, on purpose: there
a cell may be named that no bit depends on. WIDER has explore's rules with the same cells.
- Each condition code that depends on operands is made of the whole operands, and the carry of an
  instruction that takes it in; so is V of MUL. explore says N of the high byte, and so on.
- BIC is made of both bytes of the source, whose numbers have no bound in the rows; so is the high
  byte of SWAB, of both bytes of the word; ROR and ROL take the carry into both bytes.
- A byte at the odd address of PS leaves each code, which is made of all four.
- A write of PRS may clear PRB, which is made of itself and of what is written. For explore PRB is
  an input: it comes from the tape."""
from typing import Iterator, Optional, Sequence

from nezdrab.analysis.cells import ALL_CODES, CODES, NAMES, NAMES_ON_THE_BUS, NOTHING, OUTPUTS
from nezdrab.analysis.cells import PRB, PS, REGISTERS, SWITCHES, TKB
from nezdrab.analysis.cells import Cells, byte_of_drive, is_core, is_of_drive, is_register
from nezdrab.analysis.made_of import EXTENDED, KEPT, MadeRow, letters, plan_of
from nezdrab.analysis.operands import Flow, How, Operand
from nezdrab.analysis.transfers import DiskMove
from nezdrab.analysis.turn_cycles import NotFollowed
from nezdrab.analysis.turn_flow import Flows
from nezdrab.core.engine import Machine
from nezdrab.core.moves_of_turns import Cell, CellKind, DiskMoved, TurnMoves, in_words
from nezdrab.core.past import Event
from nezdrab.core.values import replace

PRS = 0o777550
MUL = EXTENDED[0][1]
BUFFERS = {*OUTPUTS, TKB, PRB, SWITCHES}
# By the name of the instruction, the letters of its low and its high byte in the rows.
WIDER = {
    "BIC": ("sSd", "sSD"),
    "SWAB": ("D", "dD"),
    "ROR": ("dDC", "DC"),
    "ROL": ("dC", "dDC"),
}
Made = dict[Cell, frozenset[Cell]]


def widened(name: str, row: MadeRow, is_byte: bool) -> MadeRow:
    """The row of an instruction as the rows of pdp_made have it."""
    low, high = WIDER.get(name, (row.low, row.high))
    all_of = letters(*(it for it in row.codes if it != KEPT))
    codes = [all_of if it not in ("", KEPT) else it for it in row.codes]
    if is_byte:
        low, high = row.low, row.high
    return replace(row, low=low, high=high, n=codes[0], z=codes[1], v=codes[2], c=codes[3])


class WideFlows(Flows):
    """The flows of turns, whose moves are made of what the rows name."""

    name, is_byte = "", False

    def carry_out(self, word: int) -> None:
        plan = plan_of(word)
        self.name, self.is_byte = ("", False) if plan is None else (plan.name, plan.is_byte)
        super().carry_out(word)

    def finish(
        self, row: MadeRow, values: Sequence[Cells], to: Operand, is_byte: bool, addresses: Cells
    ) -> None:
        super().finish(widened(self.name, row, self.is_byte), values, to, is_byte, addresses)

    def codes(self, row: MadeRow, inputs: Sequence[Cells], addresses: Cells) -> None:
        wide = replace(row, v=row.low) if row is MUL else widened("", row, True)
        super().codes(wide, inputs, addresses)

    def store(
        self, place: int, is_byte: bool, values: tuple[Cells, Cells], addresses: Cells, how: How
    ) -> bool:
        if place & ~1 == PRS:
            self.move(PRB, (PRB, *values[0], *values[1]), addresses, how)
        if place == PS + 1 and is_byte:
            for code in ALL_CODES:
                self.move(code, ALL_CODES)
        return super().store(place, is_byte, values, addresses, how)


def cell_of(cell: int) -> Optional[Cell]:
    """The cell of a line, or None of one that `moves` doesn't have."""
    if is_core(cell):
        return Cell(CellKind.CORE, "", cell & ~1, cell & 1)
    if is_of_drive(cell):
        drive, number = byte_of_drive(cell)
        return Cell(CellKind.DISK, "", number // 2, number & 1, drive)
    if is_register(cell):
        return Cell(CellKind.REGISTER, NAMES[cell - REGISTERS >> 1], 0, cell & 1)
    if cell in ALL_CODES:
        return Cell(CellKind.CODE, "CVZN"[cell - CODES])
    if cell & ~1 in BUFFERS:
        return Cell(CellKind.DEVICE, NAMES_ON_THE_BUS[cell & ~1])
    return None


def made_by(flow: Flow) -> Made:
    """What the act makes of cells as they were when it began, without what is made of itself."""
    made: dict[int, frozenset[int]] = {}
    now: dict[int, frozenset[int]] = {}
    instant = 0
    for it in flow.moves:
        if it.instant != instant:
            made.update(now)
            instant, now = it.instant, {}
        sources = (made.get(value, frozenset((value,))) for value in it.values)
        now[it.cell] = frozenset().union(*sources)
    made.update(now)
    named = {cell_of(it): named_of(cells) for it, cells in made.items()}
    return {it: cells for it, cells in named.items() if it and cells != {it}}


def named_of(cells: frozenset[int]) -> frozenset[Cell]:
    return frozenset(cell for it in cells if (cell := cell_of(it)) is not None)


def differences(flow: Flow, told: TurnMoves, events: Sequence[Event]) -> Iterator[str]:
    """How the moves of a turn with these events differ from what the rules say."""
    made, of = made_by(flow), {it: frozenset(cells) for it, cells in told.made.items()}
    for cell in {**made, **of}:
        if made.get(cell) != of.get(cell):
            yield f"{cell}: {sources_in_words(made, cell)}, not {sources_in_words(of, cell)}"
    wanted = (last_of("key ", events), last_of("switches ", events), disk_of(flow.transfer))
    found = told.key, told.switches, told.disk if told.disk and told.disk.count else None
    if wanted != found:
        yield f"beginning: {wanted}, not {found}"


def sources_in_words(made: Made, cell: Cell) -> str:
    return f"of {in_words(sorted(made[cell], key=str))}" if cell in made else "of itself alone"


def last_of(kind: str, events: Sequence[Event]) -> Optional[int]:
    """The number among a turn's events of the last one of this kind."""
    found = [at for at, it in enumerate(events) if it.text.startswith(kind)]
    return found[-1] if found else None


def disk_of(moved: Optional[DiskMove]) -> Optional[DiskMoved]:
    """What the disk moves, or None of no word: `moves` has a line of a transfer that stops at its
    first word, and none of a function that is refused."""
    if moved is None or not moved.count:
        return None
    function = "read" if moved.is_read else "write"
    return DiskMoved(function, moved.drive, moved.first, moved.core, moved.count, moved.stays)


def wide_flows(machine: Machine, turns: range) -> Iterator[Flow]:
    """The flows of these turns, except of those that the rules don't follow."""
    while turns:
        flows = WideFlows(machine, turns)
        try:
            yield from flows
            return
        except NotFollowed:
            turns = range(flows.flowing.turn + 1, turns.stop)


def compared(machine: Machine, turns: range) -> Iterator[tuple[int, list[str]]]:
    """These turns, except those that the rules don't follow, each with how its moves differ from
    what the rules say."""
    flows = {it.turn: it for it in wide_flows(machine, turns)}
    for told in machine.moves_of(turns):
        if told.turn in flows:
            events = [it for it in machine.script if it.turn == told.turn]
            yield told.turn, list(differences(flows[told.turn], told, events))
