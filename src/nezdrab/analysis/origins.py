"""What a value is made of, backwards over the turns: each cell comes from one write, and that is
made of cells before it, down to events and to what is there since power-up; and this as steps."""
import bisect
import heapq
import itertools
from collections import Counter, defaultdict
from enum import IntEnum
from typing import Iterable, Iterator, NamedTuple, Optional, Sequence

from ..core.engine import Machine
from ..core.errors import ExploreError
from ..core.values import dataclass
from .cells import INPUTS, KEPT, PC, PRB, byte_of_drive, drive_cell, first_of, is_core, is_of_drive
from .cells import is_on_bus
from .crew import Progress, stopped_by
from .labels import ADDRESS_OF_A_TRANSFER, events_with_data
from .last_writes import DISK, LastWrites
from .operands import Flow, How, Move
from .transfers import DiskMove, transfers_in
from .turn_cycles import Mappings, NotFollowed
from .turn_flow import Flows

BLOCK, MOST_BLOCKS, MOST_SINGLES, WINDOW_DELAYS, WINDOW_TURNS = 16, 8, 3, 32, 1000
# How far back one write is looked for: in turns that are decoded, and in looks at the disk.
MOST_TURNS_BACK, MOST_LOOKS = 20_000, 20_000


class OriginKind(IntEnum):
    """A write by the act of a turn or by the disk; or where the way back ends."""

    MADE = 0
    MOVED = 1
    EVENT = 2
    START = 3  # there since power-up
    TAPE = 4
    DEVICE = 5  # the state of a device, or of memory management
    POINT = 6  # where the program stands
    TOO_FAR = 7  # not found as far back as it was looked for


class Origin(NamedTuple):
    """A write or an end. `at` is the number of the move in its turn, of the cell, or of the
    event."""

    kind: OriginKind
    turn: int
    at: int

    @property
    def is_write(self) -> bool:
        return self.kind <= OriginKind.MOVED


class Input(NamedTuple):
    """A cell that a value is made of, and where it comes from."""

    cell: int
    origin: Origin


@dataclass(frozen=True)
class Graph:
    """The writes that the roots come from, each with its inputs, and those not followed."""

    roots: Sequence[Origin]
    inputs: dict[Origin, list[Input]]
    left: frozenset[Origin]
    stopped: str = ""  # by what, if by anything but the limit

    @property
    def is_whole(self) -> bool:
        return not self.left and not any(it.kind == OriginKind.TOO_FAR for it in self.inputs)

    def events(self) -> list[int]:
        return sorted({it.at for it in self.inputs if it.kind == OriginKind.EVENT})


class Origins:
    """Finds the origins of cells before turn `end`. Turns are decoded when they are needed: single
    ones for writes to core, whose turns are known, and a block if a write of a register is looked
    for, or if many of its turns were decoded."""

    def __init__(self, machine: Machine, end: int, places: bool = False):
        self.machine, self.end, self.places = machine, end, places
        self.flows: dict[int, Flow] = {}
        self.mappings, self.writes = Mappings(), LastWrites(machine)
        self.singles: Counter[int] = Counter()  # turns that were decoded singly, by their block
        self.written: dict[int, dict[int, list[tuple[int, int]]]] = {}
        self.windows: dict[int, list[DiskMove]] = {}
        self.window = max(WINDOW_TURNS, WINDOW_DELAYS * machine.setup.delays["disk"])
        self.brought: dict[int, list[tuple[int, int]]] = defaultdict(list)
        for event in events_with_data(machine):
            for cell in event.cells:
                self.brought[cell].append((event.turn, event.number))

    # Turns

    def flow(self, turn: int) -> Flow:
        if turn not in self.flows:
            block = turn - turn % BLOCK
            if self.singles[block] >= MOST_SINGLES:
                self.decode(block)
            else:
                self.decode_singly(turn)
        return self.flows[turn]

    def decode_singly(self, turn: int) -> None:
        """Decodes the turn, with those to which the way back is likely to come."""
        ahead = sorted({*self.writes.ahead, turn} - self.flows.keys())
        self.writes.ahead = set()
        try:
            self.take(range(it, it + 1) for it in ahead)
        except NotFollowed:  # which may be another turn
            if turn not in self.flows:
                self.take([range(turn, turn + 1)])

    def take(self, parts: Iterable[range]) -> None:
        for flow in Flows(self.machine, *parts, mappings=self.mappings):
            self.flows[flow.turn] = flow
            self.singles[flow.turn - flow.turn % BLOCK] += 1

    def decode(self, first: int, count: int = 1) -> None:
        """Decodes the block of turns that begins at turn `first`, and blocks before it, up to one
        that is decoded."""
        begins = range(first, max(first - count * BLOCK, -1), -BLOCK)
        written = {
            it: defaultdict[int, list[tuple[int, int]]](list)
            for it in itertools.takewhile(lambda it: it not in self.written, begins)
        }
        turns = range(min(written), min(first + BLOCK, self.end))
        for flow in Flows(self.machine, turns, mappings=self.mappings):
            self.flows[flow.turn] = flow
            in_block = written[flow.turn - flow.turn % BLOCK]
            for number, it in enumerate(flow.moves):
                if not is_core(it.cell):
                    in_block[it.cell].append((flow.turn, number))
        self.written.update(written)

    def decode_back(self, first: int, count: int) -> None:
        try:
            self.decode(first, count)
        except NotFollowed:  # which may be a turn that isn't needed
            self.decode(first)

    # Origins

    def before(self, cell: int, turn: int) -> Origin:
        """The origin of a cell before a turn."""
        return self.outside(cell, turn, turn - 1)

    def of_input(self, cell: int, turn: int, number: int) -> Origin:
        """The origin of a cell that this move of the turn reads: what was before its instant."""
        flow = self.flow(turn)
        begin = first_of_instant(flow, number)
        found = written_in(flow, cell, begin)
        return self.outside(cell, turn, turn) if found is None else found

    def outside(self, cell: int, turn: int, begun: int) -> Origin:
        """The origin of a cell in a write before the turn, or in the beginning of turn `begun`."""
        if cell == PC:
            return Origin(OriginKind.POINT, turn, 0)
        if is_core(cell):
            return self.in_core(cell, turn, begun)
        if is_of_drive(cell):
            return self.on_drive(cell, begun)
        if is_on_bus(cell) and cell & ~1 not in KEPT:
            return self.of_device(cell, turn, begun)
        return self.in_register(cell, turn)

    def in_core(self, cell: int, turn: int, begun: int) -> Origin:
        moved = self.flow(turn).transfer if begun == turn else None
        if moved is not None and moved.is_read and cell & ~1 in moved.in_core:
            return Origin(OriginKind.MOVED, turn, cell)
        while True:
            last = self.writes.before(turn, cell & ~1)
            if last is None:
                return Origin(OriginKind.START, 0, first_of(cell))
            turn = last.turn
            if last.writer == DISK:
                return Origin(OriginKind.MOVED, turn, cell)
            found = written_in(self.flow(turn), cell, len(self.flow(turn).moves))
            if found is not None:
                return found
            # only the other byte was written by the act

    def of_device(self, cell: int, turn: int, begun: int) -> Origin:
        if cell & ~1 not in INPUTS:
            return Origin(OriginKind.DEVICE, turn, cell & ~1)
        if cell & ~1 == PRB:
            return Origin(OriginKind.TAPE, turn, PRB)
        events = self.brought.get(cell, [])
        at = bisect.bisect_right(events, (begun, 1 << 40))
        if at:
            return Origin(OriginKind.EVENT, events[at - 1][0], events[at - 1][1])
        return Origin(OriginKind.START, 0, cell & ~1)

    def in_register(self, cell: int, turn: int) -> Origin:
        first, count = turn - turn % BLOCK, 1
        while first >= 0 and turn - first < MOST_TURNS_BACK:
            if first not in self.written:
                self.decode_back(first, count)
                count = min(2 * count, MOST_BLOCKS)
            writes = self.written[first].get(cell, [])
            at = bisect.bisect_left(writes, (turn, 0))
            if at:
                return Origin(OriginKind.MADE, *writes[at - 1])
            first -= BLOCK
        return Origin(OriginKind.START, 0, first_of(cell)) if first < 0 else too_far(turn, cell)

    def on_drive(self, cell: int, begun: int) -> Origin:
        """The last write of the disk to a byte of a drive, up to the beginning of this turn."""
        drive, word = byte_of_drive(cell).drive, byte_of_drive(cell).word
        delay = self.machine.setup.delays["disk"] or self.window
        for number in range(begun // self.window, -1, -1):
            for it in reversed(self.transfers(number)):
                is_here = it.drive == drive and word in it.on_drive
                if it.turn <= begun and is_here and not it.is_read:
                    return Origin(OriginKind.MOVED, it.turn, cell)
            if (begun - number * self.window) // delay > MOST_LOOKS:
                return too_far(begun, cell)
        return Origin(OriginKind.START, 0, first_of(cell))

    def transfers(self, number: int) -> list[DiskMove]:
        """The reads and writes of the disk that complete in this window of turns."""
        if number not in self.windows:
            turns = range(number * self.window, min((number + 1) * self.window, self.end))
            self.windows[number] = transfers_in(self.machine, turns)
        return self.windows[number]

    def transfer(self, turn: int) -> DiskMove:
        """The transfer that completes in this turn."""
        found = [it for it in self.transfers(turn // self.window) if it.turn == turn]
        if not found:
            raise ExploreError(f"turn {turn}: the rules don't explain what the disk moves")
        return found[0]

    # The way back

    def inputs(self, origin: Origin) -> list[Input]:
        if origin.kind == OriginKind.MADE:
            move = self.flow(origin.turn).moves[origin.at]
            cells = dict.fromkeys(move.values + (move.addresses if self.places else ()))
            return [Input(it, self.of_input(it, origin.turn, origin.at)) for it in cells]
        return list(self.moved(origin)) if origin.kind == OriginKind.MOVED else []

    def moved(self, origin: Origin) -> Iterator[Input]:
        """What a cell that the disk has written comes from."""
        turn, cell = origin.turn, origin.at
        found = self.transfer(turn)
        if found.is_read:
            source = drive_cell(found.drive, found.drive_word(cell & ~1), cell & 1)
            yield Input(source, self.outside(source, turn, turn - 1))
        else:
            address = found.core_address(byte_of_drive(cell).word)
            if address is not None:
                source = address + (cell & 1)
                yield Input(source, self.outside(source, turn, turn - 1))
        for it in ADDRESS_OF_A_TRANSFER if self.places else ():
            yield Input(it, self.in_register(it, turn))

    def graph(self, roots: Sequence[Origin], most: int) -> Graph:
        """The latest turns first. After this number of writes, Ctrl-C, or a turn that isn't
        explained, the others aren't followed."""
        inputs: dict[Origin, list[Input]] = {it: [] for it in roots if not it.is_write}
        todo = [(-it.turn, it) for it in roots if it.is_write]
        heapq.heapify(todo)
        stopped = stopped_by(self.added(inputs, todo, most))
        left = frozenset(it for _, it in todo if it not in inputs)
        inputs.update((it, []) for it in left)
        return Graph(roots, inputs, left, stopped)

    def added(
        self, inputs: dict[Origin, list[Input]], todo: list[tuple[int, Origin]], most: int
    ) -> Iterator[None]:
        """Takes in at most this many writes, one at a time."""
        with Progress(most, "steps") as progress:
            while todo and progress.done < most:
                _, origin = todo[0]
                if origin in inputs:
                    heapq.heappop(todo)
                    continue
                self.add(origin, inputs, todo)
                progress.step()
                yield

    def add(
        self, origin: Origin, inputs: dict[Origin, list[Input]], todo: list[tuple[int, Origin]]
    ) -> None:
        """Takes a write in, and what it comes from."""
        found = self.inputs(origin)
        inputs[origin] = found
        for _, it in found:
            if not it.is_write:
                inputs[it] = []
            elif it not in inputs:
                heapq.heappush(todo, (-it.turn, it))


def too_far(turn: int, cell: int) -> Origin:
    return Origin(OriginKind.TOO_FAR, turn, first_of(cell))


def first_of_instant(flow: Flow, number: int) -> int:
    moves = flow.moves
    while number and moves[number - 1].instant == moves[number].instant:
        number -= 1
    return number


def written_in(flow: Flow, cell: int, end: int) -> Optional[Origin]:
    """The last write of a cell by the moves of the turn before number `end`."""
    for number in range(end - 1, -1, -1):
        if flow.moves[number].cell == cell:
            return Origin(OriginKind.MADE, flow.turn, number)
    return None


# The graph as steps: bytes of one word that one operation makes are one step, and a value that is
# only copied goes through.

COPIES = (How.COPY, How.SAVED)
INSTRUCTION_BYTES = 6


class ValueStep(NamedTuple):
    """An operation of a turn, by its instant; a word that the disk wrote, by its first cell; or an
    end of the way back, by its cell or the number of its event."""

    kind: OriginKind
    turn: int
    at: int
    is_codes: bool = False

    @property
    def is_write(self) -> bool:
        return self.kind <= OriginKind.MOVED


class Source(NamedTuple):
    """What a step is made of: the step that it comes from, through these copies; the cell that has
    it then, and the one that the step wrote it to."""

    step: ValueStep
    copies: tuple[ValueStep, ...]
    cell: int
    written: int


class ValueSteps:
    """The steps of a graph, with their inputs."""

    def __init__(self, origins: Origins, graph: Graph):
        self.origins, self.graph = origins, graph
        self.inputs: dict[ValueStep, dict[ValueStep, int]] = {}
        for origin in graph.inputs:
            self.add(origin)
        self.left = {self.step_of(it) for it in graph.left}
        self.ordered = sorted(self.inputs, key=lambda it: (it.turn, it.kind, it.at))
        self.through: dict[ValueStep, tuple[ValueStep, tuple[ValueStep, ...]]] = {}
        self.sizes: dict[ValueStep, int] = {}
        for step in self.ordered:
            inputs = {self.target(it)[0] for it in self.inputs[step]}
            self.sizes[step] = step.is_write + sum(self.sizes.get(it, 0) for it in inputs)

    def move(self, origin: Origin) -> Move:
        return self.origins.flow(origin.turn).moves[origin.at]

    def step_of(self, origin: Origin) -> ValueStep:
        if origin.kind == OriginKind.MADE:
            move = self.move(origin)
            return ValueStep(origin.kind, origin.turn, move.instant, move.how == How.CODE)
        if origin.kind == OriginKind.DEVICE:
            return ValueStep(origin.kind, 0, origin.at)
        if origin.kind == OriginKind.POINT:
            return ValueStep(origin.kind, 0, 0)
        at = origin.at if origin.kind == OriginKind.EVENT else first_of(origin.at)
        return ValueStep(origin.kind, origin.turn, at)

    def add(self, origin: Origin) -> None:
        step = self.step_of(origin)
        inputs = self.inputs.setdefault(step, {})
        for cell, source in self.graph.inputs[origin]:
            if not self.is_of_code(step, cell):
                inputs.setdefault(self.step_of(source), first_of(cell))

    def is_of_code(self, step: ValueStep, cell: int) -> bool:
        """Whether the cell is in a word of the instruction itself: an immediate operand, an
        address."""
        if step.kind != OriginKind.MADE or not is_core(cell):
            return False
        place = self.origins.flow(step.turn).place
        return place is not None and place <= cell < place + INSTRUCTION_BYTES

    def is_copy(self, step: ValueStep) -> bool:
        if len(self.inputs.get(step, ())) != 1 or step in self.left:
            return False
        if step.kind == OriginKind.MOVED:
            return True
        moves = self.origins.flow(step.turn).moves if step.kind == OriginKind.MADE else []
        mine = [it for it in moves if is_of(it, step)]
        return bool(mine) and all(it.how in COPIES for it in mine)

    def target(self, step: ValueStep) -> tuple[ValueStep, tuple[ValueStep, ...]]:
        """The step that a value comes from, and the copies on the way, the last one first."""
        chain: list[ValueStep] = []
        while step not in self.through and self.is_copy(step):
            chain.append(step)
            (step,) = self.inputs[step]
        end, copies = self.through.get(step, (step, ()))
        for it in reversed(chain):
            copies = (it, *copies)
            self.through[it] = end, copies
        return end, copies

    def sources(self, step: ValueStep) -> list[Source]:
        """What a step is made of; the one with the most behind it last."""
        found: dict[ValueStep, Source] = {}
        for it, cell in self.inputs[step].items():
            found.setdefault(self.target(it)[0], self.source(it, cell))
        return sorted(found.values(), key=lambda it: (it.step.is_write, self.sizes[it.step]))

    def source(self, step: ValueStep, cell: int) -> Source:
        """Where the value comes from that this step gives to the cell."""
        target, copies = self.target(step)
        written = self.inputs[copies[-1]][target] if copies else cell
        return Source(target, copies, cell, written)

    def run_of_one(self, step: ValueStep) -> list[ValueStep]:
        """The steps from this one back that are each made of one other step alone."""
        found: list[ValueStep] = []
        while step.kind == OriginKind.MADE and step not in self.left:
            sources = self.sources(step)
            if len(sources) != 1 or not sources[0].step.is_write:
                break
            found.append(step)
            step = sources[0].step
        return found


def is_of(move: Move, step: ValueStep) -> bool:
    return move.instant == step.at and (move.how == How.CODE) == step.is_codes
