"""What became of an event: `follow`."""
from typing import Iterator, Optional, Sequence

from ..core.engine import LAST_TURN, Machine
from ..core.errors import ExploreError
from ..core.in_words import counted
from ..core.past import Event
from ..core.values import dataclass, field
from .branches import LOOKED_AT
from .cells import OUTPUTS, TPB, byte_of_drive, is_core, is_of_drive, name_of, some_of
from .command import Arguments, command
from .crew import stopped_by
from .explorer import Explorer
from .labels import Brought, Carried, Labels, MovedCell, events_with_data
from .listing import turns_in_words
from .operands import Flow, How
from .transfers import DiskMove
from .turn_flow import flows_with_bar

FOLLOWED_TURNS, MOST_LINES, FEW_WORDS, MOST_TURNS_SHOWN = 10_000, 60, 4, 8
MARK = 1


@dataclass
class Told:
    """A line about a turn, and whether it ends with what the turn did."""

    turn: int
    text: str
    names_act: bool = False


@dataclass
class Sent:
    """A byte that an instruction gave to the printer or the punch."""

    turn: int
    register: int


@dataclass
class Followed:
    """Follows an event, turn by turn."""

    machine: Machine
    event: Event
    labels: Labels
    told: list[Told] = field(default_factory=list)
    branches: list[int] = field(default_factory=list)
    sent: list[Sent] = field(default_factory=list)
    writes_of_printer: list[int] = field(default_factory=list)
    reached: set[int] = field(default_factory=set)
    end: int = 0  # the turn before which it was followed
    is_read: bool = False

    def __post_init__(self) -> None:
        self.brought: dict[int, list[Brought]] = {}
        for it in events_with_data(self.machine):
            self.brought.setdefault(it.turn, []).append(it)

    def turn(self, flow: Flow) -> None:
        self.end = flow.turn + 1
        for it in self.brought.get(flow.turn, ()):
            event = self.machine.event(it.number)
            if event and self.labels.of(it.cells) and not self.is_read:
                text = f"nothing has read it, and event {it.number} overwrites it: "
                self.told.append(Told(flow.turn, text + event.explained()))
            for cell in it.cells:
                self.labels.put(cell, MARK if it.number == self.event.number else 0)
        if flow.transfer is not None:
            self.transfer(flow.transfer, self.labels.transfer(flow.transfer))
        if any(it.cell == TPB for it in flow.moves):
            self.writes_of_printer.append(flow.turn)
        looked_at = LOOKED_AT.get(flow.word >> 9, ()) if flow.place is not None else ()
        if looked_at and self.labels.of(looked_at):
            self.branches.append(flow.turn)
        carried = self.labels.turn(flow.moves)
        if carried:
            self.is_read = True
            self.act(flow.turn, carried)

    def act(self, turn: int, carried: Sequence[Carried]) -> None:
        """What the act of a turn does with the event."""
        for it in carried:
            cell, is_value = it.move.cell, it.move.how == How.VALUE
            if cell in OUTPUTS and it.now:
                self.sent.append(Sent(turn, cell))
            elif is_core(cell) and it.before and not it.now:
                self.overwritten(turn, cell, is_value)
            if is_value and it.now and is_core(cell):
                self.reached.add(cell)
        if any(it.now and it.move.how == How.VALUE for it in carried):
            self.told.append(Told(turn, "", names_act=True))
        elif any(it.chosen and it.move.how in (How.VALUE, How.COPY) for it in carried):
            self.told.append(Told(turn, "an address is made of it: ", names_act=True))

    def overwritten(self, turn: int, cell: int, is_value: bool) -> None:
        """Tells of it, unless what is overwritten is a copy and what overwrites it is another."""
        if is_value or cell in self.reached:
            text = f"core {cell & ~1:06o} is overwritten, with nothing of it: "
            if not self.told or self.told[-1].text != text or self.told[-1].turn != turn:
                self.told.append(Told(turn, text, names_act=True))
        self.reached.discard(cell)

    # Transfers

    def transfer(self, moved: DiskMove, cells: Sequence[MovedCell]) -> None:
        words: dict[int, list[MovedCell]] = {}
        for it in cells:
            words.setdefault(it.cell & ~1, []).append(it)
        self.reached.difference_update(it.cell for it in cells)
        new = [at for at, it in words.items() if has_now(it) and not had_before(it)]
        gone = [at for at, it in words.items() if had_before(it) and not has_now(it)]
        for name, cell in self.grouped([] if moved.is_read else new):
            value = self.value_of(moved, cell)
            self.told.append(Told(moved.turn, f"the disk writes it to {name}{value}"))
        for name, cell in self.grouped(gone):
            value = self.value_of(moved, cell)
            by = " by a read of the disk" if moved.is_read else f"{value}{source_of(moved, cell)}"
            text = f"{name} is overwritten{by}, with nothing of it"
            self.told.append(Told(moved.turn, text))

    def grouped(self, cells: Sequence[int]) -> Iterator[tuple[str, Optional[int]]]:
        """The name of each of a few words, with its cell; or one name for many."""
        if len(cells) <= FEW_WORDS:
            yield from ((self.name(it), it) for it in cells)
        else:
            first, last = self.name(cells[0]), self.name(cells[-1])
            yield f"each of {len(cells)} words from {first} to {last}", None

    def value_of(self, moved: DiskMove, cell: Optional[int]) -> str:
        """The word of a drive after the transfer."""
        if cell is None or moved.is_read:
            return ""
        at = byte_of_drive(cell)
        return f": {self.machine.disk_word(moved.turn + 1, at.drive, at.word):06o}"

    # What is shown

    def printed(self) -> Iterator[Told]:
        """What became of the bytes that were given to the printer and to the punch."""
        for it in self.sent:
            if it.register == TPB:
                yield Told(it.turn, f"{self.became(it.turn)}: ", names_act=True)
            else:
                yield Told(it.turn, "given to the punch: ", names_act=True)

    def became(self, turn: int) -> str:
        """Whether the byte that this turn gave to the printer was printed: it wasn't if another one
        took its place."""
        number, printed = self.machine.text_length(turn + 1), self.end
        is_out = self.machine.text_length(self.end) > number
        if is_out:
            (printed,) = self.machine.printed_in([number])
        if any(turn < it < printed for it in self.writes_of_printer):
            return "given to the printer, but not printed"
        return "printed" if is_out else f"given to the printer, not printed before turn {self.end}"

    def lines(self, explorer: Explorer) -> Iterator[str]:
        told = sorted([*self.told, *self.printed()], key=lambda it: it.turn)
        shown = told[:MOST_LINES]
        named = sorted({it.turn for it in shown if it.names_act})
        acts = dict(zip(named, turns_in_words(explorer, named)))
        for it in shown:
            yield f"turn {it.turn}: {it.text}{acts[it.turn] if it.names_act else ''}"
        if len(told) > len(shown):
            yield f".. {counted(len(told) - len(shown), 'line')} more"
        yield f"before turn {self.end} something of it is in: {self.places()}"
        if self.branches:
            turns = " ".join(map(str, self.branches[:MOST_TURNS_SHOWN]))
            more = " .." if len(self.branches) > MOST_TURNS_SHOWN else ""
            several = "s" if len(self.branches) > 1 else ""
            branches = counted(len(self.branches), "branch")
            yield f"{branches} looked at codes made of it: turn{several} {turns}{more}"

    def places(self) -> str:
        """The registers, core and the drives, as far as something of the event is there."""
        held = sorted(self.labels.bits)
        drives = [self.name(it).split(" ", 1)[1] for it in held if is_of_drive(it)]
        core = [self.name(it).split()[1] for it in held if is_core(it)]
        others = [self.name(it) for it in held if not is_core(it) and not is_of_drive(it)]
        parts = [some_of(list(dict.fromkeys(it))) for it in (others, core, drives)]
        before = f"{parts[0]}; " if others else ""
        return f"{before}core {parts[1]}; disk {parts[2]}"

    def name(self, cell: int) -> str:
        return name_of(cell, self.machine.setup.version == 2)


def has_now(cells: Sequence[MovedCell]) -> bool:
    return any(it.now for it in cells)


def had_before(cells: Sequence[MovedCell]) -> bool:
    return any(it.before for it in cells)


def source_of(moved: DiskMove, cell: Optional[int]) -> str:
    """Where the word comes from that a write of the disk brings."""
    if cell is None:
        return ""
    address = moved.core_address(byte_of_drive(cell).word)
    return " that fills the sector" if address is None else f" from core {address:06o}"


def last_of(explorer: Explorer, event: Event) -> int:
    """The turn before which it ends, if the line doesn't name one."""
    end = min(event.turn + FOLLOWED_TURNS, LAST_TURN)
    return min(end, explorer.turn) if explorer.turn > event.turn else end


@command(
    "follow E [to N] [places]",
    r"<event:decimal>( to <turn:decimal>)?(?P<places> places)?",
    "what became of event E: a key, or switches",
)
def follow(explorer: Explorer, arguments: Arguments) -> Iterator[str]:
    """Follows the data that event E brought, up to turn N: the operations that it went into, the
    words of the disk that it was written to, the bytes that were printed, and what overwrote them.
    A copy has no line of its own. At the end stands where something of the event is before turn N,
    and how many branches looked at codes made of it. What such a branch decides isn't followed, nor
    which address a value made of the event is at, unless `places` stands there. Without `to` N is
    the current turn, if that comes after the event, and at most 10000 turns after it. Ctrl-C ends
    it, and what was found is shown."""
    machine = explorer.machine
    event = machine.event(arguments.decimal("event"))
    if event is None:
        number = arguments.decimal("event")
        raise ExploreError(f"no event has the number {number}; events lists them")
    if event.text.split()[0] not in ("key", "switches"):
        raise ExploreError(f"event {event.number} is {event.text}: it brings no data")
    named, unnamed = arguments.optional("turn"), last_of(explorer, event)
    end = unnamed if named is None else int(named)
    if end <= event.turn:
        raise ExploreError(f"event {event.number} is in turn {event.turn}; N is later")
    followed = Followed(machine, event, Labels(bool(arguments.optional("places"))), end=event.turn)
    yield f"turn {event.turn}: event {event.number}, {event.explained()}"
    flows = flows_with_bar(machine, range(event.turn, end))
    stopped = stopped_by(map(followed.turn, flows))
    yield from followed.lines(explorer)
    if stopped:
        yield f"the turns from {followed.end} on weren't looked at: {stopped}"
    elif named is None and end == event.turn + FOLLOWED_TURNS:
        yield f"{FOLLOWED_TURNS} turns were looked at; follow {event.number} to N goes on"
