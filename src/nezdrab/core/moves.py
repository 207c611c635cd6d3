"""An event that is dropped, or moved by some turns, and what becomes of an answer: `matters`."""
from enum import Enum
from typing import Callable, Generic, Iterable, Iterator, Optional, Sequence, TypeVar

from .asked import sparse_stride
from .engine import LAST_TURN, UNDO, Machine
from .errors import ExploreError
from .past import Event
from .replies import hash_of
from .twins import each_of, replies_to
from .unnoticed import unnoticed
from .values import dataclass, field

FIRST_BLOCK, LARGEST_BLOCK = 16, 256  # moves that are tried in one task
USUAL_MOST = 1_024  # turns by which events are moved
Answer = TypeVar("Answer")


class Way(Enum):
    """What is done with an event."""

    DROPPED = "dropped"
    EARLIER = "earlier"
    LATER = "later"


@dataclass(frozen=True)
class Moved(Generic[Answer]):
    """A move of an event by this number of turns, 0 if it was dropped, and the answer then."""

    turns: int
    answer: Answer

    __hash__ = hash_of


@dataclass(frozen=True)
class EventMoves(Generic[Answer]):
    """An event, and the moves by the fewest turns after which the answer is another one, or the one
    that is wanted: None if there is no such move."""

    event: Event
    dropped: Optional[Moved[Answer]]
    earlier: Optional[Moved[Answer]]
    later: Optional[Moved[Answer]]

    __hash__ = hash_of


@dataclass(frozen=True)
class Asking(Generic[Answer]):
    """What is asked after each move: lines, the answer that their replies are, and whether that is
    one that is looked for."""

    lines: Sequence[str]
    read: Callable[[Sequence[str]], Answer]
    is_sought: Callable[[Answer], bool]


@dataclass(frozen=True)
class Task:
    """Moves of an event in one way. Once those of `runs` are tried, all by `shifts` turns are
    known: the others leave each turn that is asked about as it is, or as the one tried last."""

    event: Event
    way: Way
    shifts: range
    runs: range


@dataclass
class Tried:
    """What is known of the moves of an event in one way."""

    known: list[range] = field(default_factory=list)  # in order, without common numbers
    change: Optional[Moved[str]] = None  # by the fewest turns

    def add(self, shifts: range, change: Optional[Moved[str]]) -> None:
        """Takes in that of these the last one changes the reply, or none."""
        self.known = merged([*self.known, shifts])
        if change and (self.change is None or change.turns < self.change.turns):
            self.change = change

    def has(self, shifts: range) -> bool:
        return any(it.start <= shifts.start and shifts.stop <= it.stop for it in self.known)

    @property
    def same_to(self) -> int:
        """No move by up to so many turns changes the reply."""
        known = self.known[0].stop - 1 if self.known and self.known[0].start <= 1 else 0
        return known if self.change is None else min(known, self.change.turns - 1)

    @property
    def is_nearest(self) -> bool:
        """Whether no move by fewer turns than that of the change changes the reply."""
        return self.change is not None and self.same_to == self.change.turns - 1


def merged(ranges: Iterable[range]) -> list[range]:
    """The same numbers, in ranges that neither meet nor touch one another."""
    found: list[range] = []
    for it in sorted(ranges, key=lambda it: it.start):
        if found and it.start <= found[-1].stop:
            found[-1] = range(found[-1].start, max(it.stop, found[-1].stop))
        else:
            found.append(it)
    return found


def common(one: range, other: range) -> range:
    """The numbers that are in both."""
    return range(max(one.start, other.start), min(one.stop, other.stop))


@dataclass(frozen=True)
class Moves:
    """The turn before which events count, and by how many turns they are moved at most: by each
    number of turns, or, if `is_near`, by some that double, and then by halves."""

    end: int
    most: int
    is_near: bool = False

    def can_matter(self, event: Event) -> bool:
        """Whether the event comes before the end, or a move brings it there."""
        return event.turn - self.most < self.end

    def farthest(self, event: Event, way: Way) -> int:
        """By how many turns the event can be moved."""
        room = event.turn if way is Way.EARLIER else LAST_TURN - event.turn
        return 0 if way is Way.DROPPED else min(self.most, room)

    def runs(self, event: Event, way: Way) -> range:
        """The moves that need a run. By others the event stays after the end, or, moved to the end
        or beyond, is as one that is moved to the end."""
        farthest = self.farthest(event, way)
        if way is Way.DROPPED:
            return range(1)
        if way is Way.EARLIER:
            return range(max(1, event.turn - self.end + 1), farthest + 1)
        return range(1, min(farthest, self.end - event.turn) + 1)

    def tasks_of(self, event: Event, way: Way) -> Iterator[Task]:
        """The moves of an event in one way, the nearest first."""
        left, first = self.runs(event, way), 0 if way is Way.DROPPED else 1
        all_shifts = range(first, self.farthest(event, way) + 1)
        size = len(left) if self.is_near else FIRST_BLOCK
        while all_shifts:
            runs, left = left[:size], left[size:]
            shifts = range(all_shifts.start, runs.stop) if left else all_shifts
            all_shifts = range(shifts.stop, all_shifts.stop)
            size = min(2 * size, LARGEST_BLOCK)
            yield Task(event, way, shifts, runs)

    def turn(self, task: Task, shift: int) -> int:
        """The turn that the move puts the event in. A dropped one comes after all that can be asked
        about: so it keeps its number."""
        if task.way is Way.DROPPED:
            return LAST_TURN
        return task.event.turn + (shift if task.way is Way.LATER else -shift)


class Trial(Generic[Answer]):
    """Tries the moves of events on twins of a machine."""

    def __init__(self, machine: Machine, moves: Moves, asking: Asking[Answer]):
        self.moves, self.asking = moves, asking
        self.turns = frozenset(it.turn for it in machine.script)

    def nearest(self, twin: Machine, event: Event) -> EventMoves[Answer]:
        """What matters of the event."""
        found = (
            next(filter(None, (self.change(twin, it) for it in tasks)), None)
            for tasks in (self.moves.tasks_of(event, way) for way in Way)
        )
        return EventMoves(event, *found)

    def change(self, twin: Machine, task: Task) -> Optional[Moved[Answer]]:
        """The move of a task by the fewest turns that is looked for."""
        if not task.runs:
            return None
        return self.near(twin, task) if self.moves.is_near else self.first(twin, task)

    def answers(
        self, twin: Machine, task: Task, shifts: Sequence[int]
    ) -> Iterator[Moved[Answer]]:
        """The answer after each of these moves, which is taken back then."""
        event, lines = task.event, self.asking.lines
        turns = [self.moves.turn(task, it) for it in shifts]
        edits = [f"alter {event.number} {turn} {event.text}" for turn in turns]
        replies = replies_to(twin, [line for edit in edits for line in (edit, *lines, UNDO)])
        size = len(lines) + 2
        for at, shift in enumerate(shifts):
            yield Moved(shift, self.asking.read(replies[at * size + 1 : at * size + size - 1]))

    def first(self, twin: Machine, task: Task) -> Optional[Moved[Answer]]:
        """Tries all moves of a task, but of those that make the same run the nearest alone. In the
        order of their turns each costs least."""
        shifts = list(self.nearest_of_each_run(twin, task))
        if task.way is Way.EARLIER:
            shifts.reverse()
        answers = self.answers(twin, task, shifts)
        found = [it for it in answers if self.asking.is_sought(it.answer)]
        return min(found, key=lambda it: it.turns) if found else None

    def nearest_of_each_run(self, twin: Machine, task: Task) -> Iterator[int]:
        """The moves of a task but for those that make the same run as the one before: both put a
        key in turns that follow one another, of which the first doesn't notice it, and the second
        has no event of its own and comes before the end."""
        not_noticing = self.not_noticing(twin, task)
        for shift in task.runs:
            turns = {self.moves.turn(task, it) for it in (shift - 1, shift)}
            second = max(turns)
            is_same_run = (
                shift != task.runs.start
                and min(turns) in not_noticing
                and second not in self.turns
                and second < self.moves.end
            )
            if not is_same_run:
                yield shift

    def not_noticing(self, twin: Machine, task: Task) -> frozenset[int]:
        """The turns of the task's moves that don't notice the key of its event: none if it is no
        key."""
        if task.way is Way.DROPPED or not task.event.text.startswith("key "):
            return frozenset()
        first, last = sorted(self.moves.turn(task, it) for it in (task.runs[0], task.runs[-1]))
        list(twin.ask_all([f"drop {task.event.number}"]))
        found = unnoticed(twin, range(first, last + 1))
        list(twin.ask_all([UNDO]))
        return found

    def near(self, twin: Machine, task: Task) -> Optional[Moved[Answer]]:
        """Tries moves that double until one changes the reply, and then those halfway to it."""
        same = task.runs.start - 1
        found: Optional[Moved[Answer]] = None
        for shift in doubled(task.runs):
            found = self.changed(twin, task, shift)
            if found:
                break
            same = shift
        while found and found.turns - same > 1:
            middle = (same + found.turns) // 2
            nearer = self.changed(twin, task, middle)
            if nearer:
                found = nearer
            else:
                same = middle
        return found

    def changed(self, twin: Machine, task: Task, shift: int) -> Optional[Moved[Answer]]:
        """The change by one move, if it is one."""
        (found,) = self.answers(twin, task, range(shift, shift + 1))
        return found if self.asking.is_sought(found.answer) else None


def doubled(shifts: range) -> Iterator[int]:
    """The first of these, then those at distances that double, and the last."""
    step = 1
    while step < len(shifts):
        yield shifts[step - 1]
        step *= 2
    yield shifts[-1]


def named_events(machine: Machine, numbers: Sequence[int]) -> list[Event]:
    """The events with these numbers."""
    events = {it.number: it for it in machine.script}
    missing = [it for it in numbers if it not in events]
    if missing:
        raise ExploreError(f"no event has the number {missing[0]}; events lists them")
    return [events[it] for it in dict.fromkeys(numbers)]


def events_of(
    machine: Machine, moves: Moves, numbers: Optional[Sequence[int]] = None
) -> list[Event]:
    """The events with these numbers, or all that can matter."""
    if numbers is not None:
        return named_events(machine, numbers)
    return [it for it in machine.script if moves.can_matter(it)]


def nearest_moves(
    machine: Machine,
    moves: Moves,
    asking: Asking[Answer],
    numbers: Optional[Sequence[int]],
    processes: int,
) -> Iterator[EventMoves[Answer]]:
    """What matters of each of these events, as it is found."""
    events, trial = events_of(machine, moves, numbers), Trial(machine, moves, asking)
    stride = sparse_stride(moves.end)
    found = each_of(machine, events, trial.nearest, max(1, processes), stride)
    return (it for _, it in found)
