"""What is tried by other programs with the edits of a machine, its twins, while its own past stays:
tasks, one event at each of many turns, and fewer events that give the same reply."""
from __future__ import annotations

import operator
import queue
import threading
from collections import deque
from concurrent.futures import Future, ThreadPoolExecutor
from contextlib import closing, contextmanager
from itertools import chain, islice
from operator import length_hint
from typing import Callable, Iterable, Iterator, Optional, Sequence, SupportsIndex, TypeVar, Union

from .asked import stride_before
from .engine import LAST_TURN, SHORT_SENT_AHEAD, UNDO, Machine as Engine, Refused, is_refused
from .errors import ExploreError
from .language import explanation
from .past import Event
from .values import dataclass, field

Task = TypeVar("Task")
Result = TypeVar("Result")
Answer = TypeVar("Answer")
Replies = Sequence[str]
TURNS_OF_A_PART = 32  # whose lines are sent together
MOST_REMEMBERED = 256  # events of what was tried in vain


def replies_to(twin: Engine, lines: Sequence[str]) -> list[str]:
    """The replies to edits that aren't kept, and to questions. The first refusal is an error."""
    replies = list(twin.ask_all(lines, SHORT_SENT_AHEAD))
    for line, reply in zip(lines, replies):
        if is_refused(reply):
            raise Refused(line, reply, explanation(line, reply, twin.setup.version))
    return replies


def each_of(
    machine: Engine,
    tasks: Iterable[Task],
    work: Callable[[Engine, Task], Result],
    hands: int,
    stride: Optional[int] = None,
) -> Iterator[tuple[Task, Result]]:
    """Does each task on one of `hands` twins of the machine, and yields the results as they come.
    A task is taken, in the order of the tasks, when a twin is free for it. After a fault no task is
    taken any more: what is at work ends, and the fault of the first task that has one is raised,
    whichever came first. When nobody reads on, the twins end with what they do."""
    left, taking = enumerate(tasks), threading.Lock()
    results: "queue.SimpleQueue[Optional[tuple[Task, Result]]]" = queue.SimpleQueue()
    faults: list[tuple[int, Exception]] = []
    twins: list[Engine] = []
    stop = threading.Event()

    def hand() -> None:
        number = -1
        try:
            with closing(machine.twin(stride=stride)) as twin:
                twins.append(twin)
                while not stop.is_set() and not faults:
                    with taking:
                        number, task = next(left)
                    results.put((task, work(twin, task)))
        except StopIteration:
            pass
        except Exception as error:  # it is raised again by the one who reads the results
            faults.append((number, error))
        results.put(None)

    count = min(hands, length_hint(tasks, hands))
    threads = [threading.Thread(target=hand, daemon=True) for _ in range(count)]
    try:
        for thread in threads:
            thread.start()
        working = count
        while working:
            result = results.get()
            if result is None:
                working -= 1
            else:
                yield result
        if faults:
            _, error = min(faults, key=lambda it: it[0])
            raise error if isinstance(error, ExploreError) else ExploreError(repr(error))
    finally:
        stop.set()
        for twin in twins:
            twin.close()


@dataclass
class Sweep:
    """An event, a new one or one of the script, and the lines of a question."""

    engine: Engine
    event: str
    moved: Optional[Event]
    lines: Sequence[str]
    twins: list[Engine] = field(default_factory=list)

    @classmethod
    def of(cls, engine: Engine, event: Union[SupportsIndex, str], lines: Sequence[str]) -> Sweep:
        """An error if no event has the number."""
        if isinstance(event, str):
            return cls(engine, event, None, lines)
        moved = engine.event(operator.index(event))
        if moved is None:
            raise ExploreError(f"no event has the number {operator.index(event)}")
        return cls(engine, moved.text, moved, lines)

    def answers(
        self,
        turns: Iterable[SupportsIndex],
        read: Callable[[Sequence[str]], Answer],
        processes: int,
    ) -> Iterator[tuple[int, Answer]]:
        """The turns with their answers, in the order of the turns, each of which is taken a few
        parts before its answer is wanted."""
        left = map(operator.index, turns)
        parts = iter(lambda: list(islice(left, TURNS_OF_A_PART)), [])
        hands = max(1, processes)
        first: list[int] = next(parts, [])
        free: "queue.SimpleQueue[Engine]" = queue.SimpleQueue()
        asked: "deque[tuple[list[int], Future[list[list[str]]]]]" = deque()

        def replies(part: list[int]) -> list[list[str]]:
            twin = free.get()
            try:
                return self.part(twin, part)
            finally:
                free.put(twin)

        with ThreadPoolExecutor(hands) as pool, self.ended():
            for number, part in enumerate(chain([first] if first else [], parts)):
                if number < hands:
                    self.twins.append(self.engine.twin(stride=self.stride(first[0])))
                    free.put(self.twins[-1])
                asked.append((part, pool.submit(replies, part)))
                if len(asked) > hands:
                    part, done = asked.popleft()
                    yield from zip(part, map(read, done.result()))
            for part, done in asked:
                yield from zip(part, map(read, done.result()))

    def stride(self, turn: int) -> Optional[int]:
        """The stride of twins whose first turn is this one."""
        return stride_before(turn, self.lines[0])

    @contextmanager
    def ended(self) -> Iterator[None]:
        """A part at whose end all twins end, with what they do."""
        try:
            yield
        finally:
            for twin in self.twins:
                twin.close()

    def part(self, twin: Engine, turns: Sequence[int]) -> list[list[str]]:
        """The replies with the event at each of these turns, after which the twin has its past
        back."""
        twin.seconds = self.engine.seconds
        edits = [self.edits(it) for it in turns]
        parts = [[*it, *self.lines, *[UNDO] * len(it)] for it in edits]
        replies = iter(replies_to(twin, [line for part in parts for line in part]))
        found = [[next(replies) for _ in part] for part in parts]
        return [it[len(of) : len(of) + len(self.lines)] for it, of in zip(found, edits)]

    def edits(self, turn: int) -> list[str]:
        """The edit that puts the event at this turn. It stays where it is in its own: moved there,
        it would be the last of its events."""
        if self.moved is None:
            return [f"at {turn} {self.event}"]
        is_there = turn == self.moved.turn
        return [] if is_there else [f"alter {self.moved.number} {turn} {self.event}"]


@dataclass
class Reduction:
    """Leaves events out on a twin of a machine, and asks there. `kept` is the fewest by now with
    which the replies to the lines are wanted: at first all that may be left out. An event that is
    left out stands at the end of the run: no question is about what comes after that. Its turn is
    before the end."""

    twin: Engine
    lines: Sequence[str]
    is_wanted: Callable[[Replies], bool]
    kept: list[Event]
    tried: int = 0
    is_least: bool = False  # none of those that are kept can be left out
    in_vain: set[frozenset[Event]] = field(default_factory=set)

    def steps(self) -> Iterator[tuple[int, int]]:
        """Tries to leave out all events, halves of them, and so on down to one by one, until no
        single one can be. After each try: how many of how many such parts were tried."""
        size = len(self.kept)
        while not self.is_least:
            before = len(self.kept)
            yield from self.parts(size)
            self.is_least = size <= 1 and len(self.kept) == before
            size = max(1, min(size, len(self.kept)) // 2)

    def parts(self, size: int) -> Iterator[tuple[int, int]]:
        """Tries to leave out parts of this size, the last ones first: turns before them stay."""
        starts = range(0, len(self.kept), max(1, size))
        for done, at in enumerate(reversed(starts), 1):
            fewer = [*self.kept[:at], *self.kept[at + size :]]
            if self.gives(fewer):
                self.kept = fewer
            yield done, len(starts)

    def gives(self, kept: Sequence[Event]) -> bool:
        """Whether the replies are wanted with these of the events that are kept, and with those
        that stay anyway; if not, the others are there again. Few events that were tried in vain
        aren't tried again."""
        wanted = frozenset(kept)
        if wanted in self.in_vain:
            return False
        self.tried += 1
        edits = [away(it) for it in self.kept if it not in wanted]
        replies = replies_to(self.twin, [*edits, *self.lines])
        found = self.is_wanted(replies[len(edits) :])
        if not found:
            replies_to(self.twin, [UNDO] * len(edits))
            if len(wanted) <= MOST_REMEMBERED:
                self.in_vain.add(wanted)
        return found


def away(event: Event) -> str:
    return f"alter {event.number} {LAST_TURN} {event.text}"
