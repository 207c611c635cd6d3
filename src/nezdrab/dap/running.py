"""Going on and back: each of these is done part by part, so that a request between two parts is
heard. A stop is before a turn, as all that is shown."""
from typing import Callable, Generator, Optional

from ..analysis.breakpoints import Breakpoint, Breakpoints, reached_line
from ..analysis.calls import doubt_lines, ended_levels
from ..analysis.explorer import Explorer
from ..analysis.finder import growing_parts
from ..analysis.levels import Call, Return, Stacks, call_in
from ..core.engine import LAST_TURN
from ..core.errors import ExploreError
from ..core.expressions import Before
from ..core.values import dataclass, field, replace
from .frames import Frame

# The first of some turns at which something is reached, such as the end of a routine.
Goal = Callable[[range], Optional[int]]
# Has an editor show a line.
Say = Callable[[str], None]
AT_POWER_UP = "turn 0 is power-up: no turn comes before it"


@dataclass(frozen=True)
class Stop:
    """Where it stops and why: a reason of the protocol, or that of the breakpoints that hold."""

    turn: int
    reason: str = ""
    points: list[Breakpoint] = field(default_factory=list)
    text: str = ""


# What goes on part by part, and returns where it stops. One that can't begin stops where it is, and
# says why: its request isn't refused, since dap-mode and others hold from then on that it runs.
Run = Generator[None, None, Stop]


def at_once(stop: Stop) -> Run:
    """A run without parts."""
    return stop
    yield  # a generator has one


def at_points(explorer: Explorer, turn: int, points: list[Breakpoint], is_behind: bool) -> Stop:
    """The stop at breakpoints that hold in this turn; behind it, or before it."""
    text = ", ".join(reached_line(explorer, it, turn) for it in points)
    return Stop(turn + is_behind, "", points, text)


def joined(one: Stop, other: Stop) -> Stop:
    """Two stops before the same turn."""
    return Stop(one.turn, "", one.points + other.points, f"{one.text}, {other.text}")


def split(points: list[Breakpoint]) -> tuple[Breakpoints, Breakpoints]:
    """Those that hold before a turn, and those of writes and reads, which hold after it."""
    before = [it for it in points if it.address is None]
    return Breakpoints(before), Breakpoints([it for it in points if it.address is not None])


def first_stop(explorer: Explorer, part: range, begin: int, goal: Optional[Goal]) -> Optional[Stop]:
    """The first stop in these turns, behind the turn `begin`. A write or a read is found in its
    turn, and stops before the next one."""
    machine = explorer.machine
    before, accesses = split(explorer.breakpoints.points)
    turns = range(max(part.start, begin + 1), part.stop)
    end = goal(turns) if goal else None
    looked = turns if end is None else range(turns.start, end + 1)
    reached = before.reached(machine, looked) if before.points else None
    stop = None if end is None else Stop(end, "step")
    if reached is not None:
        stop = at_points(explorer, reached.turn, reached.points, False)
    looked = range(part.start, part.stop if stop is None else stop.turn)
    accessed = accesses.reached(machine, looked) if accesses.points else None
    if accessed is None:
        return stop
    behind = at_points(explorer, accessed.turn, accessed.points, True)
    one = range(behind.turn, min(behind.turn + 1, LAST_TURN))
    also = before.reached(machine, one) if before.points else None
    return joined(behind, at_points(explorer, also.turn, also.points, False)) if also else behind


def first_unlogged(
    explorer: Explorer, part: range, begin: int, goal: Optional[Goal]
) -> Generator[None, None, tuple[Optional[Stop], int]]:
    """The first stop that isn't one of messages alone, each of which is said on the way, and the
    turn up to which all are said."""
    stop = first_stop(explorer, part, begin, goal)
    while stop is not None and any(it.message for it in stop.points):
        say_messages(explorer, stop)
        is_goal = goal is not None and goal(range(stop.turn, stop.turn + 1)) is not None
        stopping = [it for it in stop.points if not it.message]
        if stopping or is_goal:
            return replace(stop, points=stopping, reason="" if stopping else "step"), begin
        begin = explorer.turn = stop.turn
        yield
        stop = first_stop(explorer, range(begin, part.stop), begin, goal)
    return stop, begin


def say_messages(explorer: Explorer, stop: Stop) -> None:
    before = Before(explorer.machine, explorer.symbols, stop.turn)
    for it in stop.points:
        if it.message:
            explorer.breakpoints.say(before.filled(it.message))


def ahead(explorer: Explorer, end: int, goal: Optional[Goal] = None) -> Run:
    """On to the first breakpoint or to the goal. Between the parts the current turn is the last one
    that was looked at."""
    begin = explorer.turn
    largest = explorer.breakpoints.largest_part
    for part in growing_parts(range(begin, max(begin, end)), largest=largest):
        yield
        stop, begin = yield from first_unlogged(explorer, part, begin, goal)
        if stop is not None:
            return stop
        if not explorer.breakpoints.points and goal is None:
            explorer.machine.read(f"regs {part.stop}")
        explorer.turn = part.stop - 1
    return Stop(max(begin, end), "pause", text=f"turn {max(begin, end)} is the end")


def back(explorer: Explorer, bottom: int = 0, reason: str = "entry") -> Run:
    """Back to the last breakpoint, or to the turn `bottom`. The last write is asked at once: it is
    found without a search."""
    if explorer.turn == 0:
        raise ExploreError(AT_POWER_UP)
    machine, turns = explorer.machine, range(bottom, explorer.turn)
    points = [it for it in explorer.breakpoints.points if not it.message]
    quick = [it for it in points if not it.is_read and not it.is_of_register]
    writes = [it for it in quick if it.address is not None]
    sought = Breakpoints([it for it in points if it not in writes])
    yield
    lasts = [(it.last(machine, turns), it) for it in writes]
    low = max((turn for turn, _ in lasts if turn is not None), default=bottom)
    written = [it for turn, it in lasts if turn == low]
    looked = range(low, turns.stop if sought.points else low)
    for part in growing_parts(looked, True, explorer.breakpoints.largest_part):
        yield
        reached = sought.reached(machine, part, is_backwards=True)
        if reached is not None:
            also = written if reached.turn == low else []
            return at_points(explorer, reached.turn, [*reached.points, *also], False)
        explorer.turn = part.start
    if written:
        return at_points(explorer, low, written, False)
    return Stop(low, reason, text="" if low else "turn 0 is power-up")


def to_return(explorer: Explorer, end: int, call: Call) -> Run:
    """On to where the routine of a call has returned."""
    return ahead(explorer, end, Return(explorer.machine, call).first)


def step_in(explorer: Explorer, end: int) -> Run:
    if explorer.turn >= end:
        raise ExploreError(f"turn {end} is the end")
    return (yield from at_once(Stop(explorer.turn + 1, "step")))


def step_over(explorer: Explorer, end: int) -> Run:
    """As explore's `over`, up to a breakpoint."""
    call = call_in(explorer.machine, explorer.turn) if explorer.turn < end else None
    run = step_in(explorer, end) if call is None else to_return(explorer, end, call)
    return (yield from run)


def step_out(explorer: Explorer, end: int, say: Say) -> Run:
    """As explore's `finish`, up to a breakpoint."""
    level = next(Stacks(explorer.machine).levels(explorer.turn), None)
    if level is None:
        raise ExploreError(f"no call is found that turn {explorer.turn} stands in")
    for line in doubt_lines(level):
        say(line)
    return (yield from to_return(explorer, end, level.call))


def step_back(explorer: Explorer, is_instruction: bool, say: Say) -> Run:
    """One turn back; or as explore's `reverse-over`, down to a breakpoint."""
    turn = explorer.turn
    if turn == 0:
        raise ExploreError(AT_POWER_UP)
    levels = [] if is_instruction else list(ended_levels(explorer.machine, turn))
    if not levels:
        return (yield from at_once(Stop(turn - 1, "step")))
    for line in (line for level in levels for line in doubt_lines(level)):
        say(line)
    return (yield from back(explorer, levels[-1].call.turn, "step"))


def restart(frame: Frame) -> Run:
    """To the first turn of the routine of a frame."""
    if frame.entered is None:
        raise ExploreError("no call is found that entered this routine")
    return (yield from at_once(Stop(frame.entered.call.turn + 1, "restart")))
