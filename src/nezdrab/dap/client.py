"""An editor as it is connected: what it was told, what it may still name, and what it debugs. And
the table of requests, to which each module of requests adds its own."""
from contextlib import suppress
from typing import Any, Callable, Optional

from ..analysis.explorer import Explorer
from ..core.errors import ExploreError
from ..core.interrupts import INTERRUPTS
from ..core.values import dataclass, field
from ..shell.output import Unwritable
from .evaluate import Console
from .frames import Frame, KnownCalls, frames
from .launch import Launched, Programs
from .points import Points
from .running import Run, Stop
from .wire import Fields, Object

THREAD = 1


class Debuggee:
    """The machine that is debugged, and what belongs to its past."""

    def __init__(self, launched: Launched, say: Callable[[str], None]):
        self.explorer, self.sources, self.end = launched.explorer, launched.sources, launched.end
        self.prompt = Console(self.explorer, say)
        self.explorer.breakpoints.say = say
        self.points = Points(self.explorer, self.sources)
        self.known, self.past = KnownCalls(), self.of_past()
        self.stack: Optional[tuple[int, list[Frame], bool]] = None

    def of_past(self) -> tuple[object, list[str]]:
        """What the past is made of: options and edits."""
        return self.explorer.machine.start, list(self.explorer.machine.journal)

    def is_changed(self) -> bool:
        """Whether the past was edited since this was asked last. What was known of it goes then."""
        past = self.of_past()
        if past == self.past:
            return False
        self.known, self.past, self.stack = KnownCalls(), past, None
        return True

    def frames(self) -> tuple[list[Frame], bool]:
        """The frames before the current turn, and whether there may be more."""
        turn = self.explorer.turn
        if self.stack is None or self.stack[0] != turn:
            self.stack = turn, *frames(self.explorer, self.known)
        return self.stack[1], self.stack[2]

    def close(self, is_dropped: bool = False) -> None:
        """Edits that weren't saved stay in a journal, unless they are dropped."""
        with suppress(ConnectionError, Unwritable):
            self.prompt.end(is_dropped)
        self.explorer.machine.close()
        self.explorer.disassembler.close()


@dataclass
class Client:
    """An editor. `send` writes a message to it; `later` is done once the reply is sent."""

    send: Callable[[Object], None]
    programs: Programs
    count: int = 0
    capabilities: Object = field(default_factory=dict)
    is_initialized: bool = False
    is_configured: bool = False
    is_over: bool = False  # after `disconnect`
    first_line: int = 1
    first_column: int = 1
    debuggee: Optional[Debuggee] = None
    stops_on_entry: bool = True
    is_terminated: bool = False
    run: Optional[Run] = None
    stop: Stop = Stop(0)
    later: list[Callable[[], None]] = field(default_factory=list)
    named: dict[int, Any] = field(default_factory=dict)
    last_name: int = 0

    # Messages

    def message(self, kind: str, **fields: object) -> None:
        with INTERRUPTS.held():
            self.count += 1
            self.send({"seq": self.count, "type": kind, **fields})

    def event(self, name: str, **body: object) -> None:
        self.message("event", event=name, body=body)

    def say(self, text: str, category: str = "console") -> None:
        """A line in the debug console."""
        self.event("output", category=category, output=f"{text}\n")

    # What is debugged

    @property
    def it(self) -> Debuggee:
        if self.debuggee is None:
            raise ExploreError("nothing is debugged: launch comes first")
        if self.is_terminated:
            raise ExploreError("what was debugged has ended")
        return self.debuggee

    @property
    def explorer(self) -> Explorer:
        return self.it.explorer

    def name(self, what: object) -> int:
        """A number by which the editor names a frame or a scope. Each is given once, so that one of
        an earlier stop is known as that."""
        self.last_name += 1
        self.named[self.last_name] = what
        return self.last_name

    def named_as(self, number: int, kind: type) -> Any:
        found = self.named.get(number)
        if not isinstance(found, kind):
            raise ExploreError(f"{number} is of an earlier stop, or names no {kind.__name__}")
        return found

    # Running

    def check_configured(self) -> None:
        _ = self.it  # an error if nothing is debugged
        if not self.is_configured:
            raise ExploreError("configurationDone comes first")

    def check_stopped(self) -> None:
        if self.run is not None:
            raise ExploreError("it is running; pause stops it")

    def start(self, run: Run) -> None:
        """Goes on by this run, once the reply is sent."""
        self.check_configured()
        self.later.append(lambda: setattr(self, "run", run))

    def advance(self) -> None:
        """One part of the run."""
        if self.run is None:
            return
        try:
            next(self.run)
        except StopIteration as end:
            self.run = None
            self.stopped(end.value)

    def stopped(self, stop: Stop) -> None:
        """Stops before a turn, and says why."""
        self.explorer.turn = stop.turn
        self.stop = stop
        self.named.clear()
        points = self.it.points
        reason = stop.reason or points.group(stop.points[0])
        numbers = points.editors_numbers(stop.points)
        self.event(
            "stopped",
            reason=reason,
            description=f"turn {stop.turn}",
            threadId=THREAD,
            allThreadsStopped=True,
            **({"text": stop.text} if stop.text else {}),
            **({"hitBreakpointIds": numbers} if numbers else {}),
        )

    def stale(self) -> None:
        """Tells the editor that all it shows may be another by now."""
        self.named.clear()
        if self.capabilities.get("supportsInvalidatedEvent") is True:
            self.event("invalidated", areas=["all"])
        else:
            self.stopped(Stop(self.explorer.turn, "goto", text="the past was edited"))

    def terminated(self, is_dropped: bool = False) -> None:
        """Ends what is debugged, and says so once."""
        self.run = None
        if self.debuggee is not None and not self.is_terminated:
            self.is_terminated = True
            self.debuggee.close(is_dropped)
            self.event("exited", exitCode=0)
            self.event("terminated")

    def close(self) -> None:
        if self.debuggee is not None and not self.is_terminated:
            self.debuggee.close()


# Does a request, and returns the body of the reply, if it has one.
Request = Callable[[Client, Fields], Optional[Object]]
REQUESTS: dict[str, Request] = {}


def request(name: str) -> Callable[[Request], Request]:
    """Adds the function to the table."""

    def register(function: Request) -> Request:
        REQUESTS[name] = function
        return function

    return register
