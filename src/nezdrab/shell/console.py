"""The machine's console at the terminal, `console`, and how many turns go by in a time there."""
import math
import time
from collections import deque
from typing import Iterator, Optional

from ..analysis.crew import AtWork
from ..analysis.command import END_OF_RUN, Arguments, command
from ..analysis.explorer import Explorer, Sitting
from ..core.engine import LAST_TURN, Machine, is_refused
from ..core.errors import ExploreError
from ..core.in_words import counted
from ..core.language import MEANINGS
from ..core.replies import text_of
from ..core.values import dataclass
from ..core.visible import visible_bytes
from .output import LINES
from .raw_terminal import RawTerminal

LEAVE = 0o5  # Ctrl-E
TICKS = 60  # of the clock in a second
FRAME, SHORT_FRAME, SHORT_SECONDS = 1 / 60, 1 / 500, 0.1
SLICE_SECONDS = 0.008
LEAVE_SECONDS = 1.0
HALTED_RATE = 250_000
WARNED_TURN = LAST_TURN // 10 * 9
LONGEST_LINE = 200
SEVEN_BITS = bytes(it & 0o177 for it in range(0o400))


class Console:
    """Somebody sits at the machine. It runs at a rate, what it prints is shown, and each key is an
    event in the turn in which it is struck, or in a later one in which the keyboard can take it."""

    def __init__(self, machine: Machine, turn: int, sitting: Sitting):
        self.machine, self.turn, self.rate, self.sitting = machine, turn, sitting.rate, sitting
        text = machine.text(turn)
        self.printed, self.line = len(text), text[text.rfind(b"\n") + 1 :][-LONGEST_LINE:]
        self.last_bytes = b"\r\n"
        self.turns_of_keys = {it for it in machine.turns_of("key") if it >= turn}
        self.first_turn, self.begun, self.seconds = turn, 0.0, 0.0
        self.pace, self.slice = Pace(self.rate, turn, 0.0), Slice(SLICE_SECONDS)
        self.waiting: deque[int] = deque()
        self.events: list[int] = []
        self.struck_at, self.leave_at = -math.inf, math.inf
        self.is_halted, self.withheld = False, 0

    def sit(self, terminal: RawTerminal) -> None:
        """Runs the machine until somebody leaves, or up to its last turn. Keys that wait when
        somebody leaves have a second in which the keyboard may take them."""
        self.begun = self.pace.since = time.monotonic()
        wait = 0.0
        terminal.write(b"Ctrl-E leaves\r\n")
        self.show(terminal, self.line)
        try:
            while self.goes_on() and not terminal.is_interrupted:
                if self.leave_at < math.inf:
                    time.sleep(wait)
                elif keys := terminal.keys(wait, LEAVE):
                    self.strike(terminal, keys)
                wait = self.run_slice(terminal)
        finally:
            self.seconds = time.monotonic() - self.begun
            self.withheld = terminal.sequences.withheld

    def goes_on(self) -> bool:
        if self.leave_at < math.inf and not self.waiting:
            return False
        return self.turn < LAST_TURN and time.monotonic() < self.leave_at

    def strike(self, terminal: RawTerminal, keys: bytes) -> None:
        """Keys that are struck now: the machine first runs up to the turn that is due. Ctrl-E is
        the last of them."""
        if self.pace.rate:
            self.run_slice(terminal)
        self.struck_at = time.monotonic()
        if keys[-1] == LEAVE:
            self.leave_at = self.struck_at + LEAVE_SECONDS
            keys = keys[:-1]
        self.waiting.extend(keys)

    # Turns

    def run_slice(self, terminal: RawTerminal) -> float:
        """Runs what is due now, and returns for how many seconds there is nothing to do."""
        now = time.monotonic()
        is_short = now - self.struck_at < SHORT_SECONDS
        due = self.pace.due(now, self.turn)
        end = min(due, self.turn + self.slice.turns // (2 if is_short else 1))
        if end > self.turn:
            self.place_keys(terminal, end)
            self.run_to(terminal, end)
            self.slice.note(end - self.turn, time.monotonic() - now)
            if self.turn < WARNED_TURN <= end:
                self.tell(terminal, f"turn {WARNED_TURN}; the run ends at turn {LAST_TURN}")
            self.turn = end
        if end < due:
            return 0.0
        return max(0.0, now + (SHORT_FRAME if is_short else FRAME) - time.monotonic())

    def run_to(self, terminal: RawTerminal, turn: int) -> None:
        """Runs up to a turn, and shows what is printed before it."""
        printed = text_of(self.machine.read(f"text {turn} from {self.printed}"))
        self.printed += len(printed)
        self.show(terminal, printed)
        was_halted = self.is_halted
        self.is_halted = not printed and self.machine.registers(turn).state == "halted"
        if self.is_halted and not was_halted:
            self.tell(terminal, "the processor is halted; Ctrl-E leaves")
        if self.is_halted != was_halted:
            rate = self.rate or HALTED_RATE if self.is_halted else self.rate
            self.pace = Pace(rate, turn, time.monotonic())

    def show(self, terminal: RawTerminal, printed: bytes) -> None:
        if printed:
            self.last_bytes = (self.last_bytes + printed[-2:])[-2:]
            shown = printed.translate(SEVEN_BITS) if self.sitting.is_7bit else printed
            LINES.note_printed(shown)
            terminal.show(visible_bytes(shown) if self.sitting.is_escaped else shown)

    def tell(self, terminal: RawTerminal, words: str) -> None:
        """Something that the machine didn't print, in a line of its own."""
        before = b"" if self.is_at_begin_of_line() else b"\r\n"
        terminal.write(before + f"[{words}]\r\n".encode())
        self.last_bytes = b"\r\n"

    def is_at_begin_of_line(self) -> bool:
        return self.last_bytes in (b"\r\n", b"\n\r")

    # Keys

    def place_keys(self, terminal: RawTerminal, end: int) -> None:
        """Makes events of the keys that wait, at turns before the end, as far as the keyboard takes
        them."""
        turn: Optional[int] = self.turn
        while self.waiting and turn is not None:
            turn = self.free_turn(turn, end)
            if turn is not None:
                with terminal.held():
                    self.make_event(turn, self.waiting[0])
                    self.waiting.popleft()
                turn += 1

    def free_turn(self, first: int, end: int) -> Optional[int]:
        """A turn of these before which no key waits and which has no key yet. It is looked for
        forwards alone, in steps that double: a question about an earlier turn would replay."""
        turn, step = first, 1
        while turn < end:
            if turn not in self.turns_of_keys and not self.machine.devices(turn).key_waits:
                return turn
            turn, step = turn + step, 2 * step
        return None

    def make_event(self, turn: int, byte: int) -> None:
        reply = self.machine.ask(f"at {turn} key {byte:o}")
        if is_refused(reply):
            raise ExploreError(f"{reply}: {MEANINGS[reply.split()[1]]}")
        self.events.append(int(reply.split()[1]))

    # What is said of it

    def heading(self) -> Iterator[str]:
        """How the machine runs, and what lies ahead."""
        if self.rate:
            ticks = max(1, round(self.rate / TICKS))
            clock = f"delay clock {ticks} is {counted(round(self.rate / ticks), 'tick')} a second"
            pace = f"{counted(self.rate, 'turn')} a second; {clock}"
        else:
            pace = "as fast as this computer can"
        yield f"from turn {self.turn} on, {pace}"
        ahead = [it.turn for it in self.machine.script if it.turn >= self.turn]
        if ahead:
            events = f"{counted(len(ahead), 'event')} {'lies' if len(ahead) == 1 else 'lie'} ahead"
            happen = "it happens too" if len(ahead) == 1 else "they happen too"
            yield f"{events}, from turn {ahead[0]} on: {happen}, or drop from {self.turn} first"
        if self.turn >= WARNED_TURN:
            left = counted(LAST_TURN - self.turn, "turn")
            yield f"the run has {left} left, up to turn {LAST_TURN}"

    def ending(self) -> Iterator[str]:
        """What has happened."""
        if not self.is_at_begin_of_line():
            yield ""
        end = ", the end of the run" if self.turn == LAST_TURN else ""
        turns = f"{counted(self.turn - self.first_turn, 'turn')} in {self.seconds:.1f} s"
        yield f"turn {self.turn}{end}: {turns}; {self.events_in_words()}"
        if self.withheld:
            queries = f"{self.withheld} quer{'y' if self.withheld == 1 else 'ies'}"
            yield f"{queries} of the program didn't reach the terminal: see help console"

    def events_in_words(self) -> str:
        made = self.events
        words = "no event was made"
        if len(made) == 1:
            words = f"event {made[0]} was made"
        elif made:
            words = f"events {made[0]} to {made[-1]} were made"
        if self.waiting:
            words += f"; the keyboard didn't take {len(self.waiting)} of the keys"
        return words


def beginning_turn(explorer: Explorer, arguments: Arguments) -> int:
    """The turn that is asked for, or that where the last console was left, or the one after the
    last event."""
    after_events = max((it.turn + 1 for it in explorer.machine.script), default=0)
    left = explorer.sitting.turn
    turn = arguments.decimal("first", after_events if left is None else left)
    if turn >= LAST_TURN:
        raise ExploreError(END_OF_RUN)
    return turn


# How the console shows what is printed: the words for it, and what is said of each.
HOW = {
    "7bit": ("is_7bit", True, "bit 7 of what is printed is cleared"),
    "8bit": ("is_7bit", False, "all bits are shown"),
    "escaped": ("is_escaped", True, "control bytes are shown as in text, ESC as \\033"),
    "raw": ("is_escaped", False, "control bytes go to the terminal"),
    "answers": ("has_answers", True, "queries reach the terminal, and its answers are keys"),
    "silent": ("has_answers", False, "queries don't reach the terminal, which answers nothing"),
}


@command(
    "console [from N] [rate R]  or  console 7bit|8bit|escaped|raw|answers|silent",
    rf"(?P<how>{'|'.join(HOW)})|{{from}}((^| )rate <rate:decimal>)?",
    "the machine's console: each key is an event; Ctrl-E leaves",
)
def console(explorer: Explorer, arguments: Arguments) -> Iterator[str]:
    """Runs the machine at this terminal: what it prints is shown as it comes, and each key is an
    event in the turn in which it is struck, or in the first ones after it in which the keyboard can
    take it. Ctrl-E leaves; Ctrl-C goes to the machine. `undo` takes all these keys back. It begins
    at turn N; without `from` where the last console was left, or after the last event. It runs R
    turns a second, with 0 as fast as it can; without `rate` as the console before, at first 250000,
    about as many as the real processor. What the program has set at the terminal, such as colours,
    another screen or a hidden cursor, is set back when the console is left.
    After `console 7bit` bit 7 of what is printed is cleared, as of parity; 8bit ends that.
    After `console escaped` control bytes are shown as in `text`, ESC as \\033, except BS, TAB, LF
    and CR; raw ends that.
    A query, such as ESC [6n, would have the terminal answer as if keys were struck. Queries that
    explore knows don't reach it. After `console answers` they do, and each byte of an answer is a
    key; silent ends that.
    Only the terminal has all this: text N shows each byte."""
    sitting = explorer.sitting
    if arguments.optional("how"):
        name, value, said = HOW[arguments.text("how")]
        setattr(sitting, name, value)
        yield said
        return
    if not explorer.is_terminal:
        raise ExploreError("lines don't come from a terminal here")
    sitting.rate = arguments.decimal("rate", sitting.rate)
    turn = beginning_turn(explorer, arguments)
    seat = Console(explorer.machine, turn, sitting)
    yield from seat.heading()
    with AtWork.hidden():
        try:
            with seat.machine.edits_together(), RawTerminal(sitting.has_answers) as terminal:
                seat.sit(terminal)
        except ExploreError:
            yield from seat.ending()
            raise
        finally:
            sitting.turn = explorer.turn = seat.turn
        yield from seat.ending()


LATE_SECONDS = 0.25
FIRST_TURNS, LEAST_TURNS, MOST_TURNS = 20_000, 20_000, 2_000_000


@dataclass
class Pace:
    """Turn `turn` is due at the time `since`, and after it `rate` turns a second. With rate 0 all
    are due."""

    rate: int
    turn: int
    since: float

    def due(self, now: float, reached: int) -> int:
        """The turn that is due now. A machine that has reached a turn that was due long ago doesn't
        make up for it: it was too slow, or suspended."""
        if not self.rate:
            return LAST_TURN
        due = self.turn + int((now - self.since) * self.rate)
        if due - reached > LATE_SECONDS * self.rate + 1:
            self.turn, self.since, due = reached, now, reached
        return min(due, LAST_TURN)


@dataclass
class Slice:
    """How many turns are run at once, so that it takes `seconds`. Fewer than LEAST_TURNS cost more
    to ask for than to run, so they are run only if they take LATE_SECONDS."""

    seconds: float
    turns: int = FIRST_TURNS

    def note(self, turns: int, took: float) -> None:
        """Notes how many seconds this number of turns took."""
        share = min(2.0, max(0.5, self.seconds / max(took, 1e-6)))
        if share < 1 or turns == self.turns:
            least = LEAST_TURNS if took < LATE_SECONDS else 1
            self.turns = int(min(max(self.turns * share, least), MOST_TURNS))
