"""Events and the past, `events`, `save`, `type`; what is to be printed next, `expect`."""
import re
from bisect import bisect_left
from itertools import islice
from pathlib import Path
from typing import Iterator, Sequence

from ..core.engine import LAST_TURN, Machine, in_parts, is_refused
from ..core.errors import ExploreError
from ..core.hardware import DELAYS
from ..core.in_words import counted, some_are, span
from ..core.options import option_lines, options_of_words
from ..core.past import MOST_EVENTS, Event
from ..core.replies import Devices
from ..core.sessions import words_of
from ..core.visible import visible_bytes
from ..core.written_files import write_whole
from .command import END_OF_RUN, Arguments, command, turns_between
from .explorer import Explorer

EVENTS_AT_ONCE = 1000
FIRST_STEPS, LOOKS = 64, 16
ESCAPES = {"r": 0o15, "n": 0o12, "t": 0o11, "e": 0o33, "\\": 0o134, '"': 0o42}
WAITED_TURNS = 10_000_000


@command("events", "", "all events, with their numbers")
def events(explorer: Explorer, arguments: Arguments) -> Iterator[str]:
    """Lists the events in the order in which they happen, each with its number, its turn, and for
    a key its character."""
    script = explorer.machine.script
    yield counted(len(script), "event")
    yield from map("\n".join, in_parts(list(map(event_line, script)), EVENTS_AT_ONCE))


def event_line(event: Event) -> str:
    return f"event {event.number:>5}  at {event.turn:>10}  {event.explained()}"


def past_lines(machine: Machine) -> Iterator[str]:
    """Lines that give the same past. Events are numbered anew, in their order."""
    setup = machine.setup
    if setup.version != 1:
        yield f"version {setup.version}"
    # of a tape `setup` tells how long it is, and only the edit has its bytes
    tapes = (words_of(it) for it in reversed(machine.journal))
    yield from islice((" ".join(it) for it in tapes if it[0] == "tape"), 1)
    for device, turns in setup.delays.items():
        if turns != DELAYS[device]:
            yield f"delay {device} {turns}"
    yield from machine.patches()
    yield from (it.line() for it in machine.script)


def session_lines(machine: Machine) -> list[str]:
    """A session that gives the same machine, with its options."""
    options = options_of_words(machine.start.options, "explore", machine.start.folder)
    return [*option_lines(options), *past_lines(machine)]


@command("save FILE", "<file:file>", "the past, as a session that gives the same machine")
def save(explorer: Explorer, arguments: Arguments) -> Iterator[str]:
    """Writes version, tape, delays, patches and events as lines of a session. Events are numbered
    anew, in the order in which they happen. The options, such as `--disk`, are in its first line,
    a comment `#! OPTIONS`, which explore reads and pdp11 passes over. A file that was there before
    is overwritten by save! FILE alone."""
    path = Path(arguments.text("file"))
    lines = session_lines(explorer.machine)
    write_whole(path, "".join(f"{it}\n" for it in lines))
    if path.is_file():
        explorer.saved = list(explorer.machine.journal)
    yield f"{counted(len(lines), 'line')} in {path}"


def bytes_of(text: str) -> bytes:
    """A character up to 377 is a byte, and so is a byte that is no text."""
    try:
        return b"".join(
            bytes([ord(it) - 0xDC00]) if 0xDC80 <= ord(it) <= 0xDCFF else it.encode("latin-1")
            for it in text
        )
    except UnicodeEncodeError as error:
        said = f"'{error.object[error.start]}' is no byte; a key is \\000 to \\377"
        raise ExploreError(said) from None


def typed_bytes(text: str) -> list[int]:
    """The bytes of a TEXT: `\\r`, `\\n`, `\\t`, `\\e`, and three octal digits, as in replies."""
    found: list[int] = []
    for octal, escape, plain in re.findall(r"\\([0-3][0-7]{2})|\\(.?)|([^\\]+)", text):
        if octal:
            found.append(int(octal, 8))
        elif plain:
            found += bytes_of(plain)
        elif escape in ESCAPES:
            found.append(ESCAPES[escape])
        else:
            raise ExploreError(
                f"'\\{escape}' is none of \\r \\n \\t \\e \\\\ \\\" and \\ with three octal digits"
            )
    return found


class Keyboard:
    """Finds turns in which the keyboard takes a key. Between two keys it goes once at most from
    waiting to free, so looks that lie ever closer together find the turn."""

    def __init__(self, machine: Machine):
        self.machine = machine
        self.turns_of_keys = sorted(set(machine.turns_of("key")))
        self.usual = 1  # how many turns the last key waited
        self.waits: dict[int, bool] = {}  # whether a key waits before a turn, since the last key

    def strike(self, turn: int, byte: int, then: int) -> str:
        """Makes an event of a key, and looks at once where one from turn `then` on may go."""
        looks = self.first_looks(then, self.bound(then))
        lines = [f"at {turn} key {byte:o}", *map("devices {}".format, looks)]
        reply, *found = self.machine.edit_all(lines)
        if is_refused(reply):
            raise ExploreError(reply)
        self.waits = dict(zip(looks, map(key_waits, found)))
        return reply

    def bound(self, first: int) -> int:
        """The next turn from `first` on that has a key, no further than it is looked for."""
        at = bisect_left(self.turns_of_keys, first)
        keys = self.turns_of_keys[at : at + 1]
        return min([*keys, first + WAITED_TURNS, LAST_TURN])

    def first_free(self, first: int) -> int:
        """The first turn from `first` on before which no key waits and which has no key yet."""
        begin, limit = first, min(first + WAITED_TURNS, LAST_TURN)
        while begin < limit:
            bound = min(self.bound(begin), limit)
            free = self.first_free_between(begin, bound)
            if free < bound:
                self.usual = free - first + 1
                return free
            begin = bound + 1
        within = f"within {WAITED_TURNS} turns" if limit < LAST_TURN else "before the run ends"
        raise ExploreError(f"the key before turn {first} isn't taken {within}")

    def first_free_between(self, first: int, bound: int) -> int:
        """The same, of turns that have no key, or `bound`."""
        waiting, free = self.looked_at(first - 1, bound, self.first_looks(first, bound))
        step = FIRST_STEPS
        while free == bound and waiting + 1 < bound:
            waiting, free = self.looked_at(waiting, bound, [min(waiting + step, bound - 1)])
            step *= 2
        while free - waiting > 1:
            step = -(-(free - waiting) // LOOKS)
            waiting, free = self.looked_at(waiting, free, range(waiting + step, free, step))
        return free

    def first_looks(self, first: int, bound: int) -> list[int]:
        """The turns to look at first: where the last key was taken, and in steps that double."""
        usual = first - 1 + self.usual
        looks = {usual - 1, usual, *(first - 1 + 2**it for it in range(FIRST_STEPS.bit_length()))}
        return sorted(it for it in looks if first <= it < bound)

    def looked_at(self, waiting: int, free: int, looks: Sequence[int]) -> tuple[int, int]:
        """Narrows the turns between the last one that waits and the first that is free."""
        unknown = [it for it in looks if it not in self.waits]
        replies = self.machine.read_all([f"devices {it}" for it in unknown])
        self.waits.update(zip(unknown, map(key_waits, replies)))
        for look in looks:
            if not self.waits[look]:
                return waiting, look
            waiting = look
        return waiting, free


def key_waits(devices: str) -> bool:
    return Devices.of(devices).key_waits


def check_room(machine: Machine, keys: Sequence[int]) -> None:
    room = MOST_EVENTS - len(machine.script)
    if len(keys) > room:
        raise ExploreError(
            f"the script holds {MOST_EVENTS} events, and has room for {room} more; keys to type:"
            f" {len(keys)}"
        )


@command(
    "type TEXT [from TURN] [every N]",
    r"<text:text>( from (?P<first>[0-9]{1,10}))?( every (?P<every>[0-9]{1,10}))?",
    "an event for each key of TEXT",
)
def type_text(explorer: Explorer, arguments: Arguments) -> Iterator[str]:
    r"""Adds a key for each byte of TEXT, each at the first turn at which no earlier key waits (bit
    7 of TKS is clear), and at least N turns after the one before. Without `from` it begins after
    the last event of the script, or at the current turn, if that is later. Enter is \r; there are
    \n \t \e \\ \" too, and \015 for a byte in octal. If the script hasn't room for all of them,
    none is typed."""
    machine = explorer.machine
    every, keys = arguments.decimal("every", 1), typed_bytes(arguments.text("text"))
    check_room(machine, keys)
    after_events = max((it.turn + 1 for it in machine.script), default=0)
    turn = arguments.decimal("first", max(after_events, explorer.turn))
    keyboard, typed = Keyboard(machine), 0
    try:
        with machine.edits_together():
            for byte in keys:
                turns_between(turn, turn)
                turn = keyboard.first_free(turn)
                then = turn + max(1, every)
                reply = keyboard.strike(turn, byte, then)
                yield f"{reply} at {turn} key {byte:o}"
                typed, turn = typed + 1, then
    except ExploreError as error:
        keys_are = some_are(typed, len(keys), "key")
        raise ExploreError(f"{error}; {keys_are} typed") from error


EXPECTED_TURNS = 100_000_000
LAST_SHOWN = 40  # bytes


def instead(explorer: Explorer, turns: range, string: bytes) -> str:
    """What the machine did in these turns: the end of what it printed, whether it halted, and
    whether it had printed the string before."""
    before = explorer.machine.text(turns.start)
    printed = explorer.machine.text_from(turns.stop, len(before))
    end = visible_bytes(printed[-LAST_SHOWN:]).decode().replace("\r", "\\r").replace("\n", "\\n")
    said = f"what is printed there ends with '{end}'" if printed else "nothing is printed there"
    if explorer.machine.registers(turns.stop).state == "halted":
        said += ", and the processor is halted"
    return f"{said}; it was printed before turn {turns.start}" if string in before else said


@command(
    "expect TEXT [within N]",
    r"<text:text>( within <count:decimal>)?",
    "goes on to where TEXT has been printed",
)
def expect(explorer: Explorer, arguments: Arguments) -> Iterator[str]:
    """Goes on from the current turn to the first turn before which TEXT has been printed, all of
    it since the current turn. That turn is then the current one: `type` without `from` types
    there, and the next `expect` looks behind this TEXT, which is written as in `type`. At most N
    turns are run, without `within` 100000000, which may take a second or more. If TEXT doesn't come
    the line can't be done, and the current turn stays. It is exact."""
    string = bytes(typed_bytes(arguments.text("text")))
    count = arguments.decimal("count", EXPECTED_TURNS)
    if not string or not count:
        raise ExploreError("N of within is 1 or more" if string else "TEXT has no byte")
    turns = range(explorer.turn, min(explorer.turn + count, LAST_TURN))
    if not turns:
        raise ExploreError(END_OF_RUN)
    text = arguments.text("text")
    found = explorer.finder.printed_in(turns, string)
    if found is None:
        more = instead(explorer, turns, string)
        raise ExploreError(f"'{text}' isn't printed in {span(turns)}; {more}")
    turn, length = found
    explorer.turn = turn + 1
    yield f"turn {turn}: byte {length} of the text is printed, the last of '{text}'"
