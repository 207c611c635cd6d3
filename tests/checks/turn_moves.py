"""What turns of a stored system made of what, computed for lines.py: acts by explore's own rules of
data, as wide_flows.py has them, beginnings by the script, the tape and the registers of devices
before each turn."""
import functools
from contextlib import closing
from itertools import groupby
from pathlib import Path
from typing import Iterator

from nezdrab.core.engine import Machine, Start
from nezdrab.core.moves_of_turns import NOTHING
from tests.checks.disk_transfers import NO_INCREMENT, REFUSING, Disk
from tests.checks.stored_systems import System
from tests.checks.turn_accesses import MOST_TURNS
from tests.checks.wide_flows import Made, made_by, wide_flows

MOVING = ("read", "write")
READER_BUSY = 0o4000
BEGINNINGS = ("TKB of event", "switches of event", "PRB of tape")


def act_lines(made: Made) -> list[str]:
    """The lines of an act, in the order of their letters."""
    return sorted(
        f"{cell} of {source}" for cell, sources in made.items() for source in sources or [NOTHING]
    )


@functools.lru_cache(maxsize=1)
def acts_of(system: System) -> dict[int, list[str]]:
    """By the turn, the lines of its act: of the turns that explore's rules follow."""
    start = Start(system.program, list(system.session.args), Path(system.session.folder))
    with closing(Machine(start)) as machine:
        machine.edit_all(system.own)
        flows = wide_flows(machine, range(system.turns[0], system.turns[-1]))
        return {it.turn: act_lines(made_by(it)) for it in flows}


class Reader:
    """The bytes of the tape that turns take, by the turn: the number of each on the tape."""

    def __init__(self, system: System) -> None:
        events = {it.turn for it in system.followed.events if it.what == "reader"}
        delay, taken, idle = system.followed.delays["reader"], 0, -1
        self.found: dict[int, str] = {}
        for turn in system.turns[:-1]:
            words = system.reply(f"devices {turn}").split()
            is_busy = bool(int(words[words.index("PRS") + 1], 8) & READER_BUSY)
            if is_busy and (turn in events or delay and turn == idle + delay):
                at_end = taken >= system.followed.tape
                self.found[turn] = f"PRB of tape {taken}{' PRB' * at_end}"
                taken += not at_end
            if not is_busy or turn in self.found:
                idle = turn


def beginning(system: System, disk: Disk, reader: Reader, turn: int) -> Iterator[str]:
    """The lines of a turn before those of its act."""
    yield f"turn {turn}"
    events = [it.what for it in system.followed.in_order() if it.turn == turn]
    for kind, name in (("key", "TKB"), ("switches", "switches")):
        numbers = [number for number, it in enumerate(events) if it.startswith(kind)]
        yield from [f"{name} of event {it}" for it in numbers[-1:]]
    if turn in reader.found:
        yield reader.found[turn]
    if turn in disk.found:
        now, done = disk.found[turn]
        if now.function in MOVING and not done.errors & REFUSING:
            place = f"{now.drive} {now.first_word:07o} {now.address & ~1:06o} {done.words}"
            yield f"disk {now.function} {place}{' in place' * bool(now.control & NO_INCREMENT)}"


def moves(system: System, words: list[str]) -> str:
    """The reply as `in_order` has it."""
    turn, count = map(int, words)
    if not 1 <= count <= min(turn, MOST_TURNS):
        return "refused 8 CountOutOfRange"
    disk, reader, acts = Disk(system), Reader(system), acts_of(system)
    found: list[str] = []
    for it in range(turn - count, turn):
        found += [*beginning(system, disk, reader, it), *acts[it]]
    return "\n".join([f"moves {len(found)}", *found])


def in_order(reply: str) -> str:
    """A reply with the lines of each act in the order of their letters."""
    parts = groupby(reply.split("\n"), key=is_of_an_act)
    return "\n".join(line for is_of, part in parts for line in (sorted(part) if is_of else part))


def is_of_an_act(line: str) -> bool:
    return " of " in line and not line.startswith(BEGINNINGS)
