"""What turns of a stored system have in them, computed for lines.py: cycles by explore's own
rules, the rest from lines of the session language."""
import functools
from contextlib import closing
from pathlib import Path
from typing import Optional

from nezdrab.analysis.operands import Access, Flow
from nezdrab.analysis.turn_flow import Flows
from nezdrab.core.engine import Machine, Start
from nezdrab.core.hardware import IO_PAGE
from tests.checks.disk_transfers import Disk
from tests.checks.flows import each_flow, word_of
from tests.checks.stored_systems import System

MOST_TURNS, MOST_CYCLES = 64, 256
MODES = ("kernel", "01", "10", "user")
TIMEOUTS = (Access.READ_TIMEOUT, Access.WRITE_TIMEOUT)
READS = (Access.READ, Access.READ_TIMEOUT)


def cycle_line(flows: Flows, flow: Flow, number: int) -> Optional[str]:
    """The line of a cycle; None if the rules don't tell its value: of a register, or of a word that
    is written again in the turn."""
    access, place, is_byte = flow.cycles[number]
    if access in READS:
        kind, place, is_byte = "read", place & ~1, False
    else:
        kind = "byte" if is_byte else "write"
    if access in TIMEOUTS:
        return f"{kind} {place:06o} timeout"
    word = None if place >= IO_PAGE else word_of(flows, flow, number)
    if word is None:
        return None
    return f"{kind} core {place:06o} {word >> 8 * (place & 1) & 0o377 if is_byte else word:06o}"


def is_red(flow: Flow) -> bool:
    """Whether a turn ends with the red sequence. What the sequence before it pushed to registers
    leaves no stamp, so the rules don't tell it."""
    return [it.place for it in flow.cycles[-2:] if it.access == Access.WRITE] == [2, 0]


@functools.lru_cache(maxsize=1)
def cycles_of(system: System) -> dict[int, list[str]]:
    """By the turn, the lines of its cycles: of the turns of which all can be told."""
    start = Start(system.program, list(system.session.args), Path(system.session.folder))
    found: dict[int, list[str]] = {}
    with closing(Machine(start)) as machine:
        machine.edit_all(system.own)
        for flows, flow, fault in each_flow(machine, range(system.turns[0], system.turns[-1])):
            lines = [cycle_line(flows, flow, it) for it in range(len(flow.cycles))]
            told = [it for it in lines if it is not None]
            if not fault and len(told) == len(lines) and not is_red(flow):
                found[flow.turn] = told
    return found


def lines_of(system: System, disk: Disk, turn: int) -> list[str]:
    """The lines of a turn before those of its cycles."""
    pc, act = system.acts[turn]
    mode = MODES[system.registers(turn)["PS"] >> 14]
    lines = [f"{turn} {mode} {pc:06o} {act}"]
    lines += [f"event {it.what}" for it in system.followed.in_order() if it.turn == turn]
    for command, name in (("text", "printed"), ("punched", "punched")):
        before, after = (system.text(command, it) for it in (turn, turn + 1))
        lines += [f"{name} {it:03o}" for it in after[len(before) :]]
    if turn in disk.found:
        lines.append(f"disk {disk.line(turn, turn).split(' ', 2)[2]}")
    return lines


def accesses(system: System, words: list[str]) -> str:
    turn, count = map(int, words)
    if not 1 <= count <= min(turn, MOST_TURNS):
        return "refused 8 CountOutOfRange"
    disk, cycles = Disk(system), cycles_of(system)
    found: list[str] = []
    left, is_cut = MOST_CYCLES, False
    for it in range(turn - count, turn):
        left -= len(cycles[it])
        is_cut = left < 0
        if is_cut:
            break
        found += [*lines_of(system, disk, it), *cycles[it]]
    return "\n".join([f"accesses {len(found)}{' or more' * is_cut}", *found])
