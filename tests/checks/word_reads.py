"""The reads of a word of core in some turns, by explore's rules of what a turn does: where the
cycles of each turn go, and which words the functions of the disk read."""
from contextlib import closing
from pathlib import Path
from typing import Iterator

from nezdrab.analysis.transfers import functions_done, with_stays, words_of_core
from nezdrab.core.engine import Machine, Start
from tests.checks.flows import each_flow, word_of
from tests.checks.stored_systems import System

READING = ("write", "write-check")


def reads_by_disk(machine: Machine, turns: range, address: int) -> Iterator[int]:
    """The turns in which the disk reads the word, before the act."""
    reading = [it for it in functions_done(machine, turns) if it.function in READING]
    for it, stays in with_stays(machine, reading):
        if address in words_of_core(it.address & ~1, it.count, stays):
            yield it.turn


def reads_by_processor(machine: Machine, turns: range, address: int) -> Iterator[tuple[int, int]]:
    """The turns in which the processor reads the word, with the word that it reads first."""
    for flows, flow, fault in each_flow(machine, turns):
        if fault:
            raise LookupError(fault)
        found = (number for number, it in enumerate(flow.cycles) if it.is_read_of(address))
        number = next(found, None)
        if number is not None:
            word = word_of(flows, flow, number)
            if word is None:
                raise LookupError(f"turn {flow.turn} writes the word twice")
            yield flow.turn, word


def first_reads_in(machine: Machine, turns: range, address: int) -> dict[int, str]:
    """By the turn, its first read as `reads` shows it: that of the disk comes first. A LookupError
    if what a turn reads can't be told: its code or a pointer is in a register on the bus."""
    found = {
        turn: f"{turn} cpu {word:06o}" for turn, word in reads_by_processor(machine, turns, address)
    }
    for turn in reads_by_disk(machine, turns, address):
        found[turn] = f"{turn} disk {machine.word(turn, address):06o}"
    return {turn: found[turn] for turn in sorted(found)}


def first_reads(system: System, address: int) -> dict[int, str]:
    """The same in the turns of a stored system."""
    start = Start(system.program, list(system.session.args), Path(system.session.folder))
    with closing(Machine(start)) as machine:
        machine.edit_all(system.own)
        return first_reads_in(machine, range(system.turns[0], system.turns[-1]), address)
