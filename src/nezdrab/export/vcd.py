"""A range of turns as a value change dump, the file of GTKWave and other viewers of waves."""
from typing import Iterable, Iterator, Optional, Sequence

from ..analysis.explorer import Explorer
from ..analysis.finder import Finder, batches_of
from ..analysis.routines import Labels
from ..core.engine import Machine
from ..core.hardware import TRAPS
from ..core.in_words import span
from ..core.register_rows import GENERAL, KSP, PC, PLACE, PS, STATE, USP, Batch
from ..core.replies import DISK_READY, DiskFunction, Mode, Registers, Turn
from ..core.values import dataclass

# The registers that are shown, each with its part of a reply of `regs`.
REGISTERS = {"PC": PC, "PS": PS, "KSP": KSP, "USP": USP}
REGISTERS.update({f"R{number}": part for number, part in enumerate(GENERAL)})
NOTHING = "-"
TIMESCALE = "1 s"  # the only unit of a dump that viewers turn into no other one
RKCS = b"RKCS "


@dataclass(frozen=True)
class Word:
    """A word of core that is shown, and its name."""

    address: int
    name: str


@dataclass(frozen=True)
class Signal:
    """What is shown as one line of waves: a scope, a name, a kind, how many bits it has, and the
    short name that stands for it in the dump."""

    scope: str
    name: str
    kind: str
    bits: int
    short: str

    def declared(self) -> str:
        bits = f" [{self.bits - 1}:0]" if self.bits > 1 else ""
        return f"$var {self.kind} {self.bits} {self.short} {self.name}{bits} $end"

    def change(self, value: str) -> str:
        """The line of the dump for a new value. Of an event any value is one that it happens."""
        if self.kind == "string":
            return f"s{value.replace(' ', '_') or NOTHING} {self.short}"
        if self.bits == 1:
            return f"{'1' if self.kind == 'event' else value}{self.short}"
        return f"b{int(value, 8):b} {self.short}"


def signals_of(words: Sequence[Word]) -> list[Signal]:
    """What is shown. `act` and the events belong to the turn that begins at their time, all others
    are what is so before it."""
    found = [("pdp11", it, "reg", 16) for it in REGISTERS]
    found += [("pdp11", it, "string", 1) for it in ("mode", "previous_mode")]
    found += [("pdp11", "priority", "reg", 3)]
    found += [("pdp11", it, "string", 1) for it in ("function", "state")]
    found += [("pdp11", it, "event", 1) for it in ("interrupt", "trap")]
    found += [("pdp11", "vector", "string", 1)]
    found += [("rk11", "rk_busy", "wire", 1), ("rk11", "rk_function", "string", 1)]
    found += [("core", it.name, "reg", 16) for it in words]
    return [Signal(*it, chr(33 + number)) for number, it in enumerate(found)]


def trapped(machine: Machine, turns: range) -> dict[int, int]:
    """The vector of each trap of these turns."""
    finder = Finder(machine)
    return {turn: it for it in TRAPS for turn in finder.each(turns, f"trap {it:o}")}


def disk_states(machine: Machine, turns: range) -> Iterator[tuple[str, str]]:
    """Before each of the turns whether the disk is busy, and with which function."""
    known: dict[bytes, tuple[str, str]] = {}
    at = 0
    for reply in machine.of_each_turn("devices", turns):
        at = at or reply.index(RKCS) + len(RKCS)  # each register has six digits
        digits = reply[at : at + 6]
        if digits not in known:
            status = int(digits, 8)
            is_busy = not status & DISK_READY
            function = DiskFunction(status >> 1 & 7).title
            known[digits] = str(int(is_busy)), function if is_busy else NOTHING
        yield known[digits]


Changes = dict[int, list[tuple[int, int]]]


def core_changes(machine: Machine, turns: range, words: Iterable[Word]) -> Changes:
    """For each turn after one that wrote some of these words, the numbers of these, and what they
    are before it."""
    found: Changes = {}
    for number, word in enumerate(words):
        for write in Finder(machine).writes(turns, word.address):
            found.setdefault(write.turn + 1, []).append((number, write.word))
    return found


@dataclass
class Dump:
    """The lines of a dump."""

    explorer: Explorer
    turns: range
    words: Sequence[Word]

    def __post_init__(self) -> None:
        self.signals = signals_of(self.words)
        self.labels = Labels.of(self.explorer, self.turns)
        self.status: dict[str, tuple[str, str, str]] = {}

    def parts(self) -> Iterator[bytes]:
        yield "".join(f"{it}\n" for it in self.heading()).encode()
        last: list[str] = ["" for _ in self.signals]
        for batch in batches_of(self.explorer.machine, self.turns):
            lines = self.changes(batch, last)
            yield "".join(f"{it}\n" for it in lines).encode("utf-8", "surrogateescape")
        yield f"#{self.turns.stop}\n".encode()

    def heading(self) -> Iterator[str]:
        yield "$version Nezdrab's explore $end"
        yield f"$comment {span(self.turns)}: one unit of time, here a second, is one turn."
        yield "Values are those before the turn; the events and the vector are of the turn. $end"
        yield f"$timescale {TIMESCALE} $end"
        scope = ""
        for signal in self.signals:
            if signal.scope != scope:
                yield from ["$upscope $end"] if scope else []
                yield f"$scope module {signal.scope} $end"
            scope = signal.scope
            yield signal.declared()
        yield "$upscope $end"
        yield "$enddefinitions $end"

    def changes(self, batch: Batch, last: list[str]) -> Iterator[str]:
        """The lines of a batch: at each turn what differs from the last value, and is kept there.
        An event happens again each time."""
        machine, turns = self.explorer.machine, batch.turns
        traps, core = trapped(machine, turns), core_changes(machine, turns, self.words)
        values = [f"{machine.word(turns.start, it.address):o}" for it in self.words]
        disk = disk_states(machine, turns)
        for turn, reply, of_disk in zip(turns, batch.registers, disk):
            for number, word in core.get(turn, ()):
                values[number] = f"{word:o}"
            events = self.events(turn, batch.others.get(turn), traps.get(turn))
            now = [*self.of_registers(reply), *events, *of_disk, *values]
            triples = zip(self.signals, now, last)
            lines = [it.change(value) for it, value, before in triples if value not in ("", before)]
            last[:] = now
            yield from [f"#{turn}", *lines] if lines else []

    def of_registers(self, reply: bytes) -> list[str]:
        """The values of what the reply of `regs` has."""
        text = reply.decode("ascii")
        status = self.status.get(text[PS])
        if status is None:
            status = self.status[text[PS]] = of_status(int(text[PS], 8))
        registers = [text[it] for it in REGISTERS.values()]
        return [*registers, *status, self.labels[reply[PLACE]].name, text[STATE]]

    def events(self, turn: int, other: Optional[Turn], trap: Optional[int]) -> list[str]:
        """Whether the turn is an interrupt, whether it has a trap, and through which vector. Of an
        event the value is its turn, which no other one has."""
        if other is not None and other.vector is not None:
            return [str(other.turn), "", other.interrupt().partition(" ")[2]]
        if trap is not None:
            return ["", str(turn), f"{trap:03o}"]
        return ["", "", NOTHING]


def of_status(ps: int) -> tuple[str, str, str]:
    """Mode, previous mode and priority."""
    registers = Registers({"PS": ps}, "")
    return registers.mode.value, Mode.previous(ps).value, str(registers.priority)
