"""The stack: the routine of the current turn, and each that called, as `calls` finds them; and what
a frame shows: registers, the words of its stack, devices, mapping, and what is printed."""
from typing import Callable, Iterator, Optional

from ..analysis.explorer import Explorer
from ..analysis.levels import Call, Level, Stacks, pointer
from ..analysis.listing import VIRTUAL, Listed
from ..analysis.screen import lines_of
from ..core.errors import ExploreError
from ..core.replies import SPACES, Mode
from ..core.values import dataclass, field
from .memory import reference
from .sources import Sources, source
from .wire import Object

@dataclass(frozen=True)
class Frame:
    """Where a routine is: before the current turn, or in the turn in which it called. `entered` is
    the call that entered it, and `made` the one that it made."""

    turn: int
    mode: Mode
    pc: int
    entered: Optional[Level]
    made: Optional[Level]

    def name(self, explorer: Explorer) -> str:
        near = explorer.symbols.near(self.mode, self.pc) or f"{self.pc:06o}"
        mode = "" if self.mode == Mode.KERNEL else f" ({self.mode.value})"
        if self.made is None:
            return f"{near}{mode}"
        doubt = f" (believed: {self.made.doubt})" if self.made.doubt else ""
        return f"{near}{mode}: {self.made.call.kind} in turn {self.turn}{doubt}"


@dataclass
class KnownCalls:
    """What was found of the calls of a past, for all its turns."""

    calls: dict[int, Optional[Call]] = field(default_factory=dict)
    pointers: dict[tuple[int, Mode], int] = field(default_factory=dict)

    def stacks(self, explorer: Explorer) -> Stacks:
        return Stacks(explorer.machine, known=self.calls, pointers=self.pointers)


def frames(explorer: Explorer, known: KnownCalls) -> tuple[list[Frame], bool]:
    """The frames before the current turn, the innermost first, and whether there may be more."""
    stacks = known.stacks(explorer)
    registers = explorer.machine.registers(explorer.turn)
    levels = list(stacks.levels(explorer.turn))
    found = [Frame(explorer.turn, registers.mode, registers.pc, next(iter(levels), None), None)]
    for level, entered in zip(levels, [*levels[1:], None]):
        call = level.call
        found.append(Frame(call.turn, call.mode, call.pc, entered, level))
    return found, stacks.is_cut


def shown(explorer: Explorer, sources: Sources, frame: Frame, number: int) -> Object:
    """A frame as the protocol has it."""
    place = sources.line_of(frame.mode, frame.pc)
    at = {"source": source(place[0])} if place else {}
    return {
        "id": number,
        "name": frame.name(explorer),
        "line": place[1] if place else 0,
        "column": 1 if place else 0,
        **at,
        "canRestart": frame.entered is not None,
        "instructionPointerReference": reference(frame.mode, frame.pc),
        "presentationHint": "normal" if place else "subtle",
    }


STACK_WORDS, TEXT_LINES = 18, 16
SWITCHES = "SWR"
# How another value comes about of what power-up sets.
AT_POWER_UP = {
    "PC": ": `start` of launch is another",
    SWITCHES: ": at 0 switches {word} sets it in turn 0",
}


@dataclass(frozen=True)
class Scope:
    """Variables of one kind, before a turn."""

    title: str
    turn: int


@dataclass(frozen=True)
class Variable:
    """A name and its value; for a word of core its address there, for a pointer the reference."""

    name: str
    value: str
    evaluated: str = ""  # the expression that has the same value
    core: Optional[int] = None
    pointed: str = ""

    def shown(self) -> Object:
        found: Object = {"name": self.name, "value": self.value, "variablesReference": 0}
        found.update({"evaluateName": self.evaluated} if self.evaluated else {})
        found.update({"memoryReference": self.pointed} if self.pointed else {})
        return found


def of_registers(explorer: Explorer, turn: int) -> Iterator[Variable]:
    registers = explorer.machine.registers(turn)
    mode, words = registers.mode, registers.words
    named = {**words, "SP": words[pointer(mode)]}
    for name in ("R0", "R1", "R2", "R3", "R4", "R5", "SP", "PC", "KSP", "USP"):
        where = {"KSP": Mode.KERNEL, "USP": Mode.USER}.get(name, mode)
        symbol = explorer.symbols.near(mode, words["PC"]) if name == "PC" else ""
        value = f"{named[name]:06o}  {symbol}".rstrip()
        yield Variable(name, value, name, pointed=reference(where, named[name]))
    yield Variable("PS", f"{registers.ps:06o}  {registers.status()}", "PS")
    yield Variable("state", registers.state)
    yield Variable("turn", str(turn))


def of_stack(explorer: Explorer, turn: int) -> Iterator[Variable]:
    """The words from SP on, as far as they are in core."""
    registers = explorer.machine.registers(turn)
    mode = registers.mode
    sp = registers.words[pointer(mode)] & ~1
    space = mode if mode in SPACES else Mode.KERNEL
    listed = Listed.of(explorer.machine, turn, space, sp, STACK_WORDS // 3)
    for at in range(sp, min(sp + 2 * STACK_WORDS, VIRTUAL), 2):
        place = listed.place(at)
        if place is None or place not in listed.words:
            return
        word = listed.words[place]
        value = f"{word:06o}  {explorer.symbols.near(mode, word)}".rstrip()
        yield Variable(f"{at:06o}", value, f"core {place:o}", place, reference(mode, word))


def of_devices(explorer: Explorer, turn: int) -> Iterator[Variable]:
    for name, word in explorer.machine.devices(turn).words.items():
        yield Variable(name, f"{word:06o}", name)


def of_mapping(explorer: Explorer, turn: int) -> Iterator[Variable]:
    pages = explorer.machine.pages(turn)
    yield Variable("SR0", f"{pages.sr0:06o}  mapping is {'on' if pages.sr0 & 1 else 'off'}")
    yield Variable("SR2", f"{pages.sr2:06o}")
    for mode, addresses in pages.addresses.items():
        for page, (par, pdr) in enumerate(zip(addresses, pages.descriptors[mode])):
            yield Variable(f"{mode.value} page {page}", f"PAR {par:06o}  PDR {pdr:06o}")


def of_text(explorer: Explorer, turn: int) -> Iterator[Variable]:
    """The last lines as a terminal shows them, with their numbers from 1 on."""
    lines = list(enumerate(lines_of(explorer.machine.text(turn)), 1))
    for number, line in lines[-TEXT_LINES:]:
        yield Variable(f"line {number}", line)


Shown = Callable[[Explorer, int], Iterator[Variable]]
SCOPES: dict[str, Shown] = {
    "Registers": of_registers,
    "Stack": of_stack,
    "Devices": of_devices,
    "Mapping": of_mapping,
    "Console": of_text,
}


def variables(explorer: Explorer, scope: Scope) -> list[Variable]:
    return list(SCOPES[scope.title](explorer, scope.turn))


def edit_for(explorer: Explorer, scope: Scope, name: str, text: str) -> str:
    """The edit of the past that gives a variable this value, if there is one. Words of core are
    patched as of power-up, and switches are set by an event of the turn before."""
    found = next((it for it in variables(explorer, scope) if it.name == name), None)
    if found is None:
        raise ExploreError(f"{scope.title} has no '{name}'")
    try:
        word = int(text, 8)
    except ValueError:
        word = -1
    if not 0 <= word < VIRTUAL:
        raise ExploreError(f"'{text}' is no word: up to six octal digits, 177777 at most")
    if scope.turn == 0:
        if found.core is None:
            more = AT_POWER_UP.get(name, "").format(word=f"{word:o}")
            raise ExploreError(f"{name} before turn 0 is what power-up makes it{more}")
        return f"core {found.core:o} {word:o}"
    if name == SWITCHES:
        return f"at {scope.turn - 1} switches {word:o}"
    further = "; before turn 0 a word of core can be set" if found.core is not None else ""
    raise ExploreError(
        f"{name} before turn {scope.turn} is what the turns before made it{further}: change the "
        "past in the debug console, by core A W, at N EVENT, alter E N EVENT or drop E"
    )
