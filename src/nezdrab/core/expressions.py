"""Values that are named: registers, and words at addresses, before a turn; and texts with such
names in braces, such as `count {R0} of {core 2000}`."""
import re
from functools import cached_property
from itertools import islice
from typing import Iterable, Iterator, NamedTuple, Optional

from . import sessions
from .engine import Machine
from .errors import ExploreError
from .replies import SPACES, Devices, Mode, Registers
from .symbols import Symbols

WORD = re.compile(r"((?P<space>core|kernel|user)[ \t]+)?(?P<address>\S+)")
AT_REGISTER = re.compile(r"(?P<index>-?[0-7]{1,6})?\((?P<register>\w+)\)")
BRACES = re.compile(r"\{\{|\}\}|\{(?P<name>[^{}]*)\}|[{}]")
ASKED_AT_ONCE = 64
REGISTERS = ("R0", "R1", "R2", "R3", "R4", "R5", "SP")
ALL_REGISTERS = " ".join(f"{it} {{{it}}}" for it in REGISTERS)  # the text without a FORMAT


class Named(NamedTuple):
    """A word that is named, and where it stands or, of a register, points: an address of a mode, or
    of the bus."""

    word: int
    mode: Optional[Mode]
    address: int


class Before:
    """The machine before a turn, with the names that it is asked by."""

    def __init__(self, machine: Machine, symbols: Symbols, turn: int):
        self.machine, self.symbols, self.turn = machine, symbols, turn

    @classmethod
    def each(
        cls, machine: Machine, symbols: Symbols, turns: Iterable[int]
    ) -> "Iterator[Before]":
        """That before each of these turns, which ascend. Their registers are asked together."""
        found = iter(turns)
        while part := list(islice(found, ASKED_AT_ONCE)):
            replies = list(machine.read_all([f"regs {it}" for it in part], ASKED_AT_ONCE))
            for turn, reply in zip(part, replies):
                before = cls(machine, symbols, turn)
                before.registers = Registers.of(reply)
                yield before

    @cached_property
    def registers(self) -> Registers:
        return self.machine.registers(self.turn)

    @cached_property
    def devices(self) -> Devices:
        return self.machine.devices(self.turn)

    def named(self, expression: str) -> Optional[Named]:
        """The value of a register, or of the word at an address; None if the expression is neither.
        `2(R5)` is at R5 and 2, in the mode before the turn. A symbol is an address of the mode that
        alone has it, or otherwise of the mode before the turn; a number is an address of core, if
        no mode is named."""
        registers, name = self.registers, expression.upper()
        names = {**registers.words, "SP": registers.sp}
        if name in names:
            return Named(names[name], registers.mode, names[name])
        at = AT_REGISTER.fullmatch(expression)
        if at is not None and at["register"].upper() in names:
            address = names[at["register"].upper()] + int(at["index"] or "0", 8) & 0o177777
            return self.word_at(registers.mode, address)
        if name.isalnum() and name.isalpha() and name in self.devices.words:
            return Named(self.devices.words[name], None, self.devices.words[name])
        found = WORD.fullmatch(expression)
        if found is None or not self.is_address(found["address"]):
            return None
        mode = self.mode_of(found["space"], found["address"])
        return self.word_at(mode, self.symbols.number(found["address"], mode))

    def is_address(self, text: str) -> bool:
        is_named = bool(sessions.words_of(text)) and self.symbols.is_named(text)
        return is_named or re.fullmatch("[0-7]{1,6}", text) is not None

    def mode_of(self, space: Optional[str], address: str) -> Optional[Mode]:
        """The mode whose address this is, or None if it is one of core."""
        if space:
            return None if space == "core" else Mode(space)
        name, current = re.split(r"[+-]", address)[0], self.registers.mode
        modes = [it for it in self.symbols.numbers if self.symbols.named(name, it)]
        if not modes:
            return None
        return modes[0] if len(modes) == 1 else current if current in SPACES else Mode.KERNEL

    def word_at(self, mode: Optional[Mode], address: int) -> Named:
        place = self.core_of(mode, address)
        return Named(self.machine.word(self.turn, place), mode, address)

    def core_of(self, mode: Optional[Mode], address: int) -> int:
        """The address of core that an address is."""
        place: Optional[int] = address
        if mode is not None:
            place = next(self.machine.places([(self.turn, mode, address)]))
        if place is None or place >= self.machine.setup.core_end:
            raise ExploreError(f"{address:o} is no address of core before turn {self.turn}")
        if place % 2:
            raise ExploreError(f"{address:o} is odd")
        return place

    def core_of_expression(self, expression: str) -> int:
        """The address of core of the word that an expression names."""
        found = WORD.fullmatch(expression)
        if found is None:
            raise ExploreError(f"'{expression}' is no address")
        mode = self.mode_of(found["space"], found["address"])
        return self.core_of(mode, self.symbols.number(found["address"], mode))

    # Texts

    def filled(self, text: str) -> str:
        """The text with the value of each name in braces, of a word that isn't in core `------`. An
        error if a name is none."""
        return BRACES.sub(self.in_braces, text)

    def in_braces(self, found: "re.Match[str]") -> str:
        name = found["name"]
        if name is None:
            if len(found[0]) == 1:
                raise ExploreError(f"'{found[0]}' stands alone: a brace is written twice")
            return found[0][0]
        name = name.strip()
        if name == "turn":
            return str(self.turn)
        try:
            value = self.named(name)
        except ExploreError:
            return "------"
        if value is None:
            raise ExploreError(f"'{name}' is no register, no symbol and no address of core")
        return f"{value.word:06o}"
