"""What a machine tells of many turns: the changes of a register, branches, extremes, a log."""
from __future__ import annotations

import operator
from typing import Any, Iterator, NamedTuple, Optional, SupportsIndex

from .engine import MOST_TURNS_OF_A_TRAIL, SHORT_SENT_AHEAD, Machine as Engine
from .errors import ExploreError
from .expressions import ALL_REGISTERS, Before
from .extreme_turns import Extremes
from .places import is_register
from .questions import Address, ModeName, first, octal
from .register_changes import RegisterChange, register_changes
from .replies import Mode, Registers
from .symbols import Symbols
from .register_rows import batches

OF_CODES, SOB = (1, 2, 3, 0o100, 0o101, 0o102, 0o103), 0o077  # conditional branches, from bit 9 on


class BranchTurn(NamedTuple):
    """A turn that is a conditional branch: its PC, its word, and whether it is taken. One that
    leads to the instruction behind it isn't."""

    turn: int
    pc: int
    word: int
    is_taken: bool


def branches_in(machine: Engine, turns: range) -> list[BranchTurn]:
    """Those of these turns, at most 64, in their order. A branch has one cycle, which reads it."""
    found: list[tuple[int, int, int]] = []
    while turns:
        part, turns = machine.accesses(turns)
        for it in part:
            word: Optional[int] = it.cycles[0].value if len(it.cycles) == 1 else None
            if it.turn.act == "instr" and word is not None and word >> 9 in (*OF_CODES, SOB):
                found.append((it.turn.turn, it.turn.pc, word))
    replies = machine.read_all([f"regs {turn + 1}" for turn, _, _ in found], SHORT_SENT_AHEAD)
    after = [Registers.of(it).pc for it in replies]
    return [BranchTurn(*it, pc != it[1] + 2 & 0o177777) for it, pc in zip(found, after)]


class Walks:
    """The part of a machine that looks at many turns."""

    _engine: Engine

    symbols: Symbols

    def _place(self, address: Address) -> int:
        raise NotImplementedError

    def _number(self, address: Address, mode: Optional[Mode] = None) -> int:
        raise NotImplementedError

    def ask(self, question: Any) -> Any:
        raise NotImplementedError

    def register_changes(
        self, register: Address, *, until: SupportsIndex, since: SupportsIndex = 0
    ) -> Iterator[RegisterChange]:
        """The turns of the range before and after which a read of a register on the bus, as "TKB"
        or 0o777562, would give different words: `.turn`, `.before` and `.after`. TPB and PPB can't
        be read: of these they are the writes of another word than the write before it, and `before`
        is None at the first. A NezdrabError if the register always reads 0."""
        place = self._place(register)
        if not is_register(place):
            raise ExploreError(f"{register!r} is no register; writes_in has words of core")
        turns = range(operator.index(since), operator.index(until))
        for found, _ in register_changes(self._engine, turns, place):
            yield from found

    def branches(self, turn: SupportsIndex) -> Iterator[BranchTurn]:
        """The conditional branches before a turn, SOB among them, the last one first: `.turn`,
        `.pc`, `.word`, and whether it `.is_taken`."""
        for end in range(operator.index(turn), 0, -MOST_TURNS_OF_A_TRAIL):
            turns = range(max(0, end - MOST_TURNS_OF_A_TRAIL), end)
            yield from reversed(branches_in(self._engine, turns))

    def extremes(self, *, until: SupportsIndex, since: SupportsIndex = 0) -> Extremes:
        """The `.longest` turns of priority 7, the `.least` KSP and USP with the turns before which
        they are, and by vectors the turns of the `.slowest` handlers; `.open` are those that aren't
        left before `until`."""
        found, turns = Extremes(), range(operator.index(since), operator.index(until))
        for _ in found.walk(batches(self._engine, turns)) if turns else ():
            pass
        return found

    def log(
        self,
        pc: Address,
        text: str = ALL_REGISTERS,
        *,
        until: SupportsIndex,
        since: SupportsIndex = 0,
        mode: Optional[ModeName] = None,
        where: Optional[str] = None,
    ) -> Iterator[tuple[int, str]]:
        """The turns of the range that run the instruction at `pc`, in any mode or in this one, and
        that meet a CONDITION, if one is given, each with the text. A name in braces there stands
        for a word before the turn, in octal: that of a register, also "TKS", "core A", "user A", a
        symbol or "2(SP)"; "turn" for the turn."""
        named = None if mode is None else Mode(mode)
        address, begin = octal(self._number(pc, named)), operator.index(since)
        parts = [f"at {address}", named.value if named else "", where or ""]
        condition = " and ".join(filter(None, parts))

        def turns() -> Iterator[int]:
            found = self.ask(first(where=condition, since=begin, until=until))
            while found is not None:
                yield found
                found = self.ask(first(where=condition, since=found + 1, until=until))

        Before(self._engine, self.symbols, begin).filled(text)  # an error if a name is none
        for it in Before.each(self._engine, self.symbols, turns()):
            yield it.turn, it.filled(text)
