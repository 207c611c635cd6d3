"""The longest, deepest and slowest of some turns, by each turn's registers and act."""
import random
import re
from typing import Optional

from nezdrab.core.engine import Machine
from nezdrab.core.replies import Mode

from .systems import KEYS, LEDGER, OfSystems

SEVEN, TURNS = 0o340, 1_500
SPAN = re.compile(r"turns? in (?:the turns )?(?:turn )?([0-9]+)(?: to ([0-9]+))?")


def stretches(machine: Machine, turns: range) -> list[range]:
    """Those of priority 7."""
    found: list[range] = []
    for turn in turns:
        if machine.registers(turn).ps & SEVEN == SEVEN:
            is_next = bool(found) and found[-1].stop == turn
            begin = found.pop().start if is_next else turn
            found.append(range(begin, turn + 1))
    return found


def handlers(machine: Machine, turns: range) -> list[tuple[int, range]]:
    """The interrupts with the turns that their handlers take, if they are left by the end."""
    found = []
    for it in machine.turns(turns.start, len(turns)):
        after = machine.registers(it.turn + 1)
        if it.vector is not None and after.mode is not Mode.USER:
            later = range(it.turn + 1, turns.stop + 1)
            pointers = (turn for turn in later if machine.registers(turn).ksp > after.ksp)
            end: Optional[int] = next(pointers, None)
            found += [] if end is None else [(it.vector, range(it.turn, end))]
    return found


class BruteForce(OfSystems):
    def check(self, machine: Machine, turns: range, words: tuple[str, ...]) -> int:
        """Compares what is shown. Returns how many handlers there are."""
        line = f"extremes {turns.start} {turns.stop}\n"
        first, *rows = self.explore(line, *words).splitlines()
        seven = max(stretches(machine, turns), key=len, default=range(0))
        self.assertTrue(first.startswith(f"priority 7: {len(seven)} turn"), (first, seven))
        shown = SPAN.search(first)
        self.assertEqual(shown and int(shown[1]), seven.start if seven else None, line)
        registers = [machine.registers(it) for it in range(turns.start, turns.stop + 1)]
        for name in ("KSP", "USP"):
            values = [it.words[name] or 0o200000 for it in registers]
            turn = turns[0] + values.index(min(values))
            said = [f"deepest stack: {name} {min(values):06o} before turn {turn}"]
            shown_rows = [it for it in rows if name in it]
            self.assertEqual(shown_rows, said if min(values) < 0o200000 else [])
        slowest: dict[int, range] = {}
        for vector, took in handlers(machine, turns):
            slowest[vector] = max(slowest.get(vector, took), took, key=len)
        for vector, took in slowest.items():
            (row,) = (it for it in rows if it.startswith(f"slowest handler of {vector:03o} "))
            self.assertIn(f": {len(took)} turn", row)
        self.assertEqual(len([it for it in rows if it.startswith("slowest")]), len(slowest))
        return len(slowest)

    def test_turns_of_stored_systems(self) -> None:
        chance, count = random.Random(4), 0
        for words, begins in ((LEDGER, range(126_000, 230_000)), (KEYS, range(1_000, 9_000))):
            machine = self.machine(words)
            for begin in chance.sample(begins, 2):
                count += self.check(machine, range(begin, begin + TURNS), words)
        self.assertGreater(count, 2)

    def test_what_is_refused(self) -> None:
        said = ["extremes: the form is: extremes N M", "extremes: M isn't above N"]
        self.assertEqual(self.explore("extremes 5\nextremes 5 5\n").splitlines(), said)
        first, *_ = self.explore("extremes 0 1\n").splitlines()
        self.assertEqual(first, "priority 7: 0 turns")
