"""Branches, extremes, changes of registers and words of drives in conditions, each against what is
asked of every turn."""
from itertools import groupby, islice
from typing import Callable, Union

from nezdrab import Machine, Mode, NezdrabError, Refused

from .machine_case import EXAMPLES, Case

END = 4_000
# By the upper bits of the word, from bit 9 on: whether the branch with bit 8 set is taken.
TAKEN: dict[int, Callable[[int, int, int, int], int]] = {
    1: lambda n, z, v, c: z,
    2: lambda n, z, v, c: n ^ v,
    3: lambda n, z, v, c: z | n ^ v,
    0o100: lambda n, z, v, c: n,
    0o101: lambda n, z, v, c: c | z,
    0o102: lambda n, z, v, c: v,
    0o103: lambda n, z, v, c: c,
}
SOB, SEVEN = 0o077, 0o340


class OfTurns(Case):
    def setUp(self) -> None:
        super().setUp()
        self.m = Machine.of_session(EXAMPLES / "ledger" / "ledger.session")
        self.addCleanup(self.m.close)

    def test_branches(self) -> None:
        m, wanted = self.m, list[tuple[int, int, int, bool]]()
        for it in m.trail(END, 600):
            before = m.regs(it.turn)
            if it.act != "instr":
                continue
            word = m.virtual(it.turn, before.mode, it.pc)[0]
            if word >> 9 in TAKEN:
                codes = (before.ps >> bit & 1 for bit in (3, 2, 1, 0))
                is_taken = TAKEN[word >> 9](*codes) == (word >> 8 & 1)
            elif word >> 9 == SOB:
                is_taken = before.words[f"R{word >> 6 & 7}"] != 1
            else:
                continue
            wanted.append((it.turn, it.pc, word, is_taken))
        self.assertEqual({it[3] for it in wanted}, {True, False})
        found = list(islice(m.branches(END), len(wanted)))
        self.assertEqual([tuple(it) for it in reversed(found)], wanted)
        self.assertEqual(list(m.branches(0)), [])

    def test_extremes(self) -> None:
        m, since = self.m, 2_500
        rows = [m.regs(it) for it in range(since, END + 1)]
        found = m.extremes(since=since, until=END)
        longest: list[range] = [range(0)]
        for turn, it in enumerate(rows[:-1], since):
            if it.ps & SEVEN == SEVEN:
                begin = longest[-1].start if longest[-1].stop == turn else turn
                longest.append(range(begin, turn + 1))
        self.assertEqual(found.longest, max(longest, key=len))
        pointers = {"KSP": [it.ksp for it in rows], "USP": [it.usp for it in rows]}
        least = {name: min(values) for name, values in pointers.items()}
        firsts = {name: since + pointers[name].index(it) for name, it in least.items()}
        self.assertEqual(found.least, {it: (least[it], firsts[it]) for it in least})
        slowest: dict[int, int] = {}
        for act in m.trail(END, END - since):
            if act.vector is None or m.regs(act.turn + 1).mode is Mode.USER:
                continue
            pointer = m.regs(act.turn + 1).ksp
            left = (it for it, row in enumerate(rows, since) if it > act.turn and row.ksp > pointer)
            took = next(left, act.turn) - act.turn
            slowest[act.vector] = max(slowest.get(act.vector, 0), took)
        self.assertEqual({it: len(took) for it, took in found.slowest.items()}, slowest)
        self.assertGreater(len(slowest), 1)

    def test_changes_of_a_register(self) -> None:
        m, since = self.m, 2_900
        values = [m.devices(it)["TKS"] for it in range(since, END + 1)]
        wanted = [it for it in zip(range(since, END), values, values[1:]) if it[1] != it[2]]
        named: tuple[Union[str, int], ...] = ("TKS", 0o777560)
        for name in named:
            found = [tuple(it) for it in m.register_changes(name, since=since, until=END)]
            self.assertEqual(found, wanted)
        self.assertGreater(len(wanted), 1)
        sent = bytes(it.after for it in m.register_changes("TPB", until=END))
        printed = bytes(byte for byte, _ in groupby(m.text(END)))
        self.assertGreater(len(printed), 4)
        self.assertEqual(sent[: len(printed)], printed)
        none: tuple[Union[str, int], ...] = ("SR1", 0o2000)
        for wrong in none:
            with self.assertRaises(NezdrabError):
                list(m.register_changes(wrong, until=5))

    def test_words_of_a_drive_in_a_condition(self) -> None:
        m, turns = self.m, range(127_000, 128_500)
        words = [m.dsk(it, 0)[0] for it in turns]
        held = [it for it, word in zip(turns, words) if word == 0o136 and m.regs(it).r0 > 5]
        self.assertGreater(len(held), 1)
        where = "disk 0 = 136 and R0 > 5"
        self.assertEqual(m.first(where=where, since=turns[0], until=turns.stop), held[0])
        self.assertEqual(m.latest(where=where, since=turns[0], until=turns.stop), held[-1])
        with self.assertRaises(Refused) as refused:
            m.first(where="disk 0 0 = 5", until=9)
        self.assertIn("disk I, in version 2 disk D I", str(refused.exception))
