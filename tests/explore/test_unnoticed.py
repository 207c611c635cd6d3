"""The turns in which a program doesn't notice a key: against the program's own line `fades`, which
says from which turn on two runs are one, and against moves that are all tried."""
import random
from typing import Sequence
from unittest import mock

from nezdrab.analysis.explorer import Explorer
from nezdrab.analysis.matters import Matters, Results, tried
from nezdrab.core.engine import LAST_TURN, Machine
from nezdrab.core.moves import Trial
from nezdrab.core.unnoticed import unnoticed

from .machines import LEDGER, OnMachine

BEGIN = (
    "core 60 2000", "core 62 340", "core 100 2020", "core 102 340", "core 220 2040",
    "core 222 340", "core 4 2060", "core 6 340", "core 30 2060", "core 32 200", "delay disk 9",
    "core 3000 3002", "core 3002 177562", "core 3100 3002",
    # a key and a tick are taken, the disk and traps return
    "core 2000 13705", "core 2002 177562", "core 2004 2",
    "core 2020 12737", "core 2022 100", "core 2024 177546", "core 2026 2",
    "core 2040 2", "core 2060 2",
    "core 1000 12706", "core 1002 2000", "core 1004 12704", "core 1006 177560",
    "core 1010 12703", "core 1012 3100", "core 1014 12737", "core 1016 100", "core 1020 177560",
)  # fmt: skip
FIRST = 0o1022
PARTS: Sequence[Sequence[int]] = (
    (0o12737, 0o340, 0o177776),  # MOV #340,@#PS
    (0o12737, 0o340, 0o177776),
    (0o12737, 0o200, 0o177776),  # MOV #200,@#PS
    (0o5037, 0o177776),  # CLR @#PS
    (0o12737, 0o100, 0o177560),  # MOV #100,@#TKS
    (0o5037, 0o177560),  # CLR @#TKS
    (0o105737, 0o177560),  # TSTB @#TKS
    (0o113700, 0o177562),  # MOVB @#TKB,R0
    (0o5714,),  # TST (R4), of TKS
    (0o16401, 2),  # MOV 2(R4),R1, of TKB
    (0o5733, 0o12703, 0o3000),  # TST @(R3)+ and MOV #3000,R3: a pointer to TKB, or to core
    (0o5773, 2),  # TST @2(R3)
    (0o12737, 0o5, 0o177404),  # MOV #5,@#RKCS: the disk reads
    (0o5067, 0o2000), (0o5202,), (0o6302,), (0o240,), (0o10246,), (0o12602,),
    (0o104000,),  # EMT
    (0o110002,), (0o5763, 0o60), (0o20203,), (0o5,),  # RESET
    (0o12737, 0o100, 0o177546),  # MOV #100,@#LKS
)  # fmt: skip


class Unseen(OnMachine):
    """Turns of random programs with interrupts, polls, pointers, RESET and the disk."""

    def past(self, chance: random.Random) -> list[str]:
        words: list[int] = []
        while len(words) < 60:
            words += chance.choice(PARTS)
        back = -(len(words) + 1) & 0o377
        words.append(0o400 | back)  # BR to the first of them
        code = [f"core {FIRST + 2 * at:o} {word:o}" for at, word in enumerate(words)]
        events = [f"at {chance.randrange(400)} {it}" for it in ("key 102", "tick", "key 103")]
        clock = f"delay clock {chance.randrange(20, 60)}"
        return [*BEGIN, *code, clock, *events, f"at {LAST_TURN} key 101"]

    def is_one_run(self, machine: Machine, turn: int) -> bool:
        """Whether the key in this turn and that in the next make one run from turn + 2 on, with
        equal acts before. It is event 4."""
        machine.ask(f"alter 4 {turn} key 101")
        acts = machine.read(f"trail {turn + 1} 1")
        (word, found) = machine.read(f"fades {turn + 2} alter 4 {turn + 1} key 101").split()
        machine.ask(f"alter 4 {turn + 1} key 101")
        return found == str(turn + 2) and acts == machine.read(f"trail {turn + 1} 1")

    def check(self, seed: int) -> tuple[int, int]:
        """Returns how many turns don't notice, and how many others make no other run."""
        past = self.past(random.Random(seed))
        machine = self.explorer(edits=past).machine
        taken = set(machine.turns_of("key")) | set(machine.turns_of("tick"))
        turns = range(5, 400)
        found = unnoticed(machine, turns)
        free = [it for it in turns if it + 1 not in taken]
        for turn in found.intersection(free):
            self.assertTrue(self.is_one_run(machine, turn), (seed, turn))
        others = [it for it in free if it not in found]
        return len(found), sum(self.is_one_run(machine, it) for it in others)

    def test_the_key_in_the_next_turn_makes_one_run(self) -> None:
        found, missed = (sum(it) for it in zip(*map(self.check, range(6))))
        self.assertGreater(found, 1500)
        self.assertLess(missed, found)

    def test_a_halted_machine_notices_nothing(self) -> None:
        machine = self.explorer(edits=["core 1000 0"]).machine
        self.assertEqual(unnoticed(machine, range(1, 50)), frozenset(range(1, 50)))


class Fewer(OnMachine):
    """The moves of `matters` that are tried."""

    def results(self, explorer: Explorer, line: str) -> Results:
        matters = Matters.of(explorer.machine, line)
        results = Results("", explorer.machine.script)
        list(tried(explorer.machine, matters, results, 1))
        return results

    def test_all_tried_and_few_tried(self) -> None:
        """The same comes of all moves. Two keys lie before and after others in their turns."""
        edits = ["at 126900 key 61", "at 126900 tick", "at 127166 key 63"]
        explorer = self.explorer(LEDGER, edits)
        replies, counts = Trial.answers, [0, 0]
        found = []
        for at, nothing in enumerate((False, True)):

            def counted(trial, twin, task, shifts, at=at):  # type: ignore[no-untyped-def]
                counts[at] += len(shifts)
                return replies(trial, twin, task, shifts)

            with mock.patch.object(Trial, "answers", counted):
                if nothing:
                    with mock.patch.object(Trial, "not_noticing", return_value=frozenset()):
                        found.append(self.results(explorer, "12 15 29 within 250: dsk 138071 0 1"))
                else:
                    found.append(self.results(explorer, "12 15 29 within 250: dsk 138071 0 1"))
        few, every = found
        self.assertEqual(few.tried, every.tried)
        self.assertLess(3 * counts[0], counts[1])
