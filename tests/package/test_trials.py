"""What became of keys, writes of a range, other pasts and the fewest events, by methods."""
from typing import Any, Optional

from nezdrab import Event, Fate, Machine, Moved, NezdrabError, questions

from .machine_case import Case

LEDGER = "ledger/ledger.session"


class Trials(Case):
    def test_what_became_of_keys(self) -> None:
        machine = self.of_session(LEDGER)
        number = machine.at(126_980, key="8")
        keys = list(machine.struck(since=126_000, until=127_000))
        self.assertEqual([it.event.number for it in keys], [14, 15, number])
        self.assertEqual([it.fate for it in keys], [Fate.READ, Fate.OVERWRITTEN, Fate.WAITS])
        self.assertEqual([it.delay for it in keys], [2, 13, 20])
        self.assertEqual(keys[1].by, keys[2].event)
        self.assertEqual(len(list(machine.struck(until=127_000))), 16)

    def test_writes_of_a_range(self) -> None:
        """Those of each word, together by turn."""
        machine, turns = self.of_session(LEDGER), {"since": 124_000, "until": 127_200}
        found = list(machine.writes_in(0o766, 0o776, **turns))
        wanted = sorted(
            (write.turn, address, write.word)
            for address in range(0o766, 0o1000, 2)
            for write in machine.writes(address, **turns)
        )
        self.assertEqual([(it.turn, at, it.word) for at, it in found], wanted)
        self.assertGreater(len(wanted), 256)
        self.assertEqual(list(machine.writes_in("0", "0", until=200_000)), [])

    def test_words_of_two_pasts(self) -> None:
        """Those that are others, of all words."""
        machine, turn = self.of_session(LEDGER), 138_071
        with machine.altered(15, turn=126_700) as other:
            found = list(machine.differing(other, turn))
            both = [(it.mem(turn, 0, 126_976), it.dsk(turn, 0, 256)) for it in (machine, other)]
        core, disk = (list(zip(*it)) for it in zip(*both))
        wanted = [(None, 2 * at, *it) for at, it in enumerate(core) if it[0] != it[1]]
        wanted += [(0, at, *it) for at, it in enumerate(disk) if it[0] != it[1]]
        self.assertEqual(found, wanted)
        self.assertEqual({it[0] for it in found}, {None, 0})

    def test_the_fewest_events(self) -> None:
        machine = self.of_session(LEDGER)
        before, question = machine.events(), questions.dsk(138_071, 0)
        lists = list(machine.reduce(question))
        self.assertEqual(lists[0], before)
        self.assertEqual([len(it) for it in lists], sorted({len(it) for it in lists})[::-1])
        kept = {it.number for it in lists[-1]}
        self.assertEqual(kept, {2, 3, 4, 5, 7, 8, 9, 10, 12, 13, 14})
        self.assertEqual(machine.events(), before)
        with machine.fork() as other:
            for event in before:
                if event.number not in kept:
                    other.drop(event.number)
            self.assertEqual(other.ask(question), machine.ask(question))
            for number in kept:
                with other.fork() as fewer:
                    fewer.drop(number)
                    self.assertNotEqual(fewer.ask(question), machine.ask(question))

    def test_what_is_wanted(self) -> None:
        machine = self.of_session(LEDGER)
        *_, least = machine.reduce("dsk 138071 0 1", lambda it: bool(it >= "dsk 000110"))
        self.assertEqual([it.text for it in least], ["key 62", "key 61", "key 63", "key 62"])
        *_, least = machine.reduce("dsk 138071 0 1", events=[1, 13, 15])
        self.assertEqual([it.number for it in least], [13])
        with self.assertRaises(NezdrabError):
            list(machine.reduce("dsk 138071 0 1", lambda it: bool(it == "dsk 000140")))


class Matters(Case):
    """Moves of the lost update's key, which change what is on the drive in turn 40, and of two more
    events."""

    MOST = 14

    def lost_update(self) -> Machine:
        machine = self.of_session("who-wrote-this-word.session")
        machine.at(25, key="B")
        machine.at(50, "tick")
        return machine

    def brute(self, machine: Machine, event: Event, sign: int) -> Optional[Moved[int]]:
        """The nearest move after which the word is another one, each in a machine of its own."""
        question = questions.dsk(40, 0)
        before = machine.ask(question)[0]
        for shift in range(1, self.MOST + 1) if sign else (0,):
            if event.turn + sign * shift < 0:
                return None
            with machine.fork() as other:
                if sign:
                    other.alter(event.number, turn=event.turn + sign * shift)
                else:
                    other.drop(event.number)
                word = other.ask(question)[0]
            if word != before:
                return Moved(shift, word)
        return None

    def test_the_nearest_moves(self) -> None:
        machine = self.lost_update()
        before, found = machine.events(), 0
        for processes in (1, 2):
            question = questions.dsk(40, 0)
            rows = list(machine.matters(question, within=self.MOST, processes=processes))
            self.assertEqual({it.event for it in rows}, set(before))
            found = 0
            for it in rows:
                moves = zip((0, -1, 1), (it.dropped, it.earlier, it.later))
                for sign, move in moves:
                    word = None if move is None else Moved(move.turns, move.answer[0])
                    self.assertEqual(word, self.brute(machine, it.event, sign), (it.event, sign))
                    found += move is not None
        self.assertGreater(found, 1)
        self.assertEqual(machine.events(), before)

    def test_what_is_wanted(self) -> None:
        """The nearest move gives another answer than the one that is wanted."""
        machine, line = self.of_session(LEDGER), "dsk 138071 0 1"
        (row,) = machine.matters(line, events=[15], within=400)
        self.assertEqual(row.earlier, Moved(135, "dsk 000136"))
        (row,) = machine.matters(line, lambda it: it == "dsk 000140", events=[15], within=400)
        self.assertEqual((row.dropped, row.earlier), (None, Moved(317, "dsk 000140")))
        (near,) = machine.matters(line, events=[15], within=400, near=True)
        for moved, sign in ((near.earlier, -1), (near.later, 1)):
            assert moved is not None
            with machine.altered(15, turn=row.event.turn + sign * moved.turns) as other:
                self.assertEqual(other.ask(line), moved.answer)

    def test_what_can_not_be_asked(self) -> None:
        machine = self.lost_update()
        asked: tuple[tuple[dict[str, Any], str], ...] = (
            ({"question": "setup"}, "the question names no turn"),
            ({"question": "regs 40", "within": 0}, "within is 1 to 1000000000"),
            ({"question": "regs 40", "events": [9]}, "no event has the number 9"),
            ({"question": "mem 40 1 1"}, "mem 40 1 1: refused 3 OddAddress: the address is odd"),
            ({"question": "regs 40", "is_wanted": bool}, "the answer is wanted without a move"),
        )
        for named, said in asked:
            with self.assertRaises(NezdrabError) as raised:
                list(machine.matters(**named))
            self.assertTrue(str(raised.exception).startswith(said), raised.exception)
