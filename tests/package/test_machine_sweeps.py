"""Sweeps: their answers are those of a machine with the event at each turn."""
import itertools
import tracemalloc
from typing import Iterator

from nezdrab import Machine, Refused, Unreadable, questions

from .machine_case import Case


class Sweeps(Case):
    def each(self, machine: Machine, number: int, turns: range) -> list[tuple[int, int]]:
        """One machine for each turn; in its own turn the event is not moved."""
        found = []
        for turn in turns:
            with machine.fork() as other:
                if other.events()[0].turn != turn:
                    other.alter(number, turn=turn)
                found.append((turn, other.dsk(40, 0)[0]))
        return found

    def test_a_moved_event(self) -> None:
        machine, turns = self.of_session("who-wrote-this-word.session"), range(0, 40)
        question = questions.dsk(40, 0)
        wanted = self.each(machine, 1, turns)
        self.assertGreater(len({word for _, word in wanted}), 1)
        for processes in 1, 3:
            swept = machine.sweep(1, turns, question, processes=processes)
            self.assertEqual([(turn, word[0]) for turn, word in swept], wanted)
        some = list(machine.sweep(1, [30, 11, 2], "dsk 40 0 1"))
        wanted_replies = [(turn, f"dsk {dict(wanted)[turn]:06o}") for turn in (30, 11, 2)]
        self.assertEqual(some, wanted_replies)
        self.assertEqual([it.turn for it in machine.events()], [11])

    def test_an_event_in_its_own_turn(self) -> None:
        """It comes before the others of its turn as it is, and would be the last if it came back:
        of two keys the second counts."""
        machine = self.machine()
        machine.at(5, key="A")
        machine.at(5, key="B")
        found = dict(machine.sweep(1, range(4, 7), questions.devices(8)))
        self.assertEqual([chr(it["TKB"]) for it in found.values()], ["B", "B", "A"])

    def test_a_new_event(self) -> None:
        machine = self.of_session("who-wrote-this-word.session")
        turns = range(12, 60)
        wanted = []
        for turn in turns:
            with machine.fork() as other:
                other.at(turn, "disk")
                wanted.append((turn, list(other.dsk(70, 0, 300))))
        for processes in 1, 2:
            swept = machine.sweep("disk", turns, questions.dsk(70, 0, 300), processes=processes)
            self.assertEqual([(turn, list(words)) for turn, words in swept], wanted)

    def test_turns_are_taken_as_answers_are(self) -> None:
        """A few parts of 32 ahead, also of turns without end, by the one who asks: a generator may
        ask the machine itself."""
        machine, question = self.of_session("who-wrote-this-word.session"), questions.dsk(40, 0)
        wanted, taken = self.each(machine, 1, range(0, 40)), []

        def turns() -> Iterator[int]:
            for turn in itertools.count():
                taken.append(machine.setup().version * turn)
                yield turn

        for processes in 1, 3:
            taken.clear()
            swept = itertools.islice(machine.sweep(1, turns(), question, processes=processes), 40)
            self.assertEqual([(turn, word[0]) for turn, word in swept], wanted)
            self.assertLess(len(taken), 40 + 32 * (processes + 2))
        tracemalloc.start()
        self.addCleanup(tracemalloc.stop)
        many = machine.sweep(1, range(10**8), question)
        self.assertEqual([next(many)[0] for _ in range(3000)], list(range(3000)))
        self.assertLess(tracemalloc.get_traced_memory()[1], 1_000_000)

    def test_what_cant_be_swept(self) -> None:
        machine = self.of_session("who-wrote-this-word.session")
        with self.assertRaises(Refused) as caught:
            list(machine.sweep("bell", [1], "regs 5"))
        self.assertIn("there is no event 'bell'", caught.exception.sentence)
        with self.assertRaises(Refused) as caught:
            list(machine.sweep(1, [1, 2], "mem 5 1 1"))
        self.assertEqual(caught.exception.number, 3)
        with self.assertRaises(Unreadable):
            list(machine.sweep(1, [1], questions.virtual(5, "user", 0o177560)))
        self.assertEqual(list(machine.sweep(1, [], "regs 5")), [])
