"""All values of a word, against the word before each turn."""
import random
import re

from nezdrab.core.engine import Machine

from .systems import KEYS, LEDGER, OfSystems

ROW = re.compile(r" *([0-9]+)  ([0-7]{6})  ([0-7]{6})  (cpu |disk)  \S.*")
SHOWN, TURNS = 256, 2000
LEFT = "left the word as it was"


class Changes(OfSystems):
    """Words of core and of the drive in stored systems."""

    def shown(self, line: str, words: tuple[str, ...]) -> tuple[list[tuple[int, int, int]], str]:
        """The changes that explore shows, and its last line."""
        written = self.explore(f"{line}\n", *words).splitlines()
        found = [it for it in map(ROW.fullmatch, written) if it]
        self.assertEqual(len(found), max(0, len(written) - 3), written)
        changes = [(int(it[1]), int(it[2], 8), int(it[3], 8)) for it in found]
        return changes, written[-1]

    def test_they_are_those_of_each_turn(self) -> None:
        chance, compared = random.Random(7), 0
        for words, first in ((LEDGER, 126_500), (KEYS, 1_000)):
            machine = self.machine(words)
            turns = range(first, first + TURNS)
            for address in self.changed_in(machine, turns, chance):
                lines = [f"mem {it} {address:o} 1" for it in range(first, turns.stop + 1)]
                values = list(machine.single_words(lines))
                wanted = [it for it in zip(turns, values, values[1:]) if it[1] != it[2]]
                line = f"changes {address:o} from {first} to {turns[-1]}"
                found, said = self.shown(line, words)
                self.assertEqual(found, wanted[:SHOWN], line)
                self.assertEqual(said.startswith("cut after 256"), len(wanted) > SHOWN)
                compared += len(found)
        self.assertGreater(compared, 10)

    def changed_in(self, machine: Machine, turns: range, chance: random.Random) -> list[int]:
        """Some words of core that aren't the same in all of these turns."""
        changed = []
        for block in range(0, 0o60000, 512):
            looks = [machine.words(it, block, 256) for it in turns[::200]]
            differ = [len(set(values)) > 1 for values in zip(*looks)]
            changed += [block + 2 * at for at, differs in enumerate(differ) if differs]
        return chance.sample(changed, min(4, len(changed)))

    def test_words_of_the_drive(self) -> None:
        machine = self.machine(LEDGER)
        turns = range(126_000, 129_000)
        lines = [machine.disk_line(it, 0, 0) for it in range(turns.start, turns.stop + 1)]
        values = list(machine.single_words(lines))
        wanted = [it for it in zip(turns, values, values[1:]) if it[1] != it[2]]
        self.assertEqual([it[1:] for it in wanted], [(0o130, 0o136), (0o136, 0o132)])
        found, said = self.shown("changes disk 0 from 126000 to 128999", LEDGER)
        self.assertEqual(found, wanted)
        self.assertEqual(said, "2 changes in the turns 126000 to 128999")

    def test_writes_of_the_same_word_are_counted(self) -> None:
        machine = self.machine(LEDGER)
        found, said = self.shown("changes 30000 to 130000", LEDGER)
        count = int(machine.read("writes 0 130001 30000").splitlines()[0].split()[1])
        same = count - len(found)
        self.assertGreater(same, 0)
        wanted = f"{len(found)} changes in the turns 0 to 130000; {same} writes {LEFT}"
        self.assertEqual(said, wanted)

    def test_a_list_that_is_cut_goes_on(self) -> None:
        """A loop of two turns that counts in word 2000: INC @#2000 and BR back to it."""
        past = "core 1000 5237\ncore 1002 2000\ncore 1004 775\n"
        written = self.explore(f"{past}changes 2000 to 599\n").splitlines()[3:]
        self.assertEqual(len(written), SHOWN + 3)
        self.assertEqual(written[-1], "cut after 256 changes; on: changes 2000 from 511 to 599")
        line = written[-1].partition("on: ")[2]
        further = self.explore(f"{past}{line}\n").splitlines()[3:]
        self.assertEqual(further[0], "before turn 511 core 002000 is 000400")
        self.assertEqual(further[-1], f"44 changes in the turns 511 to 599; 0 writes {LEFT}")
        whole = self.explore(f"{past}changes 2000 to 511\n").splitlines()
        self.assertEqual(whole[-1], f"256 changes in the turns 0 to 511; 0 writes {LEFT}")

    def test_virtual_addresses(self) -> None:
        where = "from 127000 to 128000"
        written = self.explore(f"changes user 20000 {where}\n", *LEDGER).splitlines()
        self.assertEqual(written[0], "user 020000 is 030000 before turn 127000")
        in_core = self.explore(f"changes 30000 {where}\n", *LEDGER).splitlines()
        self.assertEqual(written[1:], in_core)

    def rows(self, written: str) -> list[tuple[int, ...]]:
        """The rows of a range: turn, place, and words; the last line is left out."""
        lines = written.splitlines()[1:-1]
        rows = (it.split("  cpu")[0].split("  disk")[0].split() for it in lines)
        return [(int(turn), *(int(it, 8) for it in words)) for turn, *words in rows]

    def test_words_of_a_range(self) -> None:
        """Against the words before each turn, and for writes against each word by itself."""
        for words, first, begin in ((LEDGER, 126_500, 0o766), (KEYS, 1_000, 0o770)):
            machine, end = self.machine(words), begin + 0o12
            turns = range(first, first + TURNS)
            values = [machine.words(it, begin, 6) for it in (*turns, turns.stop)]
            wanted = [
                (turn, begin + 2 * at, *pair)
                for turn, before, after in zip(turns, values, values[1:])
                for at, pair in enumerate(zip(before, after))
                if pair[0] != pair[1]
            ]
            where = f"{begin:o}..{end:o} from {first} to {turns[-1]}"
            written = self.explore(f"changes {where}\n", *words)
            cut = self.rows(written)
            self.assertEqual(cut, wanted[: len(cut)])
            self.assertGreaterEqual(len(cut), min(SHOWN, len(wanted)))
            writes = sorted(
                (int(turn), address, int(word, 8))
                for address in range(begin, end + 1, 2)
                for turn, _, word in self.writes_of(machine, turns, address)
            )
            written = self.explore(f"writers {where}\n", *words)
            cut = self.rows(written)
            self.assertEqual(cut, writes[: len(cut)])
            on = written.rpartition("; on: ")[2]
            if len(cut) < len(writes):
                self.assertNotEqual(cut[-1][0], writes[len(cut)][0])
                further = self.rows(self.explore(on, *words))
                self.assertEqual(further, writes[len(cut) :][: len(further)])

    def writes_of(self, machine: Machine, turns: range, address: int) -> list[list[str]]:
        found, left = list[list[str]](), turns
        while left:
            lines, left = machine.writes(left, address)
            found += [it.split() for it in lines]
        return found

    def test_words_of_the_drive_in_a_range(self) -> None:
        """A program writes 2, then 1 words of core to sector 0, and 300 words to sector 1."""
        words: list[int] = [0o5237, 0o2000]
        for count, core, sector in ((2, 0o2000, 0), (1, 0o2002, 0), (300, 0o1000, 1)):
            words += [0o12737, 0o200000 - count, 0o177406, 0o12737, core, 0o177410]
            words += [0o12737, sector, 0o177412, 0o12737, 3, 0o177404]
            words += [0o105737, 0o177404, 0o100375]
        past = "".join(f"core {0o1000 + 2 * at:o} {it:o}\n" for at, it in enumerate([*words, 0]))
        past += "core 2002 7\ndisk 1 5\ndisk 1000 6\n"
        asked = "".join(f"dsk {it} 0 256\ndsk {it} 400 256\ndsk {it} 1000 2\n" for it in range(90))
        replies = self.explore(past + asked).splitlines()[len(past.splitlines()) :]
        parts = [[int(it, 8) for it in line.split()[1:]] for line in replies]
        states = [a + b + c for a, b, c in zip(parts[::3], parts[1::3], parts[2::3])]
        wanted = [
            (turn, at, *pair)
            for turn, (before, after) in enumerate(zip(states, states[1:]))
            for at, pair in enumerate(zip(before, after))
            if pair[0] != pair[1]
        ]
        self.assertEqual(wanted[0][1:], (0, 0, 1))
        written = self.explore(f"{past}changes disk 0..1001 to 88\n")
        rows = self.rows("\n".join(written.splitlines()[len(past.splitlines()) :]))
        self.assertEqual(rows, wanted)
        some = self.explore(f"{past}changes disk 1..402 to 88\n")
        rows = self.rows("\n".join(some.splitlines()[len(past.splitlines()) :]))
        self.assertEqual(rows, [it for it in wanted if 1 <= it[1] <= 0o402])

    def test_what_is_refused(self) -> None:
        refused = (
            ("changes", "changes: the form is: changes A "),
            ("changes 1", "changes: mem 0 1 1: refused 3 OddAddress"),
            ("changes 777777", "changes: 777777 is odd"),
            ("changes 777000", "changes: 777000 is no register's address"),
            ("changes 777774..777776", "refused 2 OutsideCore"),
            ("changes disk 4604000", "changes: dsk 0 4604000 1: refused 4 OutsideDisk"),
            ("changes disk 1 0", "changes: version 1 has one drive, which isn't named"),
            ("changes 30000 from 5 to 4", "changes: turn 4 comes before turn 5"),
            ("changes 30000 from 1000000000", "changes: turn 1000000000 is the end of the run"),
            ("changes NOWHERE", "changes: there is no symbol 'NOWHERE'"),
            ("changes 5..3", "changes: a range has 1 to 4096 words, and this one has 0"),
            ("changes disk 0..10000", "a range has 1 to 4096 words, and this one has 4097"),
            ("changes 757776 2", "refused 2 OutsideCore"),
            ("writers", "writers: the form is: writers A[..B] [from N] [to M]"),
            ("writers 1..3", "refused 3 OddAddress"),
        )
        written = self.explore("".join(f"{it}\n" for it, _ in refused)).splitlines()
        for line, (_, said) in zip(written, refused):
            self.assertIn(said, line)
        self.assertEqual(len(written), len(refused))
