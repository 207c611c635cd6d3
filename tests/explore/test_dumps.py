"""`dump` against each word as the program replies it."""
import random
import re
from typing import Iterator, Optional

from nezdrab.analysis.dump import Words
from nezdrab.core.replies import Mode

from .systems import LEDGER, SYSTEMS, TOP, OfSystems


def unfolded(lines: list[str], step: int) -> Iterator[tuple[int, Optional[int]]]:
    """The address and the word of each word of a dump in octal."""
    at, before, is_folded = 0, [""], False
    for line in lines:
        if line == "*":
            is_folded = True
            continue
        place, *words = line.split()
        while is_folded and at < int(place, 8):
            yield from rows_of(at, before, step)
            at += step * len(before)
        at, before, is_folded = int(place, 8), words, False
        yield from rows_of(at, words, step)
        at += step * len(words)


def rows_of(at: int, words: list[str], step: int) -> Iterator[tuple[int, Optional[int]]]:
    for number, word in enumerate(words):
        yield at + step * number, None if word == "------" else int(word, 8)


class Dumps(OfSystems):
    def dumped(self, words: tuple[str, ...], lines: list[str]) -> list[list[str]]:
        """What each line shows, which ends where the next begins."""
        marked = "".join(f"{it}\nregs 0\n" for it in lines)
        parts = re.split(r"^R0 .*\n", self.explore(marked, *words), flags=re.M)[:-1]
        self.assertEqual(len(parts), len(lines))
        return [it.splitlines() for it in parts]

    def test_core_and_disk_are_the_words_of_mem_and_dsk(self) -> None:
        chance = random.Random(61)
        for words, turns in SYSTEMS:
            machine = self.machine(words)
            asked = [
                (chance.randrange(turns), 2 * chance.randrange(0o10000), chance.randrange(1, 700))
                for _ in range(7)
            ]
            asked.append((turns, 0, 4096))  # with several parts of equal lines
            of_core = [f"dump {at:o} {count} octal at {turn}" for turn, at, count in asked]
            of_disk = [f"dump disk {at:o} {count} at {turn}" for turn, at, count in asked]
            shown = self.dumped(words, of_core + of_disk)
            for (turn, at, count), core, disk in zip(asked, shown[: len(asked)], shown[8:]):
                there = range(at, at + 2 * count, 2)
                words_there = machine.single_words([f"mem {turn} {it:o} 1" for it in there])
                self.assertEqual(list(unfolded(core, 2)), list(zip(there, words_there)))
                there = range(at, at + count)
                words_there = machine.single_words([f"dsk {turn} {it:o} 1" for it in there])
                self.assertEqual(list(unfolded(disk, 1)), list(zip(there, words_there)))

    def test_words_without_a_reason_part_those_that_have_it(self) -> None:
        why = {0o20: "odd", 0o22: "odd", 0o24: "even", 0o26: "odd", 0o32: "odd", 0o34: "odd"}
        said = ["000020 to 000022: odd", "000024: even", "000026: odd", "000032 to 000034: odd"]
        self.assertEqual(list(Words(6, 2, why=why).unread()), said)

    def test_virtual_words_are_where_translate_says(self) -> None:
        """Pages that are there, end, or aren't there, and the devices."""
        chance, machine = random.Random(62), self.machine(LEDGER)
        begins = (0, 0o17700, 0o20000, 0o27700, 0o37700, 0o157700, 0o160000, 0o172200, 0o177400)
        asked = [
            (chance.randrange(200, 238_000), mode, at)
            for mode in (Mode.KERNEL, Mode.USER)
            for at in begins
        ]
        lines = [f"dump {mode.value} {at:o} 300 at {turn}" for turn, mode, at in asked]
        seen: set[bool] = set()
        for (turn, mode, at), shown in zip(asked, self.dumped(LEDGER, lines)):
            rows = [it for it in shown if re.match(r"\*|[0-7]{6}  ", it)]
            there = range(at, min(at + 600, 0o200000), 2)
            translated = list(machine.places([(turn, mode, it) for it in there]))
            places = [it for it in translated if it is not None and it < TOP]
            read = machine.single_words([f"mem {turn} {it:o} 1" for it in places])
            words: dict[Optional[int], int] = dict(zip(places, read))
            wanted = [(it, words.get(place)) for it, place in zip(there, translated)]
            self.assertEqual(list(unfolded(rows, 2)), wanted)
            said = [re.findall("[0-7]{6}", it.split(":")[0]) for it in shown if ": " in it]
            unread = {
                at for ends in said for at in range(int(ends[0], 8), int(ends[-1], 8) + 2, 2)
            }
            self.assertEqual(unread, {at for at, word in wanted if word is None})
            self.assertEqual("the addresses end at 177776" in shown, len(there) < 300)
            seen |= {word is None for _, word in wanted}
        self.assertEqual(seen, {True, False})
