"""`diff` against each word of core and of the disk."""
import random
from unittest import mock

from nezdrab.core.all_words import core_words, drive_image
from nezdrab.core.engine import Refused

from .systems import LEDGER, SYSTEMS, TOP, OfSystems


class Differences(OfSystems):
    def test_core_against_each_word(self) -> None:
        chance = random.Random(63)
        for words, turns in SYSTEMS:
            machine = self.machine(words)
            pair = (chance.randrange(turns), chance.randrange(turns))
            for first, last in ((0, turns), pair):
                lines = self.explore(f"diff {first} {last}\n", *words).splitlines()
                wanted = []
                for at in range(0, TOP, 512):
                    old, new = (machine.words(it, at, 256) for it in (first, last))
                    wanted += [
                        (at + 2 * number, *pair)
                        for number, pair in enumerate(zip(old, new))
                        if pair[0] != pair[1]
                    ]
                rows = [it.split() for it in lines[1:-1]]
                self.assertEqual([tuple(int(it, 8) for it in row[:3]) for row in rows], wanted)
                self.assertEqual(int(lines[-1].split()[0]), len(wanted))
                for place, *_, turn, writer in rows:
                    write = machine.last(max(first, last), int(place, 8))
                    self.assertEqual((turn, writer), write and (str(write.turn), write.writer))

    def test_the_disk_against_each_word(self) -> None:
        """All words that a transfer can have reached; the turns are those of a write."""
        machine = self.machine(LEDGER)
        lines = self.explore("diff 128066 128067 disk\ndiff 238000 9 disk\n", *LEDGER)
        wanted = ""
        for first, last in ((128_066, 128_067), (238_000, 9)):
            wanted += f"disk     {first:<10}  {last}\n"
            for at in range(0o2000):
                old, new = (machine.disk_word(it, 0, at) for it in (first, last))
                wanted += f"{at:07o}  {old:06o}      {new:06o}\n" if old != new else ""
            wanted += "1 word of drive 0 differs\n"
        self.assertEqual(lines, wanted)

    def test_two_pasts_against_each_word(self) -> None:
        machine, turn = self.machine(LEDGER), 138_071
        edit = "alter 15 126820 key 66"
        lines = self.explore(f"{edit}\ncompare at {turn}\n", *LEDGER).splitlines()[1:]
        self.assertEqual(lines[0], f"without | with: {edit}")
        before = core_words(machine, turn), drive_image(machine, turn, 0)
        machine.ask(edit)
        after = core_words(machine, turn), drive_image(machine, turn, 0)
        self.assertEqual(before[1], after[1])
        wanted = [(2 * at, *it) for at, it in enumerate(zip(before[0], after[0])) if it[0] != it[1]]
        rows = [it.split() for it in lines[2:-2]]
        self.assertEqual([tuple(int(it, 8) for it in row[:3]) for row in rows], wanted)
        self.assertEqual(lines[-2], f"{len(wanted)} words of core differ")
        self.assertEqual(lines[-1], "no other word of core or of a drive differs")

    def test_drives_of_two_pasts(self) -> None:
        lines = "version 2\ndisk 3 5 6\ncompare at 9\nundo\ncompare at 9\n"
        said = ["without | with: disk 3 5 6", "disk     without     with"]
        said += ["0000005  000000      000006", "1 word of drive 3 differs"]
        written = self.explore(lines, "examples/lost-update.session").splitlines()
        self.assertEqual(written[2:7], [*said, "no other word of core or of a drive differs"])
        none = "no word of core or of a drive differs"
        self.assertEqual(written[-2:], ["without | with: version 2", none])

    def test_no_more_than_256_are_shown(self) -> None:
        """A program that counts in each word: MOV #2000,R0; INC (R0)+; BR .-2."""
        counting = "".join(
            f"core {0o1000 + 2 * at:o} {it}\n"
            for at, it in enumerate(("12700", "2000", "5220", "776"))
        )
        lines = self.explore(f"{counting}diff 0 1000\ndiff 0 513\n").splitlines()[4:]
        self.assertEqual(lines[257], "500 words of core differ; the first 256 are shown")
        self.assertEqual(lines[256], "002776   000000      000001      turn 511 cpu")
        self.assertEqual(lines[-1], "256 words of core differ")
        self.assertEqual(len(lines), 2 * 258)

    def test_a_drive_of_version_2(self) -> None:
        session = "examples/copy-of-a-pack.session"
        lines = self.explore("diff 0 500 disk 2\ndiff 0 500 disk 8\n", session)
        self.assertIn("disk     0           500\n0000000  000000      000110\n", lines)
        self.assertIn(" words of drive 2 differ\ndiff: the form is: ", lines)
        refused = self.explore("diff 0 5 disk 2\n")
        self.assertTrue(refused.startswith("diff: version 1 has one drive"))

    def test_a_refusal_is_named(self) -> None:
        machine = self.machine(LEDGER)
        self.assertEqual(machine.setup.units, 31)  # which is kept from then on
        refused = mock.Mock(side_effect=lambda lines, _: ["refused 1 NoMemory"] * len(lines))
        with mock.patch.object(machine, "ask_all", refused):
            said = "mem 5 0 256: refused 1 NoMemory"
            self.assertRaisesRegex(Refused, said, core_words, machine, 5)
            said = "dsk 5 0 256: refused 1 NoMemory"
            self.assertRaisesRegex(Refused, said, drive_image, machine, 5, 0)
