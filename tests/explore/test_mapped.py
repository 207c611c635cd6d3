"""Virtual addresses in lines that take an address of core."""
import random
import re

from nezdrab.core.replies import Mode

from .systems import LEDGER, OfSystems


class Mapped(OfSystems):
    """`user A` and `kernel A` in lines that take an address of core."""

    def test_they_reply_as_with_the_address_of_core(self) -> None:
        chance, machine = random.Random(64), self.machine(LEDGER)
        lines, wanted = "", ""
        for _ in range(12):
            turn, mode = chance.randrange(300, 238_000), chance.choice(("user", "kernel"))
            at = chance.choice((0, 0o1520, 0o2000, 0o20000, 0o20002, 0o27776))
            line = chance.choice(("last {} {}", "writes {} 238100 {}", "next {1} from {0}"))
            line = chance.choice((line, "first core {1} = 0 from {0} to 238000"))
            line = chance.choice((line, "why {1} at {0} steps 9"))
            (place,) = machine.places([(turn, Mode(mode), at)])
            typed = f"{line.format(turn, f'{mode} {at:o}')}\n"
            if place is None:
                said = f"{mode} {at:06o} is no address of core before turn {turn}: "
                self.assertIn(said, self.explore(typed, *LEDGER))
                continue
            lines += f"regs 0\n{typed}"
            wanted += f"regs 0\n# {mode} {at:06o} is {place:06o} before turn {turn}\n"
            wanted += f"{line.format(turn, f'{place:o}')}\n"
        self.assertGreater(wanted.count("# "), 5)
        expected = self.explore(wanted, "--echo", *LEDGER)
        self.assertEqual(
            self.explore(lines, *LEDGER),
            re.sub("^explore> .*\n", "", expected, flags=re.M).replace("# ", ""),
        )

    def test_without_from_it_is_the_current_turn(self) -> None:
        written = self.explore("show 127000\nnext user 20000 to 5000\n", *LEDGER).splitlines()
        self.assertEqual(written[-2], "user 020000 is 030000 before turn 127000")

    def test_what_is_refused(self) -> None:
        refused = (
            ("last 300 user 60000", "last: user 060000 is no address of core before turn 300: "),
            ("last 300 kernel 160000", "refused 2 OutsideCore"),
            ("last 300 user 1", "refused 3 OddAddress"),
            ("last 300 user 200000", "last: 200000 is more than a virtual address, 177777"),
            ("last 300 user NOWHERE", "last: there is no symbol 'NOWHERE'"),
            ("last 9999999999 user 0", "last: turn 9999999999 is above 1000000000"),
            ("last 300 user", "refused 10 BadLine"),
            ("next user 0 from", "next: the form is: "),
            ("why user 60000 at 300", "why: user 060000 is no address of core before turn 300: "),
            ("why user 0 from 5", "why: the form is: "),
            ("next kernel from 5", "next: there is no symbol 'kernel'"),
        )
        written = self.explore("".join(f"{line}\n" for line, _ in refused), "--echo", *LEDGER)
        parts = re.split("^explore> .*\n", written, flags=re.M)[1:]
        for part, (line, said) in zip(parts, refused):
            self.assertIn(said, part, line)

    def test_why_takes_the_turn_of_at(self) -> None:
        """A deposit of clerk A, whose page is at 30000, and then of clerk B."""
        lines = "why user 20000 at 127851 steps 1\nshow 127421\nwhy user 20000 steps 1\n"
        written = self.explore(lines, *LEDGER).splitlines()
        begin = written.index("user 020000 is 030000 before turn 127851")
        self.assertEqual(written[begin + 1], "core 030000 before turn 127851: 000132")
        self.assertIn("core 040000 before turn 127421: 000136", written)

    def test_symbols_are_those_of_the_mode(self) -> None:
        lines = "symbols examples/ledger/user.sym user\nlast 300 {0} CLERK+2\nnext {0} CLERK\n"
        self.assertIn("user 000002 is 020002 before ", self.explore(lines.format("user"), *LEDGER))
        written = self.explore(lines.format("kernel"), *LEDGER)
        self.assertEqual(written.count("there is no symbol 'CLERK'"), 2)
