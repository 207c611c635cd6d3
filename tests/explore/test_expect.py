"""`expect`, and `type` after it."""
import random
import re
from typing import Optional

from nezdrab.analysis.disassembly import Disassembler
from nezdrab.analysis.explorer import Explorer
from nezdrab.analysis.finder import Finder
from nezdrab.core.engine import LAST_TURN, Machine
from nezdrab.core.errors import ExploreError
from nezdrab.core.replies import text_of
from nezdrab.shell import prompt  # noqa: F401, it adds the commands
from nezdrab.shell.command_table import COMMANDS

from .systems import KEYS, LEDGER, OfSystems

BOOT = ("--start", "2000", "--disk", "examples/moved-keys.disk", "examples/boot-rk0.session")


def by_brute_force(machine: Machine, turns: range, string: bytes) -> Optional[tuple[int, int]]:
    """The first turn after which the text from the first turn on has the string, and how long the
    text is up to the string's end."""
    before = machine.text_length(turns.start)
    lines = [f"text {turn + 1} from {before}" for turn in turns]
    for turn, reply in zip(turns, machine.read_all(lines, len(lines))):
        at = text_of(reply).find(string)
        if at >= 0:
            return turn, before + at + len(string)
    return None


class Expected(OfSystems):
    def test_it_is_the_first_turn_by_brute_force(self) -> None:
        chance, machine = random.Random(83), self.machine(KEYS)
        text = machine.text(20_000)
        printed = list(machine.printed_in(range(len(text))))
        found = 0
        for _ in range(60):
            at = chance.randrange(len(text))
            turn = max(0, printed[at] + chance.randrange(-40, 3))
            turns = range(turn, turn + chance.randrange(1, 90))
            string = text[at : at + chance.randrange(1, 5)]
            wanted = by_brute_force(machine, turns, string)
            self.assertEqual(Finder(machine).printed_in(turns, string), wanted)
            found += wanted is not None
        self.assertGreater(found, 10)
        self.assertLess(found, 45)

    def test_a_string_across_parts(self) -> None:
        """The parts in which turns are asked end within what is printed."""
        machine = self.machine(LEDGER)
        text = machine.text(200_000)
        for turn in (16_384, 16_384 * 3, 16_384 * 7):
            at = machine.text_length(turn) - 2
            string = text[at : at + 8]
            start = machine.text_length(0)
            (printed,) = machine.printed_in([text.find(string, start) + len(string) - 1])
            found = Finder(machine).printed_in(range(0, 200_000), string)
            self.assertEqual(found, (printed, text.find(string) + len(string)))


class Typed(OfSystems):
    """Lines, as a file that boots a system has them."""

    def test_a_system_boots_by_a_file(self) -> None:
        lines = (r'expect "\n* "', r'type "hello\r"', "expect KEYS", r"expect '\n* ' within 400")
        (self.folder / "boot").write_text("".join(f"{it}\n" for it in (*lines, r"type 'x\r'")))
        written = self.explore("do boot\nshow\nexpect '01 KEYS'\nscreen\n", *BOOT).splitlines()
        self.assertRegex(written[0], r"^turn \d+: byte \d+ of the text is printed, the last of ")
        self.assertEqual(written[-3:], ["05 KEYS", "* x", "01 KEYS"])
        turn = int(next(it for it in written if it.startswith("before turn ")).split()[2][:-1])
        keys = [int(it.split()[3]) for it in written if it.startswith("event ")]
        self.assertEqual(len(keys), 8)
        self.assertEqual(keys[-2], turn)  # where the prompt had been printed

    def test_type_goes_behind_events_that_lie_ahead(self) -> None:
        written = self.explore("at 9000 key 101\nexpect COUNTS\ntype x\nshow 9500\ntype y\n", *BOOT)
        self.assertRegex(written, r"event 2 at 900\d key 170")
        self.assertIn("event 3 at 9500 key 171", written)

    def test_the_next_one_looks_behind_it(self) -> None:
        """The text is COUNTS THE KEYS OF A LINE, and the second O is the last."""
        lines = "expect O\nexpect O\nexpect O within 500\nexpect E\n"
        written = self.explore(lines, *BOOT)
        printed = [int(it) for it in re.findall("byte ([0-9]+) of the text", written)]
        self.assertEqual(printed, [2, 17, 25])
        self.assertIn("'O' isn't printed in the turns 158 to 657; what is printed ", written)
        self.assertIn("; it was printed before turn 158\n", written)
        self.assertEqual(written.count("it was printed before"), 1)

    def test_what_does_not_come(self) -> None:
        lines = "show 300\nexpect nowhere within 50\nexpect nowhere within 1\nshow\n"
        written = self.explore(lines, *BOOT).splitlines()
        self.assertRegex(
            "\n".join(written),
            r"expect: 'nowhere' isn't printed in the turns 300 to 349; nothing is printed there\n"
            r"expect: 'nowhere' isn't printed in turn 300; ",
        )
        self.assertEqual(written[0], written[-6].split("   ")[0])
        written_first = self.explore("expect nowhere within 300\n", *BOOT)
        self.assertIn("; what is printed there ends with 'COUNTS", written_first)
        written = self.explore("expect x\n", "examples/first-run.session").splitlines()
        self.assertEqual(
            written,
            [
                "expect: 'x' isn't printed in the turns 0 to 99999999; nothing is printed there, "
                "and the processor is halted"
            ],
        )

    def test_odd_words(self) -> None:
        wanted = (
            ("expect", "the form is: expect TEXT [within N]"),
            ("expect x within 0", "N of within is 1 or more"),
            ("expect ''", "TEXT has no byte"),
            (r"expect \q", r"'\q' is none of"),
            ("expect a b", "a FILE or a TEXT with spaces stands in quotes"),
            ("expect \u20ac", "is no byte"),
        )
        written = self.explore("".join(f"{line}\n" for line, _ in wanted)).splitlines()
        self.assertEqual(len(written), len(wanted))
        for (_, said), shown in zip(wanted, written):
            self.assertIn(said, shown)

    def test_the_end_of_the_run(self) -> None:
        explorer = Explorer(self.machine(KEYS), Disassembler(None))
        explorer.turn = LAST_TURN
        lines = COMMANDS["expect"].lines(explorer, "x")
        self.assertRaisesRegex(ExploreError, "is the end of the run", list, lines)
