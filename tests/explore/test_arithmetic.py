"""Expressions of gdb against Python's, and counted steps against steps one by one."""
import random

from nezdrab.core.errors import ExploreError
from nezdrab.shell.prompt import Prompt

from .machines import LEDGER, OnMachine
from .terminal import AtTerminal

TURN, WORD, DEEPEST = 3_000, 0o177777, 3
# Python ranks these as C does, and their results are the same in 16 bits, however wide the others.
SIGNS = ("+", "-", "*", "&", "|", "^")
FORMATS = {
    **{"p/x 177777": "177777 is 0xffff", "p/d 177777": "177777 is -1", "p/u 177777": "65535"},
    **{"p/o 12": "12 is 012", "p/t 12": "12 is 1010", "p/z 12": "0x000a", "p/c 101": "65 'A'"},
    **{"print 17/3": "000005, decimal 5", "p 17%4": "3", "output 100 >> 3": "10", "p 1<<4": "20"},
    **{"p -1/2": "077777", "p (1": "", "p 1 2": "", "p &5": "", "p $r9": "", "p 5 +": ""},
}


class Expressions(OnMachine):
    def setUp(self) -> None:
        super().setUp()
        self.prompt = Prompt(self.explorer(LEDGER))
        (self.folder / "names").write_text("1520 TASK\n1524 HEAD\n")
        for line in (f"symbols {self.folder}/names", f"show {TURN}"):
            list(self.prompt.lines(line))

    def operand(self, chance: random.Random) -> tuple[str, int]:
        """A text, and its value by the program's replies."""
        machine = self.prompt.explorer.machine
        registers = machine.registers(TURN).words
        number, place = chance.randrange(0o1000), 0o1000 + 2 * chance.randrange(200)
        name = chance.choice([*registers])
        return chance.choice(
            (
                (f"{number:o}", number),
                (f"{number:#x}", number),
                (f"${name.lower()}", registers[name]),
                (f"*{place:o}", machine.word(TURN, place)),
                ("TASK", machine.word(TURN, 0o1520)),
                ("&HEAD", 0o1524),
                (f"~{number:o}", ~number),
                (f"-{number:#X}", -number),
            )
        )

    def expression(self, chance: random.Random, depth: int) -> tuple[str, str]:
        """A text, and one of Python with the same value."""
        if depth == 0 or depth < DEEPEST and chance.random() < 0.2:
            text, value = self.operand(chance)
            return text, f"({value})"
        parts = [self.expression(chance, depth - 1) for _ in range(2)]
        sign, space = chance.choice(SIGNS), chance.choice(("", " "))
        text, python = (f"{one}{space}{sign}{space}{two}" for one, two in zip(*parts))
        return (f"({text})", f"({python})") if chance.random() < 0.3 else (text, python)

    def test_values(self) -> None:
        chance, compared = random.Random(11), 0
        for _ in range(300):
            text, python = self.expression(chance, DEEPEST)
            if len(text) > 100:
                continue
            value = eval(python) & WORD  # of numbers and signs that were made above
            (said,) = self.prompt.lines(f"p {text}")
            self.assertTrue(said.startswith(f"{text} is {value:06o}, decimal {value}"), said)
            self.assertEqual(said.endswith(f", before turn {TURN}"), "before" in said)
            compared += 1
        self.assertGreater(compared, 200)

    def test_formats_and_what_is_none(self) -> None:
        for line, wanted in FORMATS.items():
            if wanted:
                (said,) = self.prompt.lines(line)
                self.assertIn(wanted, said, line)
            else:
                with self.assertRaises(ExploreError, msg=line):
                    list(self.prompt.lines(line))


class Steps(OnMachine):
    def test_counted_steps_are_steps(self) -> None:
        """Each as often as its number, against the same moves one by one."""
        chance, prompts = random.Random(2), [Prompt(self.explorer(LEDGER)) for _ in range(2)]
        for prompt in prompts:
            for line in ("break 1164", "show 5000"):
                list(prompt.lines(line))
        turns = set[int]()
        for word, own in 3 * (("n", "over"), ("c", "continue"), ("rn", "reverse-over"),
                              ("rc", "reverse-continue"), ("s", "step"), ("rs", "back")):
            count = chance.randint(2, 5)
            list(prompts[0].lines(f"{word} {count}"))
            for _ in range(count):
                list(prompts[1].lines(own))
            self.assertEqual(prompts[0].explorer.turn, prompts[1].explorer.turn, (word, count))
            turns.add(prompts[0].explorer.turn)
        self.assertGreater(len(turns), 6)

    def test_fewer_than_that(self) -> None:
        prompt = Prompt(self.explorer(edits=["core 1000 12700", "core 1002 5", "core 1004 0"]))
        for line in ("break 1004", "show 0"):
            list(prompt.lines(line))
        self.assertEqual(
            list(prompt.lines("continue 2 to 50")), ["breakpoints hold at 1 of the turns 1 to 50"]
        )
        self.assertEqual(prompt.explorer.turn, 0)
        for line in ("continue 0", "over 0", "reverse-over 0", "reverse-continue 0"):
            with self.assertRaises(ExploreError, msg=line):
                list(prompt.lines(line))


class Terminal(AtTerminal):
    def test_as_a_user_of_gdb_types(self) -> None:
        self.begin("examples/who-wrote-this-word.session")
        self.type("p 5\n")
        self.wait_for(b"5 is 000005, decimal 5")
        self.type("s 3\n")
        self.wait_for(b"before turn 3: ")
        self.type("\n")
        self.wait_for(b"before turn 6: ")
        self.type("n 3\n")
        self.wait_for(b"before turn 9: ")
        self.type("p/x $r0 + 1\n")
        self.wait_for(b"before turn 9")
        self.type("x/8 1000\n")
        self.wait_for(b"001000  012706")
        self.end()
