"""Words of other debuggers: each leads on to lines that can be typed."""
import re
from typing import Iterable

from nezdrab.core.errors import ExploreError
from nezdrab.core.language import FORMS, LISTS, SEARCHES
from nezdrab.shell import prompt  # which adds the commands
from nezdrab.shell.command_table import COMMANDS
from nezdrab.shell.foreign import FOREIGN, LINES_WITH_ARGUMENTS, line_of, sentence
from nezdrab.shell.prompt import Prompt

from .explore_case import ROOT, Case
from .machines import OnMachine
from .terminal import AtTerminal
from .test_calls import core

# The first lines of somebody from gdb, and of somebody from SIMH, with the line that is named.
FIRST_LINES = (
    ("break *0x200", "break 1000"),
    ("b 1000", "break 1000"),
    ("b 1000 if R0 > 5", "break 1000 if R0 > 5"),
    ("b 1000 if R0==5", "break 1000 if R0==5"),
    ("b 1000 if $r0==0x10 && (COUNT&7)==3", "break 1000 if $r0==0x10 && (COUNT&7)==3"),
    ("b 1000 if COUNT > 3", "break 1000 if COUNT > 3"),
    ("tbreak *0x200", "break 1000"),
    ("tb COUNT if R0 > 5", "break COUNT if R0 > 5"),
    ("c", "continue"),
    ("s", "step"),
    ("s 3", "step 3"),
    ("n", "over"),
    ("n 3", "over 3"),
    ("rs 2", "back 2"),
    ("rn 2", "reverse-over 2"),
    ("c 5", "continue 5"),
    ("rc 2", "reverse-continue 2"),
    ("x 0x200", "dump kernel 1000 1"),
    ("x COUNT", "dump COUNT 1"),
    ("x/4 $sp+2", "dump kernel 700 4"),
    ("bt", "calls"),
    ("where", "calls"),
    ("info registers", "show"),
    ("info break", "breakpoints"),
    ("info frame", "calls"),
    ("i f", "calls"),
    ("info symbol COUNT", "list COUNT 1"),
    ("info line", "list 1000 1"),
    ("info functions", "profile 5 9"),
    ("info variables", "symbols FILE"),
    ("info threads", "show"),
    ("x/20i $pc", "dump kernel 1020 20 instructions"),
    ("x/4xw $sp", "dump kernel 676 4"),
    ("x/2i 0x200", "dump kernel 1000 2 instructions"),
    ("p $r0", "show"),
    ("p r1", "show"),
    ("p COUNT", "dump COUNT 1"),
    ("info display", "display"),
    ("show memory", "pages 3"),
    ("display/i $pc", "display list"),
    ("display/x $r0", "display show"),
    ("display/x COUNT", "display dump COUNT 1"),
    ("display/x", "display list"),
    ("display $r0", "display show"),
    ("display r0", "display show"),
    ("disas 0x200", "list kernel 1000 16"),
    ("watch *0x400", "watch 2000"),
    ("watch $r1", "until R0 != 5"),
    ("watch r0", "until R0 != 5"),
    ("watch $sp", "until R0 != 5"),
    ("watch $pc", "until R0 != 5"),
    ("rwatch *1000", "rwatch 1000"),
    ("awatch *0x200", "rwatch 1000"),
    ("until", "over"),
    ("until *0x200", "until PC 1000"),
    ("frame", "calls"),
    ("up", "calls"),
    ("set *0x400 = 5", "core 2000 5"),
    ("set $r0=5", "core 1000 MOV R0,R1"),
    ("layout asm", "display list"),
    ("condition 1 R0 > 5", "break 1000 if R0 > 5"),
    ("next", "over"),
    ("d 1", "delete 1"),
    ("delete breakpoints", "delete"),
    ("delete breakpoints 1", "delete 1"),
    ("e 1000", "dump 1000 1"),
    ("E 1000-1020", "dump 1000 9"),
    ("e 1000/10", "dump 1000 4"),
    ("e psw", "show"),
    ("e rkcs", "devices 3"),
    ("e sr", "devices 3"),
    ("ex -m 1000-1020", "list 1000 9"),
    ("e pc", "show"),
    ("e state", "show"),
    ("d 2000 5", "core 2000 5"),
    ("dep -m 2000 MOV R0,R1", "core 2000 MOV R0,R1"),
    ("dep pc 1000", "until PC 1000"),
    ("d sr 5", "at 3 switches 5"),
    ("g 1000", "until PC 1000"),
    ("br 1000", "break 1000"),
    ("nobr", "delete N"),
    ("sh dev", "devices 3"),
    ("show cpu", "setup"),
    ("show cpu history", "see 3 20"),
    ("sh cpu hi", "see 3 20"),
    ("set cpu 40", "setup"),
    ("set cpu history=50", "see 3 50"),
    ("show history=5", "see 3 5"),
    ("history 5", "see 3 5"),
    ("goto 500", "show 500"),
    ("jump 1000", "until PC 1000"),
    ("goto COUNT", "until PC COUNT"),
    ("500", "show 500"),
    ("commands 1", "display show"),
    ("shell ls", "log FILE"),
    ("!ls", "log FILE"),
    ("record", "back"),
    ("echo hello", "# X"),
    ("apropos core", "help all"),
    ("ev 12700", "list 1000 1"),
    ('exp "X"', 'expect "X"'),
    ('send "Y"', 'type "Y"'),
    ("reset", "console from 0"),
)
DONE = ("b 1000 if R0==5", "c", "s 3", "n", "bt", "x/4xw $sp", "d 1", "e 1000/10", "d 2000 5")
COUNTED = ("n 3", "rs 2", "rn 2", "c 5", "rc 2", "x 0x200", "x/4 $sp+2", "x COUNT")
EXAMINED = ("x/20i 1000", "x/20i $pc", "x/8o 1000", "x/8b 1000", "x/5c", "x/0", "ex/4")
# What stands for the letters when a line is typed.
TYPED = {
    **{"A": "1000", "C": "3", "N": "5", "M": "9", "W": "777", "E": "1", "L": "printer"},
    **{"TEXT": "X", "STRING": "X", "WORD": "see", "NAME": "it", "LINE": "show"},
}


def lines_of(said: str) -> list[str]:
    """The lines that a sentence names."""
    return re.findall(r"`([^`]+)`", said)


class Words(Case):
    def sentences(self) -> dict[str, str]:
        examined = {it: sentence(*it.partition(" ")[::2]) for it in EXAMINED}
        return {**{word: sentence(word) for word in FOREIGN}, **examined}

    def test_each_leads_to_commands_that_exist(self) -> None:
        there = {*COMMANDS, *FORMS, *SEARCHES, *LISTS, *prompt.OWN_HELP, "#"}
        for word, said in self.sentences().items():
            self.assertTrue(lines_of(said), word)
            for line in lines_of(said):
                self.assertIn(line.split()[0], there, word)

    def test_each_is_known_at_the_prompt(self) -> None:
        said = {it: text for it, text in self.sentences().items() if it not in COMMANDS}
        said["x/20i $pc"] = "`dump kernel 1000 20 instructions`"
        written = self.explore("".join(f"{it}\n" for it in said), "--echo")
        for word, text in said.items():
            first = text if line_of(text, word) else f"{word.split()[0]}: {text}"
            self.assertIn(f"explore> {word}\n{first}\n", written)
        self.assertEqual(" ".join(self.explore("help bt\n").split()), f"bt: {said['bt']}")

    def test_lines_of_explore_and_of_the_language_stay(self) -> None:
        self.assertEqual({*FORMS, *SEARCHES, *LISTS} & set(FOREIGN), set())
        said = (
            ("run", "each turn is there already"),
            ("where disk", "where: the form is: where disk"),
            ("mem 0 1000 1", "mem 000000"),
            ("y", "refused 10 BadLine\n  there is no line 'y'"),
            ("y/3 5", "refused 10 BadLine\n  there is no line 'y/3'"),
        )
        written = self.explore("".join(f"{line}\n" for line, _ in said), "--echo")
        for line, begin in said:
            self.assertIn(f"explore> {line}\n{begin}", written)

    def test_what_has_its_form_stays(self) -> None:
        lines = ("show 0", "step 2", "delete", "next 2000 to 5", "break 1000", "watch 2000")
        written = self.explore("core 1000 777\n" + "".join(f"{it}\n" for it in lines))
        self.assertNotIn("`", written)

    def test_a_symbol_must_be_known(self) -> None:
        (self.folder / "names").write_text("001000 BEGIN\n")
        written = self.explore("b rk0\nsymbols names\nb BEGIN\nb NOWHERE\n").splitlines()
        general = f"b: {sentence('b')}"
        self.assertEqual((written[0], written[-1]), (general, general))
        self.assertEqual(written[-3], "`break BEGIN`, then `continue`")
        self.assertEqual(written[-2], "breakpoint 1: break 1000 (BEGIN)")

    def test_capital_letters_count_as_small_ones(self) -> None:
        self.assertEqual(self.explore("DEP\n"), f"DEP: {sentence('dep')}\n")

    def test_gdb_counts_bytes_and_a_dump_words(self) -> None:
        first = {it: lines_of(sentence(*it.partition(" ")[::2]))[0] for it in EXAMINED}
        self.assertEqual(first["x/20i 1000"], "dump 1000 20 instructions")
        self.assertEqual(first["x/20i $pc"], "dump A 20 instructions")
        self.assertEqual(first["x/8o 1000"], "dump 1000 8")
        self.assertEqual(first["x/8b 1000"], "dump 1000 4 bytes")
        self.assertEqual(first["x/5c"], "dump A 3 text")
        self.assertEqual(first["x/0"], "dump A 1")


# MOV #700,SP; JSR PC,1012, again and again; there MOV #130,@#TPB; RTS PC
PRINTING = "12706 700 4767 2 775 12737 130 177566 207"


class Leads(OnMachine):
    """The machine stands before turn 3, an RTS. What a letter stands for is named by the user."""

    def prompt(self) -> prompt.Prompt:
        self.put("names", "2000 COUNT\n")
        self.put("lines", "show\n")
        self.put("it.ini", "d 2000 5\n")
        made = prompt.Prompt(self.explorer(edits=core(PRINTING)))
        for line in (f"symbols {self.folder}/names", "at 20 tick", "break 1012", "show 3"):
            list(made.lines(line))
        return made

    def put(self, name: str, text: str) -> None:
        (self.folder / name).write_text(text)

    def typed(self, line: str) -> str:
        """A line with what its letters may stand for: a file is a new one, if it isn't read."""
        word = line.split()[0]
        read = {"do": "lines", "import": "it.ini", "symbols": "names"}
        read["covered"] = str(ROOT / "examples" / "ledger" / "ledger.lst")
        named = {**TYPED, "INSTRUCTION": "MOV R0,R1", **({"N": "1"} if word == "delete" else {})}
        words = re.findall(r"\w+|\W", line)
        path = str(self.folder / read.get(word, "new"))
        return "".join(path if it == "FILE" else named.get(it, it) for it in words)

    def check_taken(self, lines: Iterable[str]) -> None:
        """Each is done when it is typed. One that needs a terminal has its form."""
        for line in sorted({*lines}):
            made = self.prompt()
            try:
                list(made.lines(self.typed(line)))
            except ExploreError as error:
                self.assertEqual(line, "console from 0", error)
                self.assertEqual(str(error), "lines don't come from a terminal here")
            (self.folder / "new").unlink(missing_ok=True)

    def test_each_line_that_a_word_names_is_taken(self) -> None:
        said = [*map(sentence, FOREIGN), sentence("500")]
        said += [sentence(*it.partition(" ")[::2]) for it in EXAMINED]
        self.check_taken(line for it in said for line in lines_of(it))

    def test_each_line_that_a_first_line_names_is_taken(self) -> None:
        made, named = self.prompt(), []
        for line, first in FIRST_LINES:
            said = self.said(made, line)
            named += lines_of(said)
            typed = lines_of(said)[0]
            self.assertEqual(self.typed(typed), self.typed(first), line)
        self.check_taken(named)

    def said(self, made: Prompt, line: str) -> str:
        """The sentence about a line, whose own line isn't done here."""
        try:
            return next(iter(made.lines(line)))
        except ExploreError as error:
            return str(error)

    def test_a_line_that_is_done_shows_what_its_own_line_shows(self) -> None:
        for line in (*DONE, *COUNTED):
            (first,) = (own for it, own in FIRST_LINES if it == line)
            own = line_of(self.said(self.prompt(), line), line.partition(" ")[2])
            self.assertEqual(self.typed(own), self.typed(first), line)
            _, *shown = self.prompt().lines(line)
            self.assertEqual(shown, list(self.prompt().lines(own)), line)

    def test_what_is_no_line_is_told(self) -> None:
        """What is no expression, a register that is set."""
        told = ("p 5+", "p )", "p 5/0", "p 8", "d pc 1000", "d r0 5", "run 1000")
        for line in (*told, "jump 1000", "record", "boot rk0", "apropos x", "awatch *0x200"):
            made = self.prompt()
            before = list(made.explorer.machine.journal), made.explorer.turn
            try:
                list(made.lines(line))
                self.assertEqual(line, "run 1000")
            except ExploreError:
                self.assertEqual((made.explorer.machine.journal, made.explorer.turn), before)

    def test_a_symbol_that_nothing_has(self) -> None:
        for line in ("p NOSUCH", "x NOSUCH", "e NOSUCH", "print &NOSUCH"):
            with self.assertRaisesRegex(ExploreError, "there is no symbol 'NOSUCH'"):
                list(self.prompt().lines(line))

    def test_each_row_has_a_first_line(self) -> None:
        lines = [line.partition(" ")[::2] for line, _ in FIRST_LINES]
        for words, pattern, _ in LINES_WITH_ARGUMENTS:
            typed = [rest for word, rest in lines if word.lower() in words.split()]
            self.assertTrue(any(re.fullmatch(pattern, it, re.I) for it in typed), pattern)


class Repeated(AtTerminal):
    """An empty line at a terminal."""

    def test_it_does_the_step_before_it_again(self) -> None:
        self.begin("examples/who-wrote-this-word.session")
        for line, turn in (("s", 1), ("", 2), ("", 3), ("show 9", 9), ("back 2", 7), ("", 5)):
            self.type(f"{line}\n")
            self.wait_for(f"before turn {turn}: ".encode())
        self.type("b *0x220\n")
        self.wait_for(b"breakpoint 1: break 1040")
        self.type("\n")
        self.type("\n")
        self.type("c\n")
        self.wait_for(b"        19  kernel  001040")
        self.type("regs 0\n")
        self.wait_for(b"R0 000000")
        self.end()
