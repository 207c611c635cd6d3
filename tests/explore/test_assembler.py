"""The one-line assembler: against the disassembler, and against SIMH."""
import random
import re
import subprocess
import unittest
from typing import Sequence

from nezdrab.analysis.assembler import instruction_text
from nezdrab.analysis.disassembly import Disassembler
from nezdrab.core.errors import ExploreError
from nezdrab.core.replies import Mode
from nezdrab.core.symbol_files import Symbol, symbol_file
from nezdrab.core.symbols import Symbols

from . import opcodes
from .explore_case import BUILT, SECONDS, Case
from .installed import SIMH

NAMES = {"LOOP": 0o1004, "SP0": 0o177776, "_main": 0o20, "a.b$": 7}


def symbol(name: str) -> int:
    if name not in NAMES:
        raise ExploreError(f"there is no symbol '{name}'")
    return NAMES[name]


def made(text: str, address: int = 0o1000) -> str:
    return instruction_text(text, address, symbol)


def instructions(taken: Sequence[Sequence[int]]) -> list[tuple[str, int, list[int]]]:
    """What the disassembler shows as an instruction of what is given, an address and three words
    each: the text, the address, and the words that it takes."""
    ended = subprocess.run(
        [BUILT.disassembler],
        input="".join(f"{' '.join(f'{it:o}' for it in numbers)}\n" for numbers in taken),
        capture_output=True,
        text=True,
        timeout=SECONDS,
    )
    found = []
    for (address, *words), line in zip(taken, ended.stdout.splitlines()):
        count, _, text = line.partition(" ")
        if not text.startswith(".WORD"):
            found.append((text, address, words[: int(count)]))
    return found


class WithTheProgram(Case):
    def setUp(self) -> None:
        super().setUp()
        self.disassembler = Disassembler(BUILT.disassembler)
        self.addCleanup(self.disassembler.close)

    def words(self, text: str, address: int = 0o1000) -> list[int]:
        return self.disassembler.assembled(address, made(text, address))


class OfAListing(WithTheProgram):
    """The source of a program, beside the words that are its own."""

    LINE = re.compile(r"([0-7]{6})  ((?:[0-7]{6} ?)+) +(?:\w+:)? +([A-Z]+\b(?!:).*)")

    def test_each_instruction_of_the_ledger(self) -> None:
        text = (self.folder / "examples/ledger/ledger.lst").read_text()
        symbols = Symbols()
        last = Symbol("LAST", 0o1624)  # which stands in a line without an address
        symbols.take([*symbol_file(text).symbols, last], [Mode.KERNEL])
        count = 0
        for address, words, source in self.LINE.findall(text):
            at = int(address, 8)
            found = self.disassembler.assembled(at, instruction_text(source, at, symbols.number))
            self.assertEqual(found, [int(it, 8) for it in words.split()], source)
            count += 1
        self.assertGreater(count, 130)


class AllWords(unittest.TestCase):
    """Each word that the disassembler shows as an instruction. No two have one text."""

    COUNT = sum(len(opcodes.words_of(it)) for it, _ in opcodes.rows()) + 31  # of condition codes

    def inverse(self, address: int, first: int, second: int) -> None:
        found = instructions([(address, word, first, second) for word in range(0o200000)])
        self.assertEqual(len(found), self.COUNT)
        self.assertEqual(len({text for text, _, _ in found}), len(found))
        self.assertEqual([text for text, at, _ in found if made(text, at) != text], [])

    def test_all_words(self) -> None:
        self.inverse(0o1000, 0o10, 0o177777)

    def test_all_words_where_addresses_wrap(self) -> None:
        self.inverse(0o177774, 0o100000, 0o21)

    def test_all_words_at_0(self) -> None:
        self.inverse(0, 0o177776, 0)


class OfTheProgram(unittest.TestCase):
    """`disassemble --assemble`, which takes back what the program shows."""

    def replies(self, lines: Sequence[str]) -> list[str]:
        ended = subprocess.run(
            [BUILT.disassembler, "--assemble"],
            input="".join(f"{it}\n" for it in lines),
            capture_output=True,
            text=True,
            timeout=SECONDS,
        )
        self.assertEqual((ended.stderr, ended.returncode), ("", 0))
        return ended.stdout.splitlines()

    def inverse(self, address: int, first: int, second: int) -> None:
        found = instructions([(address, word, first, second) for word in range(0o200000)])
        replies = self.replies([f"{at:o} {text}" for text, at, _ in found])
        wanted = [" ".join(f"{it:06o}" for it in words) for _, _, words in found]
        self.assertEqual(replies, wanted)

    def test_all_words(self) -> None:
        self.inverse(0o1000, 0o10, 0o177777)

    def test_all_words_where_addresses_wrap(self) -> None:
        self.inverse(0o177774, 0o100000, 0o21)

    def test_what_it_refuses(self) -> None:
        no_text, none = "not an address and an instruction", "no instruction has this text"
        digits, large = "not a number of 1 to 6 octal digits", "a number over 177777"
        for line, said in (
            ("", no_text),
            ("1000", no_text),
            (" 1000 \t", no_text),
            ("8 NOP", digits),
            ("0001000 NOP", digits),
            ("MOV R0,R1", digits),
            ("200000 NOP", large),
            ("1000 NOP ", none),
            ("1000 nop", none),
            ("1000 CLC CLV", none),
            ("1000 MOV R0, R1", none),
            ("1000 MOV R6,R1", none),
            ("1000 MOV #005,R0", none),
            ("1000 MOV #200000,R0", none),
            ("1000 CLR @(R1)", none),
            ("1000 CLR R8", none),
            ("1000 EMT 400", none),
            ("1000 MARK 100", none),
            ("1000 BR 1001", none),
            ("1000 BR 400", none),
            ("1000 BR 1402", none),
            ("1000 SOB R0,602", none),
            ("1000 SOB R0,1004", none),
            ("1000 JSR (R1),5", none),
            ("1000 .WORD 012700", none),
        ):
            self.assertEqual(self.replies([line]), [f"bad line: {said}"], line)

    def test_directives(self) -> None:
        lines = ["  1000 \t.WORD 075000", "1000 .WORD 000260", "1000 .WORD 177777"]
        self.assertEqual(self.replies(lines), ["075000", "000260", "177777"])


class Typed(WithTheProgram):
    """What the disassembler writes in another way, and what is no instruction."""

    def test_other_texts(self) -> None:
        for typed, text in (
            ("mov r0,(sp)", "MOV R0,(SP)"),
            ("MOV \t R6 , @R7 ; what follows, is a comment", "MOV SP,(PC)"),
            ("NOP ;", "NOP"),
            ("EMT ; 5", "EMT 0"),
            ("CLR @(R1)", "CLR @0(R1)"),
            ("INC -2(R5)", "INC 177776(R5)"),
            ("TST 4(PC)", "TST 1010"),
            ("CMP #10.,@#-1", "CMP #12,@#177777"),
            ("ADD #5+10-2.,-(R0)", "ADD #13,-(R0)"),
            ("BHIS .", "BCC 1000"),
            ("BLO .+4", "BCS 1004"),
            ("SOB R3,.-100", "SOB R3,700"),
            ("EMT", "EMT 0"),
            ("TRAP 255.", "TRAP 377"),
            ("clc!clv", "CLV CLC"),
            ("SEC | SEN", "SEN SEC"),
            ("SEC SEV SEZ SEN", "SCC"),
            ("CLC NOP", "CLC"),
            ("BNE LOOP", "BNE 1004"),
            ("MOVB @LOOP+2(R2),_main-10.", "MOVB @1006(R2),6"),
            ("BIS #SP0+1,@a.b$", "BIS #177777,@7"),
            ("CMPB #'A,'b(R1) ; 'c", "CMPB #101,142(R1)"),
            ("MOV #\"ab+1,R0", "MOV #61142,R0"),
            ("CMP #';,#',", "CMP #73,#54"),
            ("CMP #'',#\"' ", "CMP #47,#20047"),
            ("MOV -'\"(%1),@%6", "MOV 177736(R1),(SP)"),
            ("SOB %5,.", "SOB R5,1000"),
            ("call @LOOP", "JSR PC,@1004"),
            ("RETURN ; from it", "RTS PC"),
            ("1$: SOB R0,1$", "SOB R0,1000"),
            ("Here:: 20$:BR here+2", "BR 1002"),
        ):
            self.assertEqual((made(typed), made(text)), (text, text), typed)

    def test_the_ends_of_targets(self) -> None:
        for text, word in (
            ("BR 402", 0o600),
            ("BR 1400", 0o577),
            ("SOB R0,604", 0o77077),
            ("SOB R0,1002", 0o77000),
        ):
            self.assertEqual(self.words(text), [word])
        self.assertEqual(self.words("BR 177602", 0o200), [0o600])

    def test_faults(self) -> None:
        far = "the target {} is too far: from 1000 this instruction reaches {}"
        for text, said in (
            ("BR 400", far.format("400", "402 to 1400")),
            ("BEQ 1402", far.format("1402", "402 to 1400")),
            ("SOB R1,602", far.format("602", "604 to 1002")),
            ("SOB R1,1004", far.format("1004", "604 to 1002")),
            ("BR LOOP+1", "the target 1005 is odd"),
            ("BR (R0)", "'(R0)' is no number and no symbol"),
            ("BR NOWHERE", "there is no symbol 'NOWHERE'"),
            ("MOV #X,R0", "there is no symbol 'X'"),
            ("FADD R1", "there is no instruction 'FADD' of the PDP-11/40"),
            ("MOV", "MOV takes a source and a destination, with a comma between them"),
            ("MOV #5 R0", "MOV takes a source and a destination, with a comma between them"),
            ("MOV #5,", "MOV takes a source and a destination, with a comma between them"),
            ("CLR R0,R1", "CLR takes one operand"),
            ("HALT 5", "HALT takes no operand"),
            ("MARK", "MARK takes a number"),
            ("NOP 5", "NOP takes no operand; '5' is no operator of codes"),
            ("CLC SEV", "one instruction clears condition codes or sets them, not both"),
            ("JSR (R1),5", "'(R1)' is no register: R0 to R7, SP and PC are"),
            ("ASH R1,5", "'5' is no register: R0 to R7, SP and PC are"),
            ("CLR (R8)", "'R8' is no register: R0 to R7, SP and PC are"),
            ("CLR -(R1)+", "'-(R1)+' is no operand"),
            ("CLR 5(R1)+", "'5(R1)+' is no operand"),
            ("CLR @@R1", "'@@R1' is no operand"),
            ("CLR (R1", "'(R1' is no operand"),
            ("CLR (PC)+", "'(PC)+' takes a word that isn't here: write #N"),
            ("CLR @(PC)+", "'@(PC)+' takes a word that isn't here: write @#N"),
            ("CLR R0\f", "'R0\f' is no operand"),
            ("CLR #", "a number is missing"),
            ("CLR #200000", "200000 is more than 177777"),
            ("CLR #65536.", "65536. is 200000, more than 177777"),
            ("CLR SP0+2", "SP0+2 is 200000, more than 177777"),
            ("CLR -100001(R0)", "-100001 is less than -100000, the smallest word"),
            ("EMT 400", "400 is more than 377"),
            ("MARK 100", "100 is more than 77"),
            ("TRAP -1", "-1 is 177777, more than 377"),
            ("MOV #'AB,R0", "''AB' is no number and no symbol"),
            ("MOV #5'A,R0", "'5'A' is no number and no symbol"),
            ("MOV #'A.,R0", "''A.' is no number and no symbol"),
            ('MOV #"a"b,R0', "'\"a\"b' is no number and no symbol"),
            ("CLR %8", "'%8' is no operand"),
            ("CALL", "CALL takes one operand"),
            ("RETURN R5", "RETURN takes no operand"),
            ("1$: BR 2$", "no label 2$: stands before this instruction"),
            ("1$: ; BR 1$", "the instruction is missing"),
            ("CLR #18", "18 isn't octal; the decimal number is 18."),
            ("CLR #" + "9" * 5000 + ".", "a number has 5000 digits, more than 10"),
            ("CLR \N{ARABIC-INDIC DIGIT THREE}", "an instruction has ASCII characters alone"),
        ):
            with self.assertRaises(ExploreError, msg=text) as raised:
                made(text)
            self.assertEqual(str(raised.exception), said, text)

    def test_pieces_put_together_by_chance(self) -> None:
        """Each text is an instruction of the program's, or what is wrong is said."""
        chance, count = random.Random(40), 0
        pieces = ["R0", "PC", "LOOP", "5", "9", "18.", "CLC", "'a", '"ab', "'", '"', "1$:", "%3"]
        pieces += "(()+-@@#,,.;!$%:=    "
        begins = ["MOV ", "CLR ", "1$: BR 1$", "CALL ", "SOB R1,", "BR ", "XOR R1,", "SEC ", "EMT "]
        for _ in range(20_000):
            text = chance.choice(begins) + "".join(chance.choices(pieces, k=chance.randrange(8)))
            try:
                found = made(text)
            except ExploreError:
                continue
            self.assertEqual(made(found), found, text)
            self.assertIn(len(self.disassembler.assembled(0o1000, found)), (1, 2, 3), text)
            count += 1
        self.assertGreater(count, 1000)


@unittest.skipUnless(SIMH, "SIMH's pdp11 isn't installed")
class OfSimh(Case):
    """SIMH's assembler, `deposit -m`, on the same texts."""

    def test_the_same_words(self) -> None:
        chance = random.Random(11)
        words = [[chance.randrange(0o200000) for _ in range(3)] for _ in range(600)]
        found = instructions([(0o2000, *it) for it in words])
        commands = "set cpu 11/40\n" + "".join(
            f"echo of {number}\nd -m 2000 {text}\nex 2000-2004\n"
            for number, (text, _, _) in enumerate(found)
        )
        (self.folder / "it.ini").write_text(f"{commands}quit\n")
        ended = subprocess.run(
            [str(SIMH), "it.ini"],
            cwd=self.folder,
            stdin=subprocess.DEVNULL,
            capture_output=True,
            text=True,
            timeout=SECONDS,
        )
        parts = re.split(r"^of [0-9]+$", ended.stdout, flags=re.M)[1:]
        self.assertEqual(len(parts), len(found))
        for part, (text, _, ours) in zip(parts, found):
            theirs = [int(it, 8) for it in re.findall(r"^200[024]:\s+([0-7]{6})$", part, re.M)]
            self.assertEqual(theirs[: len(ours)], ours, f"{text}: {part}")
