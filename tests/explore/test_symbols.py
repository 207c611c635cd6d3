"""Names of addresses: the files that have them, and where they stand for addresses."""
import random
from typing import Iterator

from nezdrab.core.symbol_files import SymbolFile, symbol_file

from .explore_case import ROOT
from .media import FAULT, Media, program, words

# A listing as MACRO-11 V5 writes it, with tabs.
LISTING = """\
HELLO\tMACRO V05.05  Thursday 14-Sep-89 12:34  Page 1


      1\t\t\t\t\t.TITLE\tHELLO
      2 \t000015 \t\t\tCR\t=\t15
      3 \t177564 \t\t\tTPS\t==\t177564
      4 000000\t\t\t\t\t.PSECT\tCODE
      5 000000 \t012700 \t000012'\tSTART::\tMOV\t#MSG,R0\t; CR = 12
      6 000004 \t004767 \t000000G\tFIRST:\tSECOND:\tJSR\tPC,OUT
      7 000010 \t000000 \t\t\tHALT
      8 000012 \t   110 \t   105 \t   114 \tMSG:\t.ASCIZ\t/HELLO/
\t000015 \t   114 \t   117 \t   000
      9 000020\t\t\t\t10$:
     10 \t000000'\t\t\t.END\tSTART
HELLO\tMACRO V05.05  Thursday 14-Sep-89 12:34  Page 1-1
Symbol table

CR    = 000015   \tFIRST   000004R    002\tMSG     000012R    002\tOUT   = ****** GX\tR0    =%000000
G     = 000001 G\tR     = 000007   \tSECOND  000004R    002\tSTART   000000RG   002
TPS   = 177564 G

. ABS.\t000000    000\t(RW,I,GBL,ABS,OVR)
      \t000000    001\t(RW,I,LCL,REL,CON)
CODE  \t000020    002\t(RW,I,LCL,REL,CON)
Errors detected:  0

*** Assembler statistics
"""
# As today's macro11 writes it: `=` marks what is absolute, and letters are small as in the source.
ABSOLUTE_LISTING = """\
       1                                        .asect
       2                                        .=1000
       3 001000 012700  000005          start:  mov #5,r0
       4 001004 000000                  a:  b:  halt
       5        177560                  tks = 177560


Symbol table

.     ******R      001  A     =001004
B     =001004           START =001000
TKS   =177560


Program sections:

. ABS.  000000    000   (RW,I,GBL,ABS,OVR,NOSAV)
        001006    001   (RW,I,LCL,REL,CON,NOSAV)
"""
MAP_OF_RT11 = """\
RT-11 LINK  V05.10 \tLoad Map\tThursday 14-Sep-89 12:34\tPage 1
TEST  .SAV   \tTitle:\tHELLO\tIdent:\tV01

Section  Addr\tSize\tGlobal\tValue\tGlobal\tValue\tGlobal\tValue

 . ABS.\t 000000\t001000 = 256.   words  (RW,I,GBL,ABS,OVR)
\t\t\t$USRSW\t000000\t.VIR  \t000002
 \t 001000\t000214 = 70.    words  (RW,I,LCL,REL,CON)
\t\t\tSTART\t001000\tPRINT\t001044
 SUBS  \t 001214\t000044 = 18.    words  (RW,I,LCL,REL,CON)
\t\t\tSUB1  \t001214\tSUB2  \t001230\tSUB3 @\t001244

Transfer address = 001000, High limit = 001256 = 343.   words
"""
MAP_OF_RSX = """\
TEST.TSK;1      Memory allocation map TKB M43.00     Page 1
                11-NOV-87   12:34

Partition name : GEN
Identification : V01
Task UIC       : [7,1]
Stack limits: 000270 001267 001000 00512.
PRG xfr address: 001270
Task address limits: 000000 001347
R-W disk blk limits: 000002 000003 000002 00002.

*** Root segment: TEST

R/W mem limits: 000000 001347 001350 00744.
Disk blk limits: 000002 000003 000002 00002.

Memory allocation synopsis:

Section                              Title  Ident  File
-------                              -----  -----  ----

. BLK.:(RW,I,LCL,REL,CON)   001270 000060 00048.
                            001270 000060 00048. HELLO  V01    HELLO.OBJ;1

Global symbols:

IO.WVB 011000   START  001270-R $ALERR 001330-R
MSG    001310-R


*** Task builder statistics:

        Total work file references: 1234.
        Elapsed time:00:00:02
"""
LIST = """\
# of the program
START 1000
001004 LOOP
TKS=177560      ; a register
BUFFER = 2000
001010 T _main
001012t ~i
00000210 D _data
         U _printf
_start T 00000020
l.start t 24 6
_edata B 00000001014
_exit U
00000000 t scratch/l.o
00000000 t l.o
l.o t 00000000
00000020 F crt0

7 8
nothing here at all
TOO_LARGE 200000
"""
FORMATS = (LISTING, ABSOLUTE_LISTING, MAP_OF_RT11, MAP_OF_RSX, LIST)


class Formats(Media):
    """What each format has."""

    def values(self, found: SymbolFile, constants: bool = False) -> dict[str, int]:
        return {it.name: it.value for it in found.symbols if it.is_constant == constants}

    def test_a_listing(self) -> None:
        found = symbol_file(LISTING)
        places = {"START": 0, "FIRST": 4, "SECOND": 4, "MSG": 0o12}
        self.assertEqual(self.values(found), places)
        constants = {"CR": 0o15, "G": 1, "R": 7, "TPS": 0o177564}
        self.assertEqual(self.values(found, constants=True), constants)
        self.assertEqual({it.name for it in found.symbols if it.is_relocatable}, places.keys())

    def test_a_listing_with_absolute_labels(self) -> None:
        found = symbol_file(ABSOLUTE_LISTING)
        self.assertEqual(self.values(found), {"A": 0o1004, "B": 0o1004, "START": 0o1000})
        self.assertEqual(self.values(found, constants=True), {"TKS": 0o177560})

    def test_a_listing_without_a_table(self) -> None:
        text = LISTING[: LISTING.index("HELLO\tMACRO V05.05  Thursday 14-Sep-89 12:34  Page 1-1")]
        places = {"START": 0, "FIRST": 4, "SECOND": 4, "MSG": 0o12}
        self.assertEqual(self.values(symbol_file(text)), places)

    def test_a_label_on_a_line_without_an_address(self) -> None:
        lines = ["0 Z:", "1 001000 000240 A: NOP", "2 B: C:", "; a comment", "3\tD:: ; of the loop"]
        lines += ["4 002000 000240 041 E: NOP", "F:", "6 NONE OF IT", "7 003000 G: .BLKW 5", "H:"]
        found = symbol_file("\n".join([*lines, "9 003012 000240 NOP"]))
        places = {"Z": 0o1000, "A": 0o1000, "B": 0o1002, "C": 0o1002, "D": 0o1002, "E": 0o2000}
        places.update({"F": 0o2003, "G": 0o3000, "H": 0o3012})
        self.assertEqual((self.values(found), found.skipped), (places, 1))

    def test_a_listing_with_other_digits(self) -> None:
        other = "\N{ARABIC-INDIC DIGIT THREE}"
        for line in (f"{other} 001000 000240 B: NOP", f"{other} C = 5"):
            found = symbol_file(f"1 001000 000240 A: NOP\n{line}\n")
            self.assertEqual((self.values(found), found.skipped), ({"A": 0o1000}, 1), line)

    def test_the_listing_of_the_ledger(self) -> None:
        stored = ROOT / "examples" / "ledger"
        found = self.values(symbol_file((stored / "ledger.lst").read_text()))
        for line in (stored / "kernel.sym").read_text().splitlines():
            name, value = line.split()
            if name == "QUEUE":  # an address that the listing assigns
                continue
            self.assertEqual(found.pop(name), int(value, 8), name)
        more = {"CLERK": 0o20000, "TELLER": 0o20044, "DIGIT": 0o20076, "LAST": 0o1624}
        self.assertEqual(found, more)

    def test_a_map_of_rt11(self) -> None:
        found = symbol_file(MAP_OF_RT11)
        values = {"START": 0o1000, "PRINT": 0o1044, "SUB1": 0o1214, "SUB2": 0o1230, "SUB3": 0o1244}
        self.assertEqual(self.values(found), values)
        self.assertEqual(self.values(found, constants=True), {"$USRSW": 0, ".VIR": 2})

    def test_a_map_of_rsx(self) -> None:
        found = symbol_file(MAP_OF_RSX)
        values = {"START": 0o1270, "$ALERR": 0o1330, "MSG": 0o1310}
        self.assertEqual(self.values(found), values)
        self.assertEqual(self.values(found, constants=True), {"IO.WVB": 0o11000})

    def test_a_list(self) -> None:
        found = symbol_file(LIST)
        values = {
            "START": 0o1000, "LOOP": 0o1004, "TKS": 0o177560, "BUFFER": 0o2000, "_main": 0o1010,
            "~i": 0o1012, "_data": 0x210, "_start": 0x20, "l.start": 0x24, "_edata": 0o1014,
        }  # fmt: skip
        self.assertEqual((self.values(found), found.skipped), (values, 7))
        self.assertEqual(found.line(), "10 symbols, 7 lines skipped")

    def test_words_of_a_map_in_a_listing(self) -> None:
        places = self.values(symbol_file(LISTING))
        for line in ("; the load map of RT-11 LINK", "RT-11 LINK and its map", "Global symbols:"):
            self.assertEqual(self.values(symbol_file(f"{line}\n{LISTING}")), places)

    def test_constants_alone_are_places(self) -> None:
        found = symbol_file("Symbol table\n\nSTART = 001000   LOOP  = 001004\n")
        self.assertEqual(self.values(found), {"START": 0o1000, "LOOP": 0o1004})

    def test_cut_at_each_byte(self) -> None:
        """As long as its kind can be told, what is left is read: no name has a value that the whole
        file doesn't give it, except the last one, whose line is cut."""
        for text in FORMATS:
            kind = symbol_file(text).kind
            whole = {(it.name, it.value) for it in symbol_file(text).symbols}
            columns = symbol_file(text[: text.lower().find("symbol table")])
            whole |= {(it.name, it.value) for it in columns.symbols}
            for at in range(len(text)):
                found = symbol_file(text[:at])
                wrong = {(it.name, it.value) for it in found.symbols} - whole
                self.assertLessEqual(len(wrong), 1 if found.kind == kind else 9, text[:at])

    def test_junk(self) -> None:
        chance = random.Random(3)
        letters = "".join(FORMATS)
        for _ in range(3000):
            text = "".join(chance.choices(letters, k=chance.randrange(200)))
            if chance.random() < 0.5:
                place = chance.randrange(len(MAP_OF_RT11))
                text = MAP_OF_RT11[:place] + text + MAP_OF_RT11[place:]
            for it in symbol_file(text).symbols:
                self.assertRegex(it.name, r"^\S+$")
                self.assertIn(it.value, range(0o200000))

    def test_long_lines_take_no_time(self) -> None:
        for line in ("A" * 200_000, "A 000001 " * 20_000 + "!", "000001 " * 30_000, "A:" * 90_000):
            for head in ("", "RT-11 LINK  Load Map\n", "Global symbols:\n", "Symbol table\n"):
                symbol_file(head + line)


class Named(Media):
    """The command `symbols`, and names in the place of addresses."""

    def ledger(self, lines: str) -> list[str]:
        stored = "examples/ledger"
        names = f"symbols {stored}/kernel.sym kernel\nsymbols {stored}/user.sym user\n"
        written = self.explore(names + lines, f"{stored}/ledger.session")
        self.assertEqual(self.error, "")
        return written.splitlines()[2:]

    def test_how_many(self) -> None:
        texts = {"lst": LISTING, "rt": MAP_OF_RT11, "rsx": MAP_OF_RSX, "list": LIST}
        for name, text in texts.items():
            self.put(name, text.encode())
        lines = "symbols lst\nsymbols rt\nsymbols rsx\nsymbols list\nsymbols it\n"
        self.put("it", b"nothing\nhere\n")
        written = self.explore(lines + "symbols examples/ledger/ledger.lst\n").splitlines()
        self.assertEqual(
            [written[0], *written[2:5]],
            [
                "8 symbols of a MACRO-11 listing, 14 lines skipped",
                "7 symbols of a map of RT-11's linker, 7 lines skipped",
                "4 symbols of a map of the Task Builder, 21 lines skipped",
                "10 symbols, 7 lines skipped",
            ],
        )
        self.assertIn("4 are relocatable, and count from 0; symbols FILE at A moves", written[1])
        self.assertTrue(written[5].startswith("symbols: it has no symbol: "), written[5])
        self.put("bare", program(text=words(1)))
        said = "symbols: bare is an a.out without symbols\n"
        self.assertEqual(self.explore("symbols bare\n"), said)
        self.assertEqual(written[6], "52 symbols of a MACRO-11 listing, 132 lines skipped")

    def test_a_refused_file_leaves_those_there_were(self) -> None:
        self.put("list", b"START 1000\n")
        self.put("it", b"\0\1\2")
        written = self.explore("symbols list\nsymbols it\nlist START 1 at 0\n").splitlines()
        self.assertTrue(written[2].startswith("001000 "), written)

    def test_relocatable_ones_are_moved(self) -> None:
        self.put("lst", LISTING.encode())
        written = self.explore("symbols lst at 4000\nmem 0 MSG 1\nlist MSG 1 at 0\n").splitlines()
        said = "8 symbols of a MACRO-11 listing, 14 lines skipped"
        self.assertEqual(written[:2], [said, "mem 000000"])
        self.assertTrue(written[2].startswith("004012 "))
        self.assertTrue(written[2].endswith("MSG"))

    def test_no_symbol_is_moved_by_an_odd_number(self) -> None:
        self.put("lst", LISTING.encode())
        written = self.explore("symbols lst at 4001\nuntil PC START to 9\n")
        self.assertTrue(written.startswith("symbols: A is odd: 4001\nuntil: there is no"), written)

    def test_constants_name_no_place(self) -> None:
        self.put("lst", LISTING.encode())
        written = self.explore("symbols lst\nlist CR+1 1 at 0\nlist 20 1 at 0\n").splitlines()
        self.assertTrue(written[2].endswith("MSG+4"), written)
        self.assertTrue(written[3].endswith("MSG+6"), written)

    def test_where_a_symbol_stands(self) -> None:
        pairs = (
            ("until PC TICK", "until PC 1102"),
            ("until PC TICK+6", "until PC 1110"),
            ("until pc SAVE-6", "until PC 1102"),
            ("next BALANCE+10000 to 200000", "next 30000 to 200000"),
            ("list CLERK 8 at 40", "list 0 8 at 40"),
            ("list user CLERK 4 at 200000", "list user 0 4 at 200000"),
            ("list kernel TICK 4 at 40", "list kernel 1102 4 at 40"),
            ("first core NOW = 1530", "first core 1520 = 1530"),
            ("first core now+0 = 1530", "first core 1520 = 1530"),
            ("mem 4000 NOW 3", "mem 4000 1520 3"),
            ("last 4000 NOW+2-2", "last 4000 1520"),
            ("writes 0 4000 NOW", "writes 0 4000 1520"),
            ("first 0 4000 at TICK", "first 0 4000 at 1102"),
            ("first 0 4000 at TICK kernel", "first 0 4000 at 1102 kernel"),
            ("latest 0 4000 at TICK", "latest 0 4000 at 1102"),
            ("latest 0 4000 at TICK kernel", "latest 0 4000 at 1102 kernel"),
            ("first 0 4000 where at TICK", "first 0 4000 where at 1102"),
            (
                "first 0 4000 where at TICK and core NOW > 3 and kernel",
                "first 0 4000 where at 1102 and core 1520 > 3 and kernel",
            ),
            ("latest 0 4000 where core NOW+2 & 7 = 0", "latest 0 4000 where core 1522 & 7 = 0"),
            ("counts 0 4000 kernel TICK 4", "counts 0 4000 kernel 1102 4"),
            ("translate 131000 user CLERK", "translate 131000 user 0"),
            ("virtual 131000 kernel NOW 2", "virtual 131000 kernel 1520 2"),
            ("find 4000 NOW QUEUE 5", "find 4000 1520 2000 5"),
            ("find 4000 NOW-20 NOW 0 mask 7", "find 4000 1500 1520 0 mask 7"),
            ("sweep 3 from 9 to 11: mem 4000 NOW 1", "sweep 3 from 9 to 11: mem 4000 1520 1"),
            ("core QUEUE 5", "core 2000 5"),
            ("uncore QUEUE", "uncore 2000"),
        )
        named = self.ledger("".join(f"{it}\n" for it, _ in pairs))
        octal = self.ledger("".join(f"{it}\n" for _, it in pairs))
        self.assertEqual(named, octal)

    def test_edits_are_kept_in_octal(self) -> None:
        lines = "core QUEUE+2 5\nsave it\n"
        self.ledger(lines)
        self.assertIn("core 2002 5\n", (self.folder / "it").read_text())

    def test_what_is_no_symbol(self) -> None:
        for line, said in (
            ("until PC NOTHING", "until: there is no symbol 'NOTHING'; symbols FILE reads them"),
            ("next TICK-2000", "next: TICK-2000 is less than 0"),
            ("until PC TICK+", "until: the form is: "),
            ("until PC 8", "until: the form is: "),
            ("next TICK+9", "next: the form is: "),
            ("next disk TICK", "next: the form is: "),
            ("mem 0 NOTHING 1", "refused 10 BadLine"),
            ("regs TICK", "refused 10 BadLine"),
            ("first 0 9 where R0 = TICK", "refused 10 BadLine"),
            ("find 0 0 2 TICK", "refused 10 BadLine"),
            ("until PC TICK+200000", "until: 201102 is more than a word has, 177777"),
            ("next 757776+2", "next: last "),
        ):
            self.assertTrue(self.ledger(f"{line}\n")[0].startswith(said), line)

    def test_names_are_added(self) -> None:
        (self.folder / "one").write_text("A 1000\nB 1002\n")
        (self.folder / "two").write_text("C 1004\nB 1006\nK = 1000\n")
        lines = "symbols one\nnames two\nlist 1000 4 at 0\nlist A 1 at 0\nlist B 1 at 0\n"
        written = self.explore(lines).splitlines()
        self.assertEqual(written[:2], ["2 symbols", "3 symbols"])
        names = [it.split("HALT")[1].strip() for it in written[2:]]
        # of two names of a place the one that came last is shown
        self.assertEqual(names, ["K", "K+2", "C", "B", "K", "B"])
        written = self.explore(f"{lines}symbols two\nlist A 1 at 0\n").splitlines()
        self.assertIn("there is no symbol 'A'", written[-1])

    def test_of_two_names_the_last_label_is_shown(self) -> None:
        """Not the end of what is before it, in whichever order a table has them."""
        lines = "1 001000 000000 RING: .WORD 0\n2 001002 RINGE:\n3 001002 000240 PRTINT: NOP\n"
        table = "Symbol table\nPRTINT  001002   RING    001000   RINGE   001002\n"
        for listing in (lines, lines + table, "RINGE 1002\nPRTINT 1002\n"):
            (self.folder / "it").write_text(listing)
            written = self.explore("symbols it\nlist RINGE 1 at 0\n").splitlines()
            self.assertTrue(written[1].endswith("  PRTINT"), written)

    def test_names_are_added_to_one_mode(self) -> None:
        (self.folder / "one").write_text("A 1000\n")
        (self.folder / "two").write_text("A 2000\nB 1000\n")
        lists = "list A 1 at 0\nlist kernel A 1 at 0\nlist user A 1 at 0\n"
        written = self.explore(f"names one\nnames two user\n{lists}").splitlines()
        self.assertIn("several symbols 'A': 1000 of kernel, 2000 of user", written[2])
        self.assertTrue(written[3].startswith("001000 "), written)
        self.assertTrue(written[4].startswith("002000 "), written)
        self.assertIn("names: nowhere: No such file", self.explore("names nowhere\n"))

    def test_a_name_with_two_numbers(self) -> None:
        self.put("k", b"HERE 1000\n")
        self.put("u", b"HERE 20\n")
        lines = "symbols k kernel\nsymbols u user\nuntil PC HERE\nmem 0 HERE 1\n"
        lines += "list user HERE 1 at 0\ntranslate 0 user HERE\ntranslate 0 kernel HERE\n"
        written = self.explore(lines).splitlines()
        said = "there are several symbols 'HERE': 1000 of kernel, 20 of user; name a number"
        self.assertEqual(written[2:4], [f"until: {said}", f"mem: {said}"])
        self.assertTrue(written[4].startswith("000020 "), written[4])
        self.assertEqual(written[5:], ["translate 000020", "translate 001000"])

    def test_names_that_look_like_words_of_commands(self) -> None:
        self.put("names", b"disk 20\nfrom 30\nto 40\nwords 50\nat 60\nuser 70\n")
        lines = "symbols names\nmem 0 disk 1\nnext disk 5 to 9\nlist user 1 at 0\n"
        lines += "list user at 1 at 0\n"
        written = self.explore(lines).splitlines()
        self.assertEqual(written[1], "mem 000000")
        self.assertTrue(written[2].startswith("no change in the turns 0 to 9"), written[2])
        self.assertTrue(written[3].startswith("000070 "), written[3])
        self.assertTrue(written[4].startswith("000060 "), written[4])

    def test_files_cut_at_each_byte(self) -> None:
        def files() -> Iterator[bytes]:
            for text in (LISTING, MAP_OF_RSX):
                yield from (text[:at].encode() for at in range(0, len(text), 7))

        names = [self.put(f"cut{at}", data) for at, data in enumerate(files())]
        written = self.explore("".join(f"symbols {it}\n" for it in names))
        self.assertEqual(self.error, "")
        self.assertNotIn(FAULT, written)
