"""Files that people bring into core: tapes, programs, words."""
import random
import struct
import subprocess
import unittest

from .explore_case import SECONDS
from .installed import SIMH
from .media import PROGRAM, TAPE, Media, block, program, symbol, tape, words


class Tapes(Media):
    """Paper tapes of the absolute loader."""

    def test_a_good_one(self) -> None:
        first, *others = self.loads(TAPE, "mem 0 1000 3\nmem 0 2000 2\nregs 2\n")
        self.assertEqual(
            first, "absolute-loader tape, 3 blocks: 1000 to 2002 in core, 4 patches, start 1000"
        )
        self.assertEqual(others[:2], ["mem 012700 000005 000000", "mem 041101 000103"])
        self.assertIn("R0 000005", others[2])

    def test_cut_at_each_byte(self) -> None:
        last = len(TAPE) - 20
        said = self.all_are_refused(TAPE[:at] for at in range(21, last))
        self.assertTrue(all(": the tape ends " in it or "neither" in it for it in said), said)
        whole = self.loads(TAPE[:last], "")
        self.assertIn("4 patches, start 1000", whole[0])

    def test_each_byte_is_wrong_once(self) -> None:
        files = []
        for at in range(20, len(TAPE) - 20):
            data = bytearray(TAPE)
            data[at] ^= 0o125
            files.append(bytes(data))
        self.all_are_refused(files)

    def test_a_wrong_checksum_has_its_place(self) -> None:
        good = block(0o1000, words(1, 2))
        data = bytes(5) + good + bytes(2) + block(0o1004, words(3), wrong=3) + block(0o1000, b"")
        place = 5 + len(good) + 2
        right = data[place + 8] - 3 & 0o377
        self.refuses(
            data,
            f"byte {place + 8}: the checksum is {data[place + 8]:03o}, and {right:03o} would be"
            f" right for the block that begins at byte {place}",
        )
        self.refuses(good + block(0o1000, b"", wrong=1), f"byte {len(good) + 6}: the checksum")

    def test_what_is_no_block(self) -> None:
        good = block(0o1000, words(1, 2))
        self.refuses(good + b"\7\7\7", f"byte {len(good)}: a block begins 001 000, and here is 007")
        self.refuses(good + b"\1\0\5\0\0\2\0", f"byte {len(good) + 2}: the count is 5, less than 6")
        self.refuses(good + bytes(9), "the tape ends after byte 19 without a transfer address")

    def test_leader(self) -> None:
        for leader in (b"", bytes(1), b"\377" * 50, bytes(70_000)):
            self.assertIn("4 patches, start", self.loads(leader + TAPE.lstrip(b"\0"), "")[0])

    def test_the_start(self) -> None:
        data = tape((0o2000, words(0)), (0o2002, words(0o777)), start=0o2002)
        first, asked = self.loads(data, "regs 0\n")
        self.assertIn("1 patch, start 2002 (started again)", first)
        self.assertIn("PC 002002", asked)
        first, remark, asked = self.loads(tape((0o2000, words(7)), start=1), "regs 0\n")
        self.assertIn("start 1000", first)
        self.assertEqual(remark, "its transfer address, 1, is odd, so the start stays")
        self.assertIn("PC 001000", asked)
        rest = tape((0o2000, words(7))) + b"more"
        self.assertIn("without 4 bytes after its transfer address", self.loads(rest, "")[1])

    def test_bytes_at_odd_addresses(self) -> None:
        """The other byte of a word stays, of an image or of a patch. A later block wins."""
        self.put("core", bytes(0o2000) + words(0o1002, 0o3004))
        data = tape((0o2001, b"\5"), (0o2002, b"\6\7"), (0o2003, b"\10"))
        written = self.loads(data, "mem 0 2000 2\n", "--core", "core")
        self.assertEqual(written[1], "mem 002402 004006")

    def test_where_there_is_no_core(self) -> None:
        self.refuses(tape((0o157776, words(1, 2))), "byte 20: the block goes on to address 160001")
        self.put("it", tape((0o20000, words(1))))
        written = self.explore("load it\npatches\n", "--units", "1")
        self.assertIn("load: it: it goes on to 20001, and core ends at 17777\npatches 0", written)
        self.assertIn("1 patch", self.loads(tape((0o157776, words(1))), "")[0])

    def test_a_tape_has_its_own_addresses(self) -> None:
        self.refuses(TAPE, "which has its own addresses; load words FILE at A", how=" at 4000")
        self.put("even", TAPE + bytes(len(TAPE) % 2))
        written = self.explore("load words even at 4000\nmem 0 4024 1\n")
        self.assertIn("mem 000001\n", written)

    def test_all_of_core(self) -> None:
        data = random.Random(1).randbytes(0o160000)
        parts = [(at, data[at : at + 0o1000]) for at in range(0, 0o160000, 0o1000)]
        written = self.loads(tape(*parts, start=0o1000), "mem 0 157774 2\nmem 0 0 1\n")
        first, *last = struct.unpack_from("<H", data) + struct.unpack_from("<2H", data, 0o157774)
        self.assertEqual(written[1], f"mem {last[0]:06o} {last[1]:06o}")
        self.assertEqual(written[2], f"mem {first:06o}")


@unittest.skipUnless(SIMH, "SIMH's pdp11 isn't installed")
class TapesInSimh(Media):
    """What SIMH's LOAD makes of the same tapes."""

    def in_simh(self, *commands: str) -> list[str]:
        (self.folder / "it.ini").write_text("".join(f"{it}\n" for it in (*commands, "exit")))
        ended = subprocess.run(
            [str(SIMH), "it.ini"],
            stdin=subprocess.DEVNULL,
            cwd=self.folder,
            capture_output=True,
            text=True,
            timeout=SECONDS,
        )
        return ended.stdout.splitlines()

    def test_core_and_start_are_the_same(self) -> None:
        chance = random.Random(2)
        for number in range(5):
            parts = [
                (chance.randrange(0o1000, 0o1700), chance.randbytes(chance.randrange(1, 60)))
                for _ in range(6)
            ]
            start = chance.randrange(0o1000, 0o2000) & ~1
            asked = "mem 0 1000 256\nmem 0 2000 16\nregs 0\n"
            written = self.loads(tape(*parts, start=start), asked)
            theirs = self.in_simh("load it", "e pc", "e 1000-2036")
            ours = [word for it in written[1:3] for word in it.split()[1:]]
            shown = [it.split("\t")[1] for it in theirs if it[:1] in ("1", "2") and ":\t" in it]
            self.assertEqual(ours, shown)
            self.assertIn(f"PC:\t{start:06o}", theirs)
            self.assertIn(f"PC {start:06o}", written[3])

    def test_a_save_file_is_named(self) -> None:
        self.in_simh("d 1000 5", "save it.sav")
        (line,) = self.explore("load it.sav\n").splitlines()
        self.assertIn("load: it.sav is a SIMH SAVE file: restore it in SIMH", line)


class Programs(Media):
    """a.out of Unix."""

    def test_a_good_one(self) -> None:
        lines = "mem 0 0 7\nregs 0\nuntil PC start+4\nmem 0 _data+2 1\n"
        first, core, registers, turn, word = self.loads(PROGRAM, lines)
        self.assertEqual(
            first,
            "a.out 0407, 6 bytes of text at 0, 4 of data at 6, 4 of bss: 0 to 15 in core,"
            " 4 patches, start 0 (started again), 3 symbols",
        )
        self.assertEqual(core, "mem 012700 000005 000000 000101 000102 000000 000000")
        self.assertIn("PC 000000", registers)
        self.assertEqual((turn, word), ("turn 1: kernel 000004 (start+4) HALT", "mem 000102"))

    def test_at_an_address(self) -> None:
        written = self.loads(PROGRAM, "mem 0 4000 4\nregs 0\nnext _end+2 to 5\n", how=" at 4000")
        self.assertIn("4000 to 4015 in core, 4 patches, start 4000 (started again)", written[0])
        self.assertEqual(written[1], "mem 012700 000005 000000 000101")
        self.assertIn("PC 004000", written[2])
        self.assertIn("on: next 4014", written[3])

    def test_bss_is_zero(self) -> None:
        self.put("it", PROGRAM)
        written = self.explore("core 12 7\nload it\nmem 0 12 2\n").splitlines()
        self.assertEqual(written[2], "mem 000000 000000")

    def test_0410_has_its_data_at_a_page(self) -> None:
        data = program(0o410, words(1, 2), words(3), 2)
        written = self.loads(data, "mem 0 0 3\nmem 0 20000 2\n")
        self.assertIn("a.out 0410, 4 bytes of text at 0, 2 of data at 20000, 2 of bss", written[0])
        self.assertEqual(written[1:], ["mem 000001 000002 000000", "mem 000003 000000"])
        full = program(0o410, bytes(0o20000), words(3))
        self.assertIn("2 of data at 20000", self.loads(full, "")[0])

    def test_those_that_do_not_run_here(self) -> None:
        for magic, why in (
            (0o411, "separate spaces for instructions and data"),
            (0o405, "an overlay"),
            (0o430, "overlays"),
            (0o431, "overlays"),
        ):
            data = program(magic, words(1))
            self.refuses(data, f"the magic number is {magic:04o}: ", why)

    def test_relocation_stands_before_the_symbols(self) -> None:
        names = symbol("start", 0o42, 2)
        data = program(text=words(1, 2), data=words(3), relocation=bytes(6), symbols=names)
        written = self.loads(data, "mem 0 start 1\n")
        self.assertEqual(written[1], "mem 000002")

    def test_which_symbols_count(self) -> None:
        kinds = ((0, 0), (0o40, 0), (1, 5), (2, 2), (0o24, 3), (0o37, 4), (0o44, 6))
        table = b"".join(symbol(f"s{kind:o}", kind, value) for kind, value in kinds)
        data = program(text=words(1, 2, 3, 4), symbols=table)
        written = self.loads(data, "".join(f"mem 0 s{kind:o} 1\n" for kind, _ in kinds))
        self.assertIn("3 symbols", written[0])
        found = [it for it in written if it.startswith("mem")]
        self.assertEqual(found, ["mem 000002", "mem 000004"])

    def test_names_that_are_none(self) -> None:
        """The others are there, and the name of a file is no label."""
        table = symbol("_start", 0o42, 0) + symbol("a\x1bb", 2, 0) + symbol("", 0o43, 2)
        table += symbol("scr/l.o", 2, 0) + symbol("l.o", 2, 0) + symbol("x.o", 0o42, 2)
        table += b"".join(symbol(f"a b{it}", 2, 2) for it in range(5))
        data = program(text=words(0o777, 2, 3, 4), symbols=table)
        names = "'a\\033b', '', 'a b0', 'a b1', 'a b2' and 2 more"
        said = f"without 7 symbols, whose name is none: {names}"
        written = self.loads(data, "list 0 2 at 0\nsymbols it\n")
        self.assertTrue(written[0].endswith(", 2 symbols"), written)
        self.assertEqual((written[1], written[5]), (said, said))
        self.assertTrue(written[2].endswith("  _start"), written)
        self.assertTrue(written[3].endswith("  x.o"), written)
        strings = b"_a\0"
        table = struct.pack("<HHBBH", 0, 4, 0o42, 0, 2) + struct.pack("<HHBBH", 0, 17, 0o43, 0, 4)
        data = program(text=words(1, 2), symbols=table, names=words(0, 7) + strings)
        written = self.loads(data, "mem 0 _a 1\n")
        self.assertEqual(written[1:], ["without 1 symbol, whose name is none: ''", "mem 000002"])

    def test_names_of_211(self) -> None:
        strings = b"_a_long_name\0_b\0"
        table = struct.pack("<HHBBH", 0, 4, 0o42, 0, 2) + struct.pack("<HHBBH", 0, 17, 0o43, 0, 4)
        names = words(0, 4 + len(strings)) + strings
        data = program(text=words(1, 2), data=words(3), symbols=table, names=names)
        written = self.loads(data, "mem 0 _a_long_name 1\nmem 0 _b 1\n")
        self.assertIn("2 symbols", written[0])
        self.assertEqual(written[1:], ["mem 000002", "mem 000003"])
        self.all_are_refused(data[:at] for at in range(2, len(data)))

    def test_cut_at_each_byte(self) -> None:
        said = self.all_are_refused(PROGRAM[:at] for at in range(len(PROGRAM)))
        self.assertTrue(all("the file" in it for it in said[2:]), said)

    def test_a_head_that_is_wrong(self) -> None:
        odd = words(0o407, 1, 0, 0, 0, 0, 0, 1) + b"1"
        self.refuses(odd, "its head has an odd number of bytes for a part; if it is no a.out: load")
        self.refuses(words(0o407, 0, 0, 0, 5, 0, 0, 1) + b"12345", "the symbol table has 5 bytes")

    def test_an_entry_that_is_no_start(self) -> None:
        written = self.loads(program(text=words(7)), "mem 0 200000 1\nregs 0\n", how=" at 200000")
        self.assertEqual(written[1], "its entry, 200000, is above 177776, so the start stays")
        self.assertEqual(written[2], "mem 000007")
        self.assertIn("PC 001000", written[3])
        written = self.loads(program(text=words(1), entry=1), "regs 0\n")
        self.assertEqual(written[1], "its entry, 1, is odd, so the start stays")
        self.assertIn("PC 001000", written[2])


class Words(Media):
    """Files that are neither."""

    def test_words(self) -> None:
        first, core = self.loads(words(0o12700, 5), "mem 0 1000 3\n", how=" at 1000")
        self.assertEqual(first, "2 words: 1000 to 1003 in core, 2 patches, start 1000")
        self.assertEqual(core, "mem 012700 000005 000000")

    def test_what_is_refused(self) -> None:
        neither = "load: it: it is neither a tape of the absolute loader nor an a.out"
        self.refuses(b"\2\3\4", neither)
        self.refuses(b"\2\3\4", "words have two bytes each, and the file has 3", how=" at 0")
        self.refuses(b"", "words have two bytes each, and the file has 0", how=" at 0")
        self.refuses(b"\2\3", "it goes on to 760001, and core ends at 757777", how=" at 760000")
        self.refuses(b"\2\3" * 1_247_232, "as long as an image of an RK05")
        self.refuses(b"\2\3" * 1_247_232, "an image of a drive is attached: --disk", how=" at 0")
        self.refuses(b"Dear reader,\r\n", "it is text: `symbols FILE` reads names")
        for line in ("load it at 5", "load it at 1+2"):
            self.assertTrue(self.explore(f"{line}\n").startswith("load: A is odd: "))
        self.assertIn("the form is: load", self.explore("load\n"))
        self.assertIn("nothing: No such file", self.explore("load nothing\n"))
        self.assertIn(".: Is a directory", self.explore("load .\n"))
        self.assertIn("too long: it has more than 4194304 bytes", self.explore("load /dev/zero\n"))

    def test_at_a_symbol(self) -> None:
        self.put("names", b"BUFFER 2000\n")
        self.put("it", words(7, 8))
        written = self.explore("symbols names\nload it at BUFFER+10\nmem 0 buffer+10 2\n")
        self.assertIn("2010 to 2013 in core", written)
        self.assertIn("mem 000007 000010\n", written)

    def test_words_that_are_so_already(self) -> None:
        self.put("core", words(4, 2, 3))
        written = self.loads(words(4, 9, 3), "patches\n", "--core", "core", how=" at 0")
        self.assertEqual(written[1:], ["patches 1", "core 000002 000011"])

    def test_files_with_spaces(self) -> None:
        """One rule for each FILE and each TEXT."""
        self.put("a file at 5 words", words(7))
        self.put("it's.ini", b"d 3000 5\n")
        self.put("names", b"HERE 1000\n")
        lines = "load 'a file at 5 words' at 2000\nmem 0 2000 1\nimport \"it's.ini\"\n"
        lines += "save \"a b.ses\"\ncore \"a c\" at 0\nexport 'e f' at 0\npage \"p q.html\" to 1\n"
        lines += "sweep -o 's t' tick from 1 to 1: regs 2\nsweep --gather 's t'\nsave a\\ d\n"
        lines += "sweep --jobs 'j k' tick from 1 to 1: regs 2\nsymbols na\"me\"s\n"
        written = self.explore(lines)
        self.assertIn("mem 000007\n", written)
        made = {it.name for it in self.folder.iterdir()}
        names = {"a b.ses", "a c", "e f", "e f.rk0", "p q.html", "s t", "a d", "j k", "j k.session"}
        self.assertLessEqual(names, made)
        self.assertIn("run it: pdp11 'e f', then", written)
        self.assertIn("parallel < 'j k' > 'j k.out'\nthen: sweep --gather 'j k.out'\n", written)
        self.assertTrue(written.endswith("1 symbol\n"), written)

    def test_quotes_that_are_wrong(self) -> None:
        rule = "; a FILE or a TEXT with spaces stands in quotes, 'single' or \"double\""
        for line, said in (
            ('save "a b', 'the quote " isn\'t closed'),
            ("type it's", "the quote ' isn't closed"),
            ("sweep -o 'a tick from 1 to 3: regs 4", "the quote ' isn't closed"),
            ("type a\\", "nothing follows the \\ at the end"),
            ("save a b", f"the form is: save FILE{rule}"),
            ("load ''", "a FILE has no name"),
            ("export a b at 5", f"export [-y] FILE from N to M [with ..]{rule}"),
            ("type a b", f"the form is: type TEXT [from TURN] [every N]{rule}"),
            ("until text a b to 3", rule),
        ):
            (written,) = self.explore(f"{line}\n").splitlines()
            self.assertTrue(written.startswith(f"{line.split()[0]}: "), written)
            self.assertTrue(written.endswith(said), written)
        self.assertNotIn(rule, self.explore("until PC 8\n"))
