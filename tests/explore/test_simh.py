"""Command files of SIMH: `import`."""
import subprocess
import unittest

from nezdrab.shell.simh import bootstrap

from .explore_case import ROOT, SECONDS
from .installed import SIMH
from .media import FAULT, Media, tape, words


class Imports(Media):
    """What the commands of a file come to."""

    def imports(self, commands: str, lines: str = "", *options: str) -> list[str]:
        self.put("it.ini", commands.encode())
        written = self.explore(f"import it.ini\n{lines}", *options)
        self.assertEqual(self.error, "")
        self.assertNotIn(FAULT, written)
        return written.splitlines()

    def test_a_disk_is_booted(self) -> None:
        commands = "; boots\nset cpu 11/40\nset cpu 256k\n"
        commands += "attach rk0 examples/boot-rk0.disk\nboot rk0\n"
        written = self.imports(commands, "text 1000\npatches\nregs 0\n")
        path = self.folder / "examples" / "boot-rk0.disk"
        self.assertEqual(
            written[0],
            f"4 commands taken: --units 31 --disk {path} --start 2000, 12 patches",
        )
        self.assertEqual(written[1], "text 17:BOOTED FROM RK0\\015\\012")
        stored = (ROOT / "examples" / "boot-rk0.session").read_text().splitlines()
        ours = [f"core {2 * at + 0o2000:06o} {it:06o}" for at, it in enumerate(bootstrap(0))]
        pairs = [it.split()[1:] for it in stored if it.startswith("core")]
        session = [f"core {int(at, 8):06o} {int(it, 8):06o}" for at, it in pairs]
        self.assertEqual(ours, session)
        self.assertEqual(written[3:15], ours)

    def test_another_drive_is_booted(self) -> None:
        commands = "att rk3 examples/boot-rk0.disk\nb rk3\n"
        written = self.imports(commands, "text 1000\ndsk 0 3 0 1\n")
        self.assertIn("--disk3 ", written[0])
        self.assertEqual(written[1:3], ["version 2", "text 17:BOOTED FROM RK0\\015\\012"])
        self.assertNotEqual(written[3], "dsk 000000")

    def test_sizes(self) -> None:
        for text, units in (("256K", 31), ("248k", 31), ("64k", 8), ("8K", 1), ("56k", 7)):
            self.assertIn(f"--units {units}", self.imports(f"set cpu {text}\n")[0])
        three = "\N{ARABIC-INDIC DIGIT THREE}"
        written = self.imports(f"set cpu {three}2k\nd mmr{three} 5\n")
        self.assertEqual(written[1], "2 without a meaning here:")
        no_such = f"there is no {three}2k here: this is an 11/40 with EIS"
        self.assertTrue(written[2].endswith(no_such))
        self.assertTrue(written[3].endswith("can't be set: only core, PC and SR can"))
        for text in ("12k", "4k", "512K", "4M", "0k"):
            written = self.imports(f"SET CPU {text}\n")
            self.assertEqual(written[0], "0 commands taken: 0 patches")
            self.assertIn("core has 8K to 256K here, in steps of 8K", written[2])

    def test_fewer_units_than_before(self) -> None:
        written = self.imports("set cpu 16k\nd 37776 5\n", "mem 0 37776 1\nmem 0 40000 1\n")
        self.assertEqual(written[1:3], ["mem 000005", "refused 2 OutsideCore"])
        written = self.imports("set cpu 16k\nd 40000 5\n", "regs 0\npatches\nmem 0 40000 1\n")
        self.assertEqual(written[0], "import: it goes on to 40001, and core ends at 37777")
        self.assertEqual(written[2:4], ["patches 0", "mem 000000"])

    def test_deposits(self) -> None:
        commands = (
            "deposit 1000 12700\nd 1002-1006 5\nDEP 1010/4 7\nd 1020,1024 3\nd cpu 1030 4\n"
            "d 1000:1001 12701\nd pc 1002\nd sr 173030\n"
        )
        written = self.imports(commands, "mem 0 1000 13\nregs 0\ndevices 1\n")
        self.assertIn("8 commands taken: --start 1002, 9 patches", written[0])
        self.assertEqual(written[1], "at 0 switches 173030")
        core = (0o12701, 5, 5, 5, 7, 7, 0, 0, 3, 0, 3, 0, 4)
        self.assertEqual(written[2], " ".join(["mem", *(f"{it:06o}" for it in core)]))
        self.assertIn("PC 001002", written[3])
        self.assertIn("SWR 173030", written[4])

    def test_what_has_no_meaning_is_listed(self) -> None:
        commands = (
            "d rk rkcs 5\nd tti buf 101\nd rk0 5 6\nd -m 1000 MOV R0,R1\nd r0 5\nd psw 340\n"
            "d r1 0\nd 17777560 5\nd 1001 5\nd 1000 8\nd 1000\nd pc 1001\nset tto 7b\n"
            "set cpu 11/70\nset rl disable\nattach rl0 x\nattach\nboot rp0\nboot\n! ls\n"
            "do other.ini\nsend x\nrestore x.sav\n"
        )
        written = self.imports(commands, "patches\n")
        self.assertEqual(written[0], "1 command taken: 0 patches")
        self.assertEqual(written[1], "22 without a meaning here:")
        for at, said in (
            (1, "RK RKCS can't be set: only core, PC and SR can"),
            (2, "TTI BUF can't be set: only core, PC and SR can"),
            (3, "RK0 5 can't be set: only core, PC and SR can"),
            (4, "a deposit with -m can't be read here"),
            (5, "R0 is 0 at power-up, and can't be set"),
            (6, "PSW is 0 at power-up, and can't be set"),
            (8, "address 17777560 is above core: registers of devices"),
            (9, "address 1001 is odd"),
            (10, "'8' is no octal number of a word"),
            (12, "PC 1001 is odd"),
            (13, "it has no meaning here"),
            (14, "there is no 11/70 here: this is an 11/40 with EIS"),
            (16, "there is no rl0 here: disks are rk0 to rk7, the tape is ptr"),
            (18, "only rk0 to rk7 can be booted; load FILE loads a paper tape"),
            (21, "import that file too"),
            (22, 'its form here is: send "text"'),
        ):
            line = next(it for it in written if it.startswith(f"  line {at}, "))
            self.assertTrue(line.endswith(f": {said}"), line)
        self.assertEqual(written[-1], "patches 0")

    def test_comments_and_what_only_shows(self) -> None:
        commands = "; a\n# b\n:label\n\necho hello\nshow cpu\nexamine 1000\ne pc\nquit\nd 1000 5\n"
        self.assertEqual(self.imports(commands), ["0 commands taken: 0 patches"])

    def test_what_is_done_while_it_runs(self) -> None:
        """What the commands do is what the lines that stand for them do, one after the other."""
        disk = "examples/moved-keys.disk"
        commands = (
            f'attach rk0 {disk}\nbreak 30\nexpect "\\n* " send "he\\154lo\\r"; continue\n'
            'expect "05 KEYS"\nboot rk0\nstep 3\ncontinue\nbr -w 1000,1002\n'
        )
        written = self.imports(commands, "show\nevents\nundo\nevents\nbreakpoints\n")
        at = written.index("explore> break 30")
        self.assertEqual(written[0].split(" taken")[0], "8 commands")
        lines = (
            'break 30\nexpect "\\n* "\ntype "hello\\r"\nexpect "05 KEYS"\nstep 3\ncontinue\n'
            "watch 1000\nwatch 1002\n"
        )
        options = ("--start", "2000", "--disk", disk, "examples/boot-rk0.session")
        typed = self.explore(f"{lines}show\nevents\n", "--echo", *options)
        wanted = [it for it in typed.splitlines() if it not in ("explore> show", "explore> events")]
        self.assertEqual(written[at : at + len(wanted)], wanted)
        self.assertIn("taken back: import it.ini (18 edits)", written)
        self.assertEqual(written[-4], "0 events")

    def test_rules_wait_for_a_run(self) -> None:
        written = self.imports('expect "x" send "y"\nexpect "z"\n')
        self.assertEqual(written[0], "2 commands taken: 0 patches")
        said = "no go, boot or continue follows"
        self.assertEqual(
            written[1:],
            ["2 without a meaning here:", f'  line 1, expect "x" send "y": {said}']
            + [f'  line 2, expect "z": {said}'],
        )
        # one that doesn't go on ends the run, and the next waits for the next one
        commands = 'expect "C"\nexpect "O"\nboot rk0\nbreak 1000\ngo\n'
        written = self.imports(f"attach rk0 examples/moved-keys.disk\n{commands}")
        typed = [it for it in written if it.startswith("explore> ")]
        self.assertEqual(
            typed, [f"explore> {it}" for it in ('expect "C"', "break 1000", 'expect "O"')]
        )

    def test_rules_that_can_not_be_met(self) -> None:
        commands = (
            'exp -r "x.*"\nexp "x" echo hello\nexp [3] "x"\nexpect\nexp "x" send y\nbr 1000;e r0\n'
            'br -r 1000\nbr 9\nbr\nsend "\\777"\nstep x\ns -1\nexp "x;\\"y" send ";"; cont\n'
        )
        written = self.imports(commands)
        self.assertEqual(written[0], "1 command taken: 0 patches")
        self.assertEqual(written[1], "13 without a meaning here:")
        said = "  line 2, exp \"x\" echo hello: 'echo hello' can't be an action here: "
        self.assertTrue(written[3].startswith(said), written)
        self.assertTrue(any(it.endswith("'\\777' is no byte") for it in written), written)

    def test_a_text_that_does_not_come_ends_it(self) -> None:
        commands = 'd 1000 5\nexpect "x" send "y"; c\ngo\nstep 4\n'
        written = self.imports(commands, "mem 0 1000 1\nundo\nmem 0 1000 1\n")
        self.assertRegex(
            "\n".join(written),
            r"import: line 2, expect .x. send .y.; c: 'x' isn't printed in the turns 0 to 99999999"
            r"; nothing is printed there, and the processor is halted; what follows isn't done\n"
            r"mem 000005\ntaken back: import it.ini\nmem 000000",
        )

    def test_paths(self) -> None:
        (self.folder / "in").mkdir()
        self.put("in/my disk", words(7))
        self.put("in/tape", b"\7")
        self.put("in/it.ini", b'attach -r rk0 "my disk"\nattach ptr tape\n')
        written = self.explore("import in/it.ini\ndsk 0 0 1\nsave it\n").splitlines()
        self.assertEqual(written[1], "dsk 000007")
        saved = (self.folder / "it").read_text()
        self.assertEqual(
            saved.splitlines()[0],
            f"#! --disk '{self.folder / 'in' / 'my disk'}' --tape {self.folder / 'in' / 'tape'}",
        )

    def test_eight_drives(self) -> None:
        for at in (0, 1, 7):
            self.put(f"d{at}", words(at + 1))
        commands = "attach rk0 d0\nattach rk1 d1\nattach rk7 d7\nattach rk2 d7\ndetach rk2\n"
        lines = "".join(f"dsk 0 {drive} 0 1\n" for drive in (0, 1, 7, 2))
        written = self.imports(commands, f"{lines}undo\ndsk 0 0 1\n")
        self.assertEqual(written[1], "version 2")
        asked = ["dsk 000001", "dsk 000002", "dsk 000010", "dsk 000000"]
        self.assertEqual(written[2:6], asked)
        self.assertEqual(written[6:], ["taken back: import it.ini", "dsk 000000"])

    def test_a_file_that_is_missing(self) -> None:
        """The rest is taken, and the end says what was left out."""
        self.put("d1", words(7))
        commands = "d 1000 5\nattach rk0 nothing\nfly\nload nowhere\nattach rk1 d1\nd 1002 6\n"
        written = self.imports(commands, "mem 0 1000 2\ndsk 0 1 0 1\n")
        self.assertTrue(written[0].startswith("3 commands taken: --disk1 "), written)
        self.assertEqual(
            written[2:],
            ["1 without a meaning here:", "  line 3, fly: it has no meaning here", "2 left out:"]
            + ["  line 2, attach rk0 nothing: nothing: no such file"]
            + ["  line 4, load nowhere: nowhere: no such file"]
            + ["mem 000005 000006", "dsk 000007"],
        )
        self.assertIn("nothing: No such file", self.explore("import nothing\n"))
        self.assertIn(".: Is a directory", self.explore("import .\n"))

    def test_images_that_cannot_be_attached(self) -> None:
        self.put("odd", b"123")
        self.put("large", bytes(2_494_466))
        written = self.imports("d 1000 5\nattach rk0 odd\nattach rk0 large\n", "regs 0\n")
        self.assertEqual(written[:2], ["1 command taken: 1 patch", "2 left out:"])
        self.assertIn("odd: it has 3 bytes, and each word of an image has two", written[2])
        self.assertIn("large: it has 2494466 bytes, and an RK05 has 2494464 at most", written[3])

    def test_a_tape_is_loaded(self) -> None:
        self.put("t.lda", tape((0o2000, words(0o12700, 7, 0)), start=0o2000))
        written = self.imports("load t.lda\nd 2002 9\nd 2002 6\ngo\n", "regs 2\n")
        self.assertIn("3 commands taken: --start 2000, 2 patches", written[0])
        self.assertIn("R0 000006", written[-1])
        self.put("t.lda", b"\1\0\7")
        said = self.imports("load t.lda\n", "patches\n")
        self.assertIn("line 1, load t.lda: ", said[2])
        self.assertIn("the tape ends in the block that begins at byte 0", said[2])

    def test_where_it_begins(self) -> None:
        for command, start in (("go 2000", "2000"), ("run 3000", "3000"), ("d pc 4000", "4000")):
            written = self.imports(f"{command}\n", "regs 0\n")
            self.assertIn(f"PC 00{start}", written[-1])

    def test_cut_at_each_byte(self) -> None:
        text = "set cpu 256k\nd 1000-1010 5\nattach rk0 examples/boot-rk0.disk\nboot rk0\n"
        names = [self.put(f"c{at}", text[:at].encode()) for at in range(len(text))]
        written = self.explore("".join(f"import {it}\n" for it in names))
        self.assertEqual(self.error, "")
        self.assertNotIn(FAULT, written)


@unittest.skipUnless(SIMH, "SIMH's pdp11 isn't installed")
class ImportsInSimh(Media):
    """What SIMH does with the same commands."""

    def test_deposits_and_sizes(self) -> None:
        commands = (
            "set cpu 11/40\nset cpu 64k\nd 1000 12700\nd 1002-1006 5\nd 1010/4 7\nd 1020,1024 3\n"
            "d cpu 1030 4\nd pc 1002\nd sr 170000\nd 1032:1036 6\nd 177560 1\n"
        )
        self.put("it.ini", commands.encode())
        lines = "import it.ini\nmem 0 1000 20\nmem 0 177560 1\nregs 0\ndevices 1\n"
        ours = self.explore(lines).splitlines()
        self.put("theirs.ini", f"{commands}e 1000-1046\ne 177560\ne pc\ne sr\nexit\n".encode())
        ended = subprocess.run(
            [str(SIMH), "theirs.ini"],
            stdin=subprocess.DEVNULL,
            cwd=self.folder,
            capture_output=True,
            text=True,
            timeout=SECONDS,
        )
        shown = [it.split("\t")[1] for it in ended.stdout.splitlines() if ":\t" in it]
        core = [word for it in ours if it.startswith("mem") for word in it.split()[1:]]
        self.assertEqual(core, shown[:21])
        self.assertIn(f"PC {shown[21]}", ours[-2])
        self.assertIn(f"SWR {shown[22]}", ours[-1])
