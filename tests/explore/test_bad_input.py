"""Input that is wrong: each ends with a message, and nothing is lost."""
import os
import signal
import subprocess
import sys
import threading
from pathlib import Path

from nezdrab.core.options import NUMBERS, fault_of_option

from .explore_case import BUILT, ROOT, SECONDS, Case


NO_SYMBOL = (
    "symbols: kept has no symbol: no line is NAME OCTAL, OCTAL NAME, NAME=OCTAL or one of nm, and"
    " it is no listing and no map"
)


class BadInput(Case):
    """Files that aren't there, pipes that break, programs that end."""

    def fails(self, message: str, *words: str, status: int = 1) -> None:
        self.assertEqual(self.explore("", *words, status=status), "")
        self.assertIn(message, self.error)
        self.assertNotIn("Traceback", self.error)

    def test_no_session(self) -> None:
        self.fails("explore: missing.session: no such file", "missing.session")

    def test_sessions_that_are_no_files(self) -> None:
        os.mkfifo(self.folder / "a pipe")
        self.fails("explore: examples is a folder\n", "examples")
        said = "explore: a pipe is no plain file; ./explore < 'a pipe' reads its lines\n"
        self.fails(said, "a pipe")

    def test_no_program(self) -> None:
        self.fails("explore: missing: no such program", "--program", "missing")

    def test_files_of_options(self) -> None:
        """Each is named with what is wrong, before the program would refuse it."""
        files = {"odd": 3, "most": 2_494_464, "large": 2_494_466, "tape": 1_048_577, "unit": 8192}
        for name, size in files.items():
            (self.folder / name).write_bytes(bytes(size))
        drives = ("disk", *(f"disk{it}" for it in range(1, 8)))
        for option in ("core", *drives, "tape"):
            missing = str(self.folder / "missing")
            said = "No such file or directory"
            self.assertEqual(fault_of_option(option, {option: missing}), said)
        for option, name, said in (
            ("disk7", "large", "it has 2494466 bytes, and an RK05 has 2494464 at most"),
            ("tape", "tape", "it has 1048577 bytes, and a tape has 1048576 at most"),
            ("core", "odd", "it has 3 bytes, and each word of an image has two"),
            ("core", "most", "it has 2494464 bytes, and core of --units 31 has 253952 at most"),
        ):
            self.assertEqual(fault_of_option(option, {option: str(self.folder / name)}), said)
        examples = self.folder / "examples"
        self.fails(f"explore: --disk {examples}: it is a folder\n", "--disk=examples")
        self.explore("", "--core", "unit", "--units", "1", "--disk", "most", "--tape", "odd")

    def test_options_of_a_session(self) -> None:
        (self.folder / "my.session").write_text("#! --disk gone --units 40\n")
        said = f"explore: my.session: --disk {self.folder / 'gone'}: No such file or directory\n"
        self.fails(said, "my.session")
        (self.folder / "disk").write_bytes(b"\7\0")
        said = "explore: my.session: --units 40: N is 1 to 31, units of 4096 words of core\n"
        self.fails(said, "--disk", "disk", "my.session")
        self.explore("", "--disk", "disk", "--units", "31", "my.session")

    def test_an_image_that_goes_away(self) -> None:
        """The program that is started again, since it takes back no `version 2`, refuses it."""
        disk, pipe = self.folder / "disk", self.folder / "pipe"
        disk.write_bytes(b"\7\0")
        os.mkfifo(pipe)

        def remove() -> None:
            with open(pipe, "w"):
                disk.unlink()

        thread = threading.Thread(target=remove)
        thread.start()
        written = self.explore("version 2\nsymbols pipe\nundo\nregs 0\n", "--disk", "disk")
        thread.join(SECONDS)
        said = f"regs: the program ended with status 3: search: input or output; --disk {disk}: No "
        self.assertIn(said, written)

    def test_numbers_of_options(self) -> None:
        """What explore refuses the program refuses, and nothing else."""
        for name, values in (
            ("units", ("1", "31", "0", "32", "x", "1_0", "+1", "\u0661")),
            ("start", ("0", "177776", "1001", "200000", "9", "00000001000")),
            ("stride", ("1", "2000000000", "0", "2000000001", "-1", "")),
        ):
            for value in values:
                command = [BUILT.program, f"--{name}={value}"]
                ended = subprocess.run(command, stdin=subprocess.DEVNULL, capture_output=True)
                fault = NUMBERS[name].fault(value)
                self.assertEqual(bool(fault), bool(ended.returncode), (command, fault))
        self.fails("explore: --start 1001: A is an address, octal and even, up", "--start", "1001")

    def test_an_unknown_option(self) -> None:
        self.fails("unrecognized arguments: --what", "--what", status=2)

    def test_a_refused_line_of_a_session(self) -> None:
        (self.folder / "bad.session").write_text(
            "core 1000 5\ncore 1001 7\ncore 9 9\nat 3 key\n\nregs 5\ncore 1002 6\n"
        )
        written = self.explore("patches\n", "bad.session")
        self.assertEqual(written, "patches 2\ncore 001000 000005\ncore 001002 000006\n")
        self.assertEqual(
            self.error.splitlines(),
            [
                "explore: bad.session:2: core 1001 7: refused 3 OddAddress the address is odd",
                "explore: bad.session:3: core 9 9: refused 10 BadLine core A W: A, an address of"
                " core, is octal, and '9' has '9'",
                "explore: bad.session:4: at 3 key: refused 10 BadLine at T event: B is missing",
            ],
        )

    def test_files_that_are_no_text(self) -> None:
        (self.folder / "my.session").write_text("core 1000 5\n")
        (self.folder / "my.args").write_bytes(b"\xff\xfe\n")
        self.fails("my.args can't be read", "my.session")
        (self.folder / "kept").write_bytes(b"\xff\xfe\n\x00\n")
        written = self.explore("sweep --gather kept\nsymbols kept\nsweep --gather .\nregs 0\n")
        lines = written.splitlines()
        self.assertEqual(lines[0], "sweep: kept:1: no line of a sweep")
        self.assertEqual(lines[1], NO_SYMBOL)
        self.assertEqual(lines[2], "sweep: .: Is a directory")
        self.assertTrue(lines[3].startswith("R0 000000"))

    def test_words_that_are_not_there(self) -> None:
        lines = "where disk 4604000 5\nnext 760000 to 9\nfirst core 1001 = 5\n"
        written = self.explore(lines)
        for line, number in zip(written.splitlines(), (4, 2, 3)):
            self.assertIn(f": refused {number} ", line)

    def test_bytes_that_are_no_text(self) -> None:
        (self.folder / "bad.session").write_bytes(
            b"core 1000 5\r\ncore \xff\xfe 1\n\x00\n" + b"#" * 300 + b"\n"
        )
        written = self.explore("patches\n", "bad.session")
        self.assertEqual(written, "patches 1\ncore 001000 000005\n")
        self.assertEqual(self.error.count("refused 10 BadLine"), 2)
        self.assertEqual(self.error.count("refused 11 LineTooLong"), 1)

    def test_control_bytes_of_files_and_programs_are_shown(self) -> None:
        """ESC, OSC, a C1 control, a byte that is no text, and one that turns the writing around."""
        junk = b"\x1b[31m\xc2\x9bm\xff\xe2\x80\xae"
        text = "\\033[31m\\u009bm\\377\\u202e"
        (self.folder / "bad.session").write_bytes(b"core \x1b]0;me\a" + junk + b" \r5\n")
        (self.folder / "it.ini").write_bytes(b"set " + junk + b"\n")
        (self.folder / "names").write_bytes(b"001000 T _a\x1b[31m\n")
        ends = self.folder / "ends"
        ends.write_text("#!/bin/sh\nprintf 'it is \\033[31m' >&2\n")
        ends.chmod(0o755)
        lines = "import it.ini\nsymbols names\nlist 1000 1 at 0\nsave \x1b[31m/x\n\x1b[31m\n"
        written = self.explore(lines, "bad.session").splitlines()
        said = f"core \\033]0;me\\007{text} \\0155: refused 10 BadLine "
        self.assertIn(f"explore: bad.session:1: {said}", self.error)
        self.assertIn(f"  line 1, set {text}: it has no meaning here", written)
        self.assertTrue(written[4].endswith("  _a\\033[31m"), written)
        self.assertTrue(written[5].startswith("save: \\033[31m/x can't be written: "), written)
        self.assertEqual("  the line has a control character, \\033", written[7])
        shown = "".join(written) + self.error.replace("\n", "")
        self.assertNotRegex(shown, "[\0-\x1f\x7f-\x9f\u202e]")
        self.fails("status 0: it is \\033[31m\n", "--program", str(ends))
        self.fails("unrecognized arguments: b\\033[31m\n", "a", "b\x1b[31m", status=2)

    def test_an_output_that_nobody_reads(self) -> None:
        lines = "help\n" * 2000
        child = subprocess.Popen(
            self.command(),
            cwd=self.folder,
            env=self.environment(),
            stdin=subprocess.PIPE,
            stdout=subprocess.PIPE,
            stderr=subprocess.PIPE,
            text=True,
        )
        assert child.stdin and child.stdout and child.stderr
        child.stdout.close()
        try:
            child.stdin.write(lines)
            child.stdin.close()
        except BrokenPipeError:
            pass
        error = child.stderr.read()
        child.stderr.close()
        self.assertEqual(
            (child.wait(SECONDS), error), (3, "explore: the output can't be written\n")
        )

    def test_a_program_that_ends_is_started_again(self) -> None:
        # a stand-in that runs pdp11, and ends itself at the first question about turn 13
        stand_in = self.folder / "stand-in"
        stand_in.write_text(
            f"#!{sys.executable}\n"
            "import os, subprocess, sys\n"
            f"child = subprocess.Popen([{BUILT.program!r}, *sys.argv[1:]], stdin=subprocess.PIPE)\n"
            "for line in sys.stdin.buffer:\n"
            "    if line == b'regs 13\\n' and not os.path.exists('ended'):\n"
            "        open('ended', 'w').close()\n"
            "        sys.exit(9)\n"
            "    child.stdin.write(line)\n"
            "    child.stdin.flush()\n"
        )
        stand_in.chmod(0o755)
        lines = "core 1000 777\nat 5 key 101\nregs 13\nregs 13\npatches\nevents\n"
        written = self.explore(lines, "--program", str(stand_in)).splitlines()
        self.assertEqual(
            written[2],
            "regs: the program ended with status 9; the next line starts it again, with all edits",
        )
        self.assertIn("PC 001000", written[3])
        self.assertEqual(written[4:6], ["patches 1", "core 001000 000777"])
        self.assertEqual(written[7], "event     1  at          5  key 101  'A'")

    def test_a_file_that_cannot_be_written(self) -> None:
        written = self.explore(
            "save missing/past\npage missing/page.html to 3\nexport missing/it at 3\nregs 0\n"
        )
        lines = written.splitlines()
        self.assertEqual(lines[0], "save: missing/past can't be written: No such file or directory")
        self.assertEqual(
            lines[1], "page: missing/page.html can't be written: No such file or directory"
        )
        self.assertEqual(
            lines[2], "export: missing/it.rk0 can't be written: No such file or directory"
        )
        self.assertTrue(lines[3].startswith("R0 000000"))

    def test_results_of_another_sweep(self) -> None:
        (self.folder / "kept").write_text("# sweep key 102: regs 9, past 0\n4 R0\n")
        written = self.explore("sweep -o kept key 101 from 1 to 3: regs 9\n")
        self.assertIn("kept:1: of another sweep, or of another past", written)
        self.assertEqual(
            (self.folder / "kept").read_text(), "# sweep key 102: regs 9, past 0\n4 R0\n"
        )

    def test_a_sweep_that_was_cut_off_goes_on(self) -> None:
        sweep = "sweep -o kept key 101 from 1 to 9: regs 12\n"
        session = "examples/one-key-sooner.session"
        whole = self.explore(sweep, session)
        kept = (self.folder / "kept").read_text()
        lines = kept.splitlines(keepends=True)
        (self.folder / "kept").write_text("".join(lines[:4]) + lines[4][:7])
        self.assertEqual(self.explore(sweep, session), whole)
        self.assertEqual(
            sorted((self.folder / "kept").read_text().splitlines()), sorted(kept.splitlines())
        )

    def test_ctrl_c_in_a_sweep_of_a_pipe(self) -> None:
        child = subprocess.Popen(
            self.command(str(ROOT / "examples" / "one-key-sooner.session")),
            cwd=self.folder,
            env=self.environment(),
            stdin=subprocess.PIPE,
            stdout=subprocess.PIPE,
            stderr=subprocess.PIPE,
            text=True,
        )
        assert child.stdin is not None
        child.stdin.write("sweep -y -o kept key 101 from 0 to 900000: regs 900001\nevents\n")
        child.stdin.flush()
        kept = Path(self.folder / "kept")
        while not kept.exists() or kept.stat().st_size < 1000:
            self.assertIsNone(child.poll())
        child.send_signal(signal.SIGINT)
        written, error = child.communicate(timeout=SECONDS)
        self.assertEqual((child.returncode, error), (0, ""))
        self.assertIn("of 900001 turns are done; the same line goes on from kept", written)
        self.assertTrue(written.endswith("event     3  at         10  continue\n"), written[-200:])
