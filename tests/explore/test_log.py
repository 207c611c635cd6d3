"""The file of `log`."""
import os

from nezdrab.shell import output

from .explore_case import Case
from .terminal import AtTerminal

FIRST = "examples/first-run.session"


class Logs(Case):
    def log(self) -> str:
        return (self.folder / "my.log").read_text()

    def test_it_has_what_is_typed_and_shown(self) -> None:
        lines = "log my.log\n# a comment\nmem 0 1000 2\nnothing\nlog off\nregs 0\n"
        written = self.explore(lines, FIRST)
        self.assertIn("the log is my.log\n", written)
        self.assertEqual(
            self.log(),
            "the log is my.log\n# a comment\nexplore> mem 0 1000 2\nmem 012700 000005\n"
            "explore> nothing\nrefused 10 BadLine\n  there is no line 'nothing'; help lists the "
            "topics\nexplore> log off\nthe log my.log ends\n",
        )
        (self.folder / "my.log").unlink()
        self.explore(lines, "--echo", FIRST)
        self.assertEqual(self.log().count("explore> "), 3)

    def test_control_characters(self) -> None:
        self.explore("log my.log\nmem \x1b]0;me\a\n")
        self.assertIn("explore> mem \\033]0;me\\007\n", self.log())

    def test_files_that_are_there(self) -> None:
        (self.folder / "my.log").write_text("mine\n")
        lines = "log my.log\nlog\nlog! my.log\nlog\nlog other\nlog off\nlog off\nlog\n"
        written = self.explore(lines)
        self.assertEqual(
            written.splitlines(),
            ["log: my.log is there already; log! overwrites it"]
            + ["there is no log: log FILE begins one", "the log is my.log", "the log is my.log"]
            + ["the log is other", "the log other ends", "log: there is no log"]
            + ["there is no log: log FILE begins one"],
        )
        self.assertTrue(self.log().endswith("explore> log other\n"))

    def test_files_that_can_not_be_written(self) -> None:
        os.mkfifo(self.folder / "pipe")
        lines = "log .\nlog no/where\nlog pipe\nlog /dev/null\nlog off\nlog ./off\n"
        written = self.explore(lines).splitlines()
        self.assertEqual(written[0], "log: . is a folder")
        self.assertEqual(written[1], "log: no/where can't be written: No such file or directory")
        self.assertTrue(written[2].startswith("log: pipe can't be written: "), written[2])
        self.assertEqual(written[-1], "the log is off")

    def test_a_full_disk_says_so_and_goes_on(self) -> None:
        written = self.explore("log /dev/full\nmem 0 1000 1\nlog\nmem 0 1002 1\n", FIRST)
        lines = written.splitlines()
        said = "the log /dev/full can't be written, and ends: No space left on device"
        self.assertEqual([it for it in lines if it.startswith("mem")], ["mem 012700", "mem 000005"])
        self.assertEqual(written.count(said), 1)
        self.assertIn("there is no log: log FILE begins one", lines)


class Flood(Case):
    def test_what_a_console_shows_does_not_wait_for_a_line(self) -> None:
        path, lines = self.folder / "my.log", output.Lines()
        handle = os.open(path, os.O_WRONLY | os.O_CREAT)
        self.addCleanup(os.close, handle)
        lines.log = output.Log(path, handle)
        for _ in range(100):
            lines.note_printed(b"a\r\n\0" * 1000)
            self.assertLess(len(lines.log.waiting), 2 * output.MOST_WAITING)
        self.assertTrue(path.read_text().startswith("a\n\\000a\n"))


class AtPrompt(AtTerminal):
    def test_typed_pasted_and_a_console(self) -> None:
        disk = "examples/moved-keys.disk"
        self.begin("--start", "2000", "--disk", disk, "examples/boot-rk0.session")
        self.type("log my.log\n")
        self.wait_for(b"the log is my.log\r\n")
        self.type("mem 0 2000 1\x16\nmem 0 2002 1\n")
        self.wait_for(b"mem 177412\r\n")
        self.type("console rate 0\n")
        self.wait_for(b"COUNTS THE KEYS OF A LINE\r\n* ")
        os.write(self.ours, b"\x05")
        self.wait_for(b"no event was made")
        self.type("log off\n")
        self.wait_for(b"the log my.log ends")
        self.end()
        found = (self.folder / "my.log").read_text()
        pasted = "explore> mem 0 2000 1\nmem 012701\nexplore> mem 0 2002 1\nmem 177412\n"
        self.assertIn(pasted, found)
        self.assertIn("explore> console rate 0\n", found)
        self.assertIn("\nCOUNTS THE KEYS OF A LINE\n* ", found)
        self.assertIn("> log off\nthe log my.log ends\n", found)
