"""Each line gets its own reply: what one line is, and what becomes of replies that part from it."""
import sys
import threading
from pathlib import Path

from nezdrab.core.engine import Machine, Start
from nezdrab.core.errors import ExploreError

from .explore_case import BUILT, SECONDS, Case
from .terminal import AtTerminal

THREE_WORDS = "core 1000 1\ncore 1002 2\ncore 1004 3\n"
STARTED_AGAIN = "; the next line starts it again, with all edits"
# A program that answers `core`, `regs 0` and `events` as it must, and another line so.
STAND_IN = """#!{python}
import sys
for line in sys.stdin:
    right = {{"core": "ok", "regs": "R0 000000 run", "events": "events 0"}}
    print(right.get(line.split()[0], {reply!r}), flush=True)
"""


class Typed(AtTerminal):
    """Lines that come in one piece at a terminal."""

    def test_a_line_feed_in_a_line_ends_it(self) -> None:
        """Ctrl-V Ctrl-J is a line feed as a paste has it."""
        (self.folder / "my.session").write_text(THREE_WORDS)
        self.begin("my.session")
        self.type("mem 0 1000 1\x16\nmem 0 1002 1\n")
        self.wait_for(b"explore> mem 0 1000 1\r\nmem 000001\r\n")
        self.wait_for(b"explore> mem 0 1002 1\r\nmem 000002\r\n")
        self.type("mem 0 1004 1\n")
        self.wait_for(b"\r\nmem 000003\r\n")
        self.type("at 5 tick\x16\nat 6 tick\x16\nevents\n")
        self.wait_for(b"\r\n2 events\r\n")
        self.type("quit\x16\nat 7 tick\n")
        self.wait_for(b"explore> quit\r\n")
        self.assertEqual(self.child.wait(SECONDS), 0)
        self.assertIn("2 edits taken up", self.explore("", "--resume"))


class Asked(Case):
    """Lines and replies of a machine of this process."""

    def setUp(self) -> None:
        super().setUp()
        self.machine = Machine(Start(BUILT.program, [], Path.cwd()))
        self.addCleanup(self.machine.close)

    def test_a_control_character_in_a_line(self) -> None:
        for line in ("at 5 tick\nat 6 tick", "core 1000 5\r", "core 1000 5\0", "core\f1000 5\x7f"):
            self.assertEqual(self.machine.ask(line), "refused 10 BadLine")
        self.assertEqual(self.machine.ask("at 5 tick\n" * 200), "refused 11 LineTooLong")
        self.assertEqual((self.machine.journal, self.machine.script), ([], []))
        self.assertEqual(self.machine.ask("at 7 tick"), "event 1")
        for line in ("# a comment", " \t", ""):
            self.assertRaisesRegex(ExploreError, "isn't one line", self.machine.ask, line)
        self.assertEqual(self.machine.ask("patches"), "patches 0")

    def test_more_lines_and_replies_than_pipes_hold(self) -> None:
        """The program reads no line while its replies aren't read."""
        lines = [f"mem 0 {2 * at:o} 256".ljust(200) for at in range(2000)]
        found: list[str] = []

        def ask() -> None:
            found.extend(self.machine.ask_all(lines, len(lines)))

        thread = threading.Thread(target=ask, daemon=True)
        thread.start()
        thread.join(SECONDS)
        self.assertEqual((len(found), {len(it) for it in found}), (2000, {3 + 256 * 7}))


class OutOfStep(Case):
    """A program that says too much, or something else, is stopped."""

    def says(self, reply: str) -> list[str]:
        stand_in = self.folder / "stand-in"
        stand_in.write_text(STAND_IN.format(python=sys.executable, reply=reply))
        stand_in.chmod(0o755)
        lines = "core 1000 5\nmem 0 1000 1\nregs 0\nevents\n"
        return self.explore(lines, "--program", str(stand_in)).splitlines()[1:]

    def test_another_reply(self) -> None:
        said = f"mem: the program's reply to 'mem 0 1000 1' is 'ok'{STARTED_AGAIN}"
        self.assertEqual(self.says("ok"), [said, "R0 000000 run", "0 events"])

    def test_a_reply_too_many(self) -> None:
        said = f"mem: the program says 'ok', which nothing asked for{STARTED_AGAIN}"
        self.assertEqual(self.says("mem 000005\nok"), [said, "R0 000000 run", "0 events"])


class Words(Case):
    """Spaces and tabs separate words, and only ASCII digits are digits."""

    def test_a_session_with_other_blanks(self) -> None:
        lines = (b"\f", b"\v", b"\x1c", b"\r", b"\x85", b"core\xc2\xa01000 5", b"core\x0b1002 5")
        session = b"core 1000 7\r\n" + b"".join(it + b"\r\n" for it in lines) + b"core\t1002 7\r"
        (self.folder / "my.session").write_bytes(session)
        self.assertEqual(self.explore("patches\n", "my.session"), "patches 1\ncore 001000 000007\n")
        said = self.error.splitlines()
        self.assertEqual([it.split(":")[2] for it in said], [str(it) for it in range(2, 10)])
        self.assertEqual(self.error.count(": refused 10 BadLine "), 8)
        why = "refused 10 BadLine the line has a control character, \\014"
        self.assertEqual(said[0], f"explore: my.session:2: \\014: {why}")
        replies = self.pdp11(session.decode("latin-1")).splitlines()
        self.assertEqual(replies.count("refused 10 BadLine"), 8)

    def test_lines_with_other_blanks(self) -> None:
        written = self.explore("\f\nmem\u00a00 0 1\nsee\f2\n\tmem\t0 0 1 \n")
        self.assertEqual(written.count("refused 10 BadLine"), 3)
        self.assertTrue(written.endswith("mem 000000\n"))

    def test_other_digits(self) -> None:
        three = "\N{ARABIC-INDIC DIGIT THREE}"
        for line in (
            f"see {three}",
            f"type x from {three}",
            f"page it.html to {three}",
            f"sweep tick from {three} to 5: regs 9",
            f"sweep -j {three} tick from 3 to 5: regs 9",
        ):
            written = self.explore(f"{line}\n", "examples/first-run.session")
            self.assertRegex(written, "^[a-z]+: .*(form|N of -j|a turn is missing)", line)


class Many(Case):
    """Very many keys, and lines that are far too long."""

    def test_more_keys_than_the_script_holds(self) -> None:
        """They are counted before the machine is asked."""
        full = "the script holds 65536 events, and has room for 65535 more; keys to type: "
        for text in ("a" * 1_000_000, "\\015" * 100_000, '"' + " " * 1_000_000 + '"'):
            written = self.explore(f"at 5 tick\ntype {text}\nevents\n").splitlines()
            self.assertTrue(written[1].startswith(f"type: {full}"), written[1])
            self.assertEqual(written[2], "1 event")

    def test_a_file_with_a_name_that_is_too_long(self) -> None:
        for line in ("save {}", "load {} at 5", "import {}", "page {} to 3"):
            written = self.explore(f"{line.format('=' * 1_000_000)}\n")
            said = "a FILE of 1000000 characters is longer than any path"
            self.assertEqual(written, f"{line.split()[0]}: {said}\n")
