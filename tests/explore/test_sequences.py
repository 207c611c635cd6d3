"""Control sequences that a program prints at the console: they are set back, and bring no keys."""
import signal

from nezdrab.core.visible import visible_bytes
from nezdrab.shell.sequences import Sequences

from .explore_case import SECONDS, Case
from .test_consoles import ECHO, LEAVE, AtConsole

# Each byte from 2000 on is printed, up to a zero, and then each key.
PRINT = [0o12701, 0o2000, 0o105737, 0o177564, 0o100375, 0o112100, 0o1403, 0o110037, 0o177566, 0o770]
# What a program may set, and what sets it back. The cursor is put nowhere.
SET = (
    (b"\x1b[31;1m", b"\x1b[m"),
    (b"\x1b[?25l", b"\x1b[?25h"),
    (b"\x1b[?7l", b"\x1b[?7h"),
    (b"\x1b[4h", b"\x1b[4l"),
    (b"\x1b[?1000;1006h", b"\x1b[?1000l\x1b[?1006l"),
    (b"\x1b[?2004h", b"\x1b[?2004l"),
    (b"\x1b[?1049h\x1b[5;6H", b"\x1b[r\x1b[?1049l"),
    (b"\x1b=\x1b[?1h", b"\x1b[?1l\x1b>"),
    (b"\x1b(0", b"\x1b(B\x1b)B\x1b*B\x1b+B"),
    (b"\x0e", b"\x0f"),
    (b"\x1b]11;red\a", b"\x1b]111\x1b\\"),
    (b"\x1b[>1u", b"\x1b[<99u\x1b[=0u"),
    (b"\x1b[?2l", b"\x1b<"),
    (b"\x1b[3;8r", b"\x1b[r\x1b[999;1H\r\n"),
    (b"\x1b[?6h", b"\x1b[r\x1b[?6l\x1b[999;1H\r\n"),
    (b"\x1b[?25l\x1b[?25h\x1b[H\x1b[Ja\r\n", b""),
    (b"\x1b[31m\x1bc", b""),
)
QUERIES = [b"\x1b[6n", b"\x1b[?6n", b"\x1b[5n", b"\x1b[c", b"\x1b[0c", b"\x1b[>c", b"\x1b[=c"]
QUERIES += [b"\x05", b"\x1bZ", b"\x1b[x", b"\x1b[18t", b"\x1b[?25$p", b"\x1b[>q", b"\x1b[?u"]
QUERIES += [b"\x1b]11;?\a", b"\x1b]4;1;?\x1b\\", b"\x1b]52;c;?\a", b"\x1bP$qm\x1b\\"]
QUERIES += [b"\x1bP+q544e\x1b\\", b"\x1b_Ga=q;\x1b\\", b"\x1b[?2;1S", b"\x1b[1*y", b"\xc2\x9b6n"]
QUERIES += [b"\x1b[?1004h", b"\x1b[?4m", b"\x1b[#R", b"\x1b]21;foreground=?\a", b"\x1b]60\a"]


class Sorted(Case):
    """What goes to the terminal, and what is written to set it back."""

    def test_what_is_set_is_set_back_once(self) -> None:
        for printed, wanted in SET:
            shown = Sequences(is_utf_8=True, has_answers=False)
            got = b"".join(shown.passed(bytes([it])) for it in printed)
            self.assertEqual((got, shown.set_back(), shown.set_back()), (printed, wanted, b""))

    def test_queries_are_withheld_wherever_they_are_cut(self) -> None:
        for query in QUERIES:
            for at in range(len(query) + 1):
                shown = Sequences(is_utf_8=True, has_answers=False)
                got = shown.passed(b"a" + query[:at]) + shown.passed(query[at:] + b"b")
                self.assertEqual((got, shown.withheld), (b"ab", 1), query)
            answered = Sequences(is_utf_8=True, has_answers=True)
            self.assertEqual(answered.passed(query), query.replace(b"\xc2\x9b", b"\x1b["))

    def test_what_is_no_query_goes_on(self) -> None:
        for printed, wanted in (
            (b"\x1b[8;24;80t\x1b[22;0t\x1b[?1c\x1b]0;a title;?\a\x1b[?1;2r\x1b(PX", None),
            (b"\xc5\x9bcz \xe2\x98\x9bZ \x9b6n", None),  # letters of UTF-8, and a byte that is none
            (b"\x1b[\n6n\x1b[6\rn\x1b[6\x1b[cn", b"\n\rn"),
            (b"\x1b[?1004;1000h", b"\x1b[?1000h"),
            (b"\x1b[6\x18n\x1b]x\x18y", b"\x18n\x18y"),
            (b"\xc2\x1b[6n\x9b6n", b"\x9b6n"),
            (b"\x1b[\x053\n1m\x1b\x05\x1b[m", b"\x1b[3\n1m\x1b[m"),
            (b"\x1b]" + b"x" * 70_000 + b"\x1b[m", b"\x1b[m"),
        ):
            shown = Sequences(is_utf_8=True, has_answers=False)
            self.assertEqual(shown.passed(printed), printed if wanted is None else wanted)
        latin = Sequences(is_utf_8=False, has_answers=False)
        self.assertEqual(latin.passed(b"\x9b6n\xe9\x9bm"), b"\xe9\x1b[m")

    def test_bytes_as_text(self) -> None:
        shown = visible_bytes(b"\x1b[31m\0\a\x7f\x9b\xff\\ a~\b\t\r\n")
        self.assertEqual(shown, b"\\033[31m\\000\\007\\177\\233\\377\\134 a~\b\t\r\n")


class Printed(AtConsole):
    """A program that prints sequences, at a terminal."""

    def prints(self, text: bytes) -> str:
        """A session whose program prints the text, and then each key."""
        data = text + bytes(2)
        patches = [f"core {0o2000 + at:o} {data[at] | data[at + 1] << 8:o}"
                   for at in range(0, len(data) - 1, 2)]
        return self.program(PRINT + ECHO, *patches)

    def test_however_it_is_left(self) -> None:
        text = b"\x1b[?1049h\x1b[2;5r\x1b[31m\x1b[?25lset"
        ways = [signal.SIGTERM, signal.SIGHUP, signal.SIGINT, signal.SIGTSTP, None]
        for way in ways:
            self.begin(self.prints(text))
            self.sit()
            self.wait_for(b"set")
            self.press(LEAVE) if way is None else self.child.send_signal(way)
            self.assertEqual(self.wait_for_bytes(b"\x1b[m"), b"\x1b[r\x1b[?1049l\x1b[?25h")
            self.child.kill()
            self.child.wait(SECONDS)
            self.seen = b""

    def test_an_answer_of_the_terminal_is_no_key(self) -> None:
        """The test answers as a terminal does, if it is asked."""
        self.begin(self.prints(b"A\x1b[6nB"))
        self.sit()
        self.wait_for(b"AB")
        self.assertIn("no event was made", self.leave())
        said = "1 query of the program didn't reach the terminal: see help console\r\n"
        self.wait_for(said.encode())
        answers = "queries reach the terminal, and its answers are keys"
        self.assertEqual(self.reply("console answers"), answers)
        self.sit("console from 0")
        self.wait_for(b"A\x1b[6nB")
        self.press(b"\x1b[1;3R")
        self.wait_for(b"\x1b[1;3R")
        self.assertEqual(self.keys_of(self.leave()), list(b"\x1b[1;3R"))
        self.reply("undo")
        self.reply("console silent")
        self.sit("console from 0")
        self.press(b"\x1b[1;3R")  # what looks like an answer and is typed or pasted
        self.wait_for(b"AB\x1b[1;3R")
        self.assertEqual(self.keys_of(self.leave()), list(b"\x1b[1;3R"))
        self.quit()

    def test_bytes_are_shown_as_text(self) -> None:
        self.begin(self.prints(b"\x1b[31mA\a\b\r\nB\x1b[6n"))
        said = "control bytes are shown as in text, ESC as \\033"
        self.assertEqual(self.reply("console escaped"), said)
        self.sit()
        self.wait_for(b"\\033[31mA\\007\b\r\nB\\033[6n")
        self.leave()
        self.reply("console raw")
        self.sit("console from 0")
        self.wait_for(b"\x1b[31mA\a\b\r\nB")
        self.leave()
        self.quit()
