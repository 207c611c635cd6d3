"""The console at a terminal, which the tests sit at."""
import fcntl
import os
import re
import select
import signal
import subprocess
import termios
import time
from contextlib import suppress
from typing import Callable
from unittest import mock

from nezdrab.shell import console
from tests import processes

from .explore_case import BUILT, SECONDS
from .installed import BY_PS
from .terminal import AtTerminal

LEAVE, NEW_LINE = b"\x05", b"\r\n"
# Each key is printed: TSTB @#TKS, BPL, MOVB @#TKB,R0, TSTB @#TPS, BPL, MOVB R0,@#TPB, BR
ECHO = [0o105737, 0o177560, 0o100375, 0o113700, 0o177562, 0o105737, 0o177564, 0o100375, 0o110037]
ECHO += [0o177566, 0o765]
# The last key is printed again and again, from the start on a dot.
FLOOD = [0o12700, 0o56, 0o105737, 0o177560, 0o100002, 0o113700, 0o177562, 0o105737, 0o177564]
FLOOD += [0o100375, 0o110037, 0o177566, 0o765]
FURTHER_RATES = [("console rate 60", 60), ("console rate 250000", 250_000), ("console rate 60", 60)]
BOOT = ("--start", "2000", "examples/boot-rk0.session")


def take_terminal() -> None:
    """Makes standard input the terminal of the session, and ends what the caller ignores."""
    fcntl.ioctl(0, termios.TIOCSCTTY, 0)
    for number in (signal.SIGINT, signal.SIGHUP, signal.SIGQUIT):
        signal.signal(number, signal.SIG_DFL)


def take_terminal_for_ever() -> None:
    """The same, and the end of the terminal ends no process."""
    take_terminal()
    signal.signal(signal.SIGHUP, signal.SIG_IGN)


class AtConsole(AtTerminal):
    """A test that sits at the console."""

    def setUp(self) -> None:
        super().setUp()
        self.prepare = take_terminal

    def begin(self, *words: str) -> None:
        super().begin(*words)
        self.settings = termios.tcgetattr(self.ours)

    def program(self, words: list[int], *lines: str) -> str:
        """A session with this program at 1000."""
        core = [f"core {0o1000 + 2 * number:o} {word:o}" for number, word in enumerate(words)]
        (self.folder / "my.session").write_text("".join(f"{it}\n" for it in (*core, *lines)))
        return "my.session"

    def sit(self, line: str = "console") -> str:
        """Sits down, and returns what is said before."""
        self.type(f"{line}\n")
        return self.wait_for(b"Ctrl-E leaves\r\n")

    def press(self, keys: bytes) -> None:
        os.write(self.ours, keys)

    def leave(self) -> str:
        """Leaves, and returns the line that is shown then."""
        self.press(LEAVE)
        self.wait_for_bytes(b"turn ")
        return "turn " + self.wait_for(b"\r\n")

    def reply(self, line: str, last: bytes = b"\r\n") -> str:
        """What a line at the prompt gives, up to these bytes, without a sign that it is at work."""
        self.type(f"{line}\n")
        self.wait_for(f"{line}\r\n".encode())
        return re.sub(r"\r\w+: at work, \d+ s |\r *(?!\n)", "", self.wait_for(last))

    def keys_of(self, left: str) -> list[int]:
        """The keys of the events that the line at the end tells of."""
        return [int(it[3], 8) for it in self.events_of(left)]

    def events_of(self, left: str) -> list["re.Match[str]"]:
        """The events that the line at the end tells of: number, turn and key. Each is in a later
        turn than the one before."""
        found = re.search(r"event(?:s (\d+) to)? (\d+) (?:was|were) made", left)
        assert found, left
        numbers = range(int(found[1] or found[2]), int(found[2]) + 1)
        lines = self.reply("events", b"explore> ").splitlines()
        self.seen = b"explore> " + self.seen
        events = [re.match(r"event +(\d+)  at +(\d+)  key ([0-7]+)", it) for it in lines]
        made = [it for it in events if it and int(it[1]) in numbers]
        turns = [int(it[2]) for it in made]
        self.assertEqual(turns, sorted(set(turns)))
        self.assertEqual([int(it[1]) for it in made], list(numbers))
        return made

    def quit(self) -> None:
        """Ends explore. The terminal is as it was before it began."""
        self.type("quit!\n")
        self.assertEqual(self.child.wait(SECONDS), 0)
        self.assertEqual(termios.tcgetattr(self.ours), self.settings)

    def ends_with(self, status: int) -> None:
        """explore has ended so, and the terminal is as it was before it began."""
        limit = time.monotonic() + SECONDS
        with suppress(OSError):  # once nobody has the terminal
            while time.monotonic() < limit:
                if select.select([self.ours], [], [], 0.05)[0]:
                    self.read()
        self.assertEqual(self.child.wait(SECONDS), status)
        self.assertEqual(termios.tcgetattr(self.ours), self.settings)


class Sitting(AtConsole):
    """Boot, type, leave, and what becomes of the keys."""

    def test_a_disk_is_booted_and_a_key_is_moved(self) -> None:
        self.begin("--disk", "examples/moved-keys.disk", *BOOT)
        self.reply("delay printer 260")
        said = self.sit()
        self.assertIn("from turn 0 on, 250000 turns a second; delay clock 4167 is 60 ticks", said)
        self.wait_for(b"COUNTS THE KEYS OF A LINE\r\n* ")
        for key in b"hello":
            self.press(bytes([key]))
            self.wait_for(bytes([key]))
        self.press(b"\r")
        self.wait_for(b"\r\n05 KEYS\r\n* ")
        left = self.leave()
        self.assertRegex(left, r"^turn \d+: \d+ turns in \d+\.\d s; events 1 to 6 were made$")
        self.assertEqual(self.keys_of(left), list(b"hello\r"))
        turn = left.split(":")[0].split()[1]
        self.assertIn("* hello\\015\\01205 KEYS\\015\\012* ", self.reply(f"text {turn}"))
        self.assertEqual(self.reply("alter 5 3000 key 157"), "ok")
        self.assertIn("* ohell\\015\\01205 KEYS\\015\\012* ", self.reply(f"text {turn}"))
        self.assertEqual(self.reply("alter 4 3001 key 154"), "ok")
        self.assertIn("* lhel\\015\\01204 KEYS\\015\\012* ", self.reply(f"text {turn}"))
        self.assertIn("* lhel\r\n04 KEYS\r\n*\r\n", self.reply("screen", b"explore> "))
        self.seen = b"explore> "
        self.quit()

    def test_a_machine_that_is_halted(self) -> None:
        self.begin("--disk", "examples/boot-rk0.disk", *BOOT)
        self.sit()
        self.wait_for(b"BOOTED FROM RK0\r\n[the processor is halted; Ctrl-E leaves]\r\n")
        self.press(b"ab")
        left = self.leave()
        self.assertRegex(left, "; event 1 was made; the keyboard didn't take 1 of the keys$")
        self.assertEqual(self.keys_of(left), list(b"a"))
        self.assertEqual(self.reply("alter 1 30 key 101"), "ok")
        self.assertEqual(self.reply("text 1000"), "text 17:BOOTED FROM RK0\\015\\012")
        self.assertIn("TKS 000200 TKB 000101", self.reply("devices 31"))
        self.quit()

    def test_it_goes_on_where_it_was_left(self) -> None:
        self.begin(self.program(ECHO, "at 40 key 101"))
        self.assertIn("from turn 41 on", self.sit())
        self.press(b"B")
        self.wait_for(b"AB")
        turn = re.match(r"turn (\d+)", self.leave())
        assert turn
        said = self.sit()
        self.assertIn(f"from turn {turn[1]} on", said)
        self.wait_for(b"AB")  # the line that it is in
        self.press(b"C")
        self.wait_for(b"C")
        self.leave()
        left = int(self.reply("show").split()[2][:-1])
        self.assertGreater(left, int(turn[1]))
        self.assertIn("taken back: console", self.reply("undo"))
        self.assertEqual(self.turn, left)  # in the prompt
        self.assertIn("text 2:AB", self.reply(f"text {turn[1]}"))
        self.quit()

    def test_from_a_turn_with_events_ahead(self) -> None:
        self.begin(self.program(ECHO, "at 40 key 101", "at 50000 key 102", "at 60000 key 103"))
        said = self.sit("console from 100")
        self.assertIn("from turn 100 on", said)
        ahead = "2 events lie ahead, from turn 50000 on: they happen too, or drop from 100 first"
        self.assertIn(ahead, said)
        self.wait_for(b"ABC")
        self.leave()
        self.assertEqual(self.reply("drop from 100"), "2 events dropped")
        self.assertNotIn("ahead", self.sit("console from 100"))
        self.press(b"Z")
        self.wait_for(b"AZ")
        self.assertEqual(self.keys_of(self.leave()), list(b"Z"))
        self.quit()

    def test_leaving_at_once(self) -> None:
        self.begin(self.program(ECHO))
        self.sit()
        self.assertRegex(self.leave(), r"^turn \d+: \d+ turns in \d+\.\d s; no event was made$")
        self.sit()
        self.press(b"abc" + LEAVE + b"events\n")  # what comes after Ctrl-E is for the prompt
        self.wait_for(b"events 1 to 3 were made\r\nexplore> events\r\n3 events\r\n")
        self.quit()

    def test_it_wants_a_terminal(self) -> None:
        lines = ("console", "console from x", "console rate", "console 7bit", "console 8bit")
        written = self.explore("".join(f"{it}\n" for it in lines))
        form = "console: the form is: console [from N] [rate R]  or  console"
        form += " 7bit|8bit|escaped|raw|answers|silent"
        self.assertEqual(
            written.splitlines(),
            ["console: lines don't come from a terminal here", form, form]
            + ["bit 7 of what is printed is cleared", "all bits are shown"],
        )


class Keys(AtConsole):
    """Which bytes go through, and how fast."""

    def test_every_byte_but_ctrl_e(self) -> None:
        self.begin(self.program(ECHO))
        self.sit()
        keys = bytes(it for it in range(256) if it != LEAVE[0])
        self.press(keys)
        self.wait_for_bytes(keys)
        self.assertEqual(self.keys_of(self.leave()), list(keys))
        self.quit()

    def test_ctrl_c_is_a_key(self) -> None:
        self.begin(self.program(ECHO))
        self.sit()
        self.press(b"\x03\x1a\x1c\x13\x11\r\n\x04")
        self.wait_for(b"\x03\x1a\x1c\x13\x11\r\n\x04")
        self.assertEqual(self.keys_of(self.leave()), list(b"\x03\x1a\x1c\x13\x11\r\n\x04"))
        self.quit()

    def test_a_paste(self) -> None:
        """It takes few turns, and little of the processor, which other work changes neither."""
        for line, rate in (("console", 250_000), ("console rate 1000000", 1_000_000)):
            self.assertLess(self.paste(line)[0], 5 * rate, line)
        self.assertLess(self.paste("console rate 0")[1], 5)

    def paste(self, line: str) -> tuple[int, float]:
        """The turns that a paste takes, and the processor's seconds."""
        keys = b"".join(b"%04d, " % it for it in range(75))
        self.begin(self.program(ECHO))
        self.sit(line)
        before = processes.seconds(self.child.pid)
        self.press(keys)
        self.wait_for(keys)
        took = processes.seconds(self.child.pid) - before
        events = self.events_of(self.leave())
        self.assertEqual([int(it[3], 8) for it in events], list(keys))
        self.quit()
        self.seen = b""
        return int(events[-1][2]) - int(events[0][2]), took

    def test_seven_bits(self) -> None:
        self.begin(self.program(ECHO))
        self.assertEqual(self.reply("console 7bit"), "bit 7 of what is printed is cleared")
        self.sit()
        self.press(b"\xc1B\xff")
        self.wait_for(b"AB\x7f")
        self.assertEqual(self.keys_of(self.leave()), [0o301, 0o102, 0o377])
        self.assertEqual(self.reply("text 5000000"), "text 3:\\301B\\377")
        self.reply("console 8bit")
        self.sit("console from 0")
        self.wait_for_bytes(b"\xc1B\xff")
        self.leave()
        self.quit()

    def test_a_full_script(self) -> None:
        events = (f"at {900_000_000 + it} tick" for it in range(65_535))
        self.begin(self.program(ECHO, *events))
        self.sit("console from 0")
        self.press(b"ab")
        self.wait_for(b"; event 65536 was made; the keyboard didn't take 1 of the keys\r\n")
        self.wait_for(b"console: refused 6 ScriptFull: the script is full\r\n")
        self.quit()


class Pace(AtConsole):
    """Rates, floods and the last turn."""

    def turns_and_seconds(self, left: str) -> list[float]:
        found = re.search(r": (\d+) turns in (\d+\.\d) s", left)
        assert found, left
        return [float(found[1]), float(found[2])]

    def comes_within(self, seconds: float, off: Callable[[], float]) -> None:
        """That what is off comes within so many seconds: a computer that has other work is late at
        times, and drops turns, so it is tried again."""
        limit = time.monotonic() + SECONDS
        while (found := off()) >= seconds:
            self.assertLess(time.monotonic(), limit, found)

    def test_the_rate_is_held(self) -> None:
        self.begin(self.program(ECHO))
        for line, rate in [("console", 250_000), *FURTHER_RATES]:

            def off() -> float:
                said = f", {rate} turns a second; delay clock {-(-rate // 60)} is 60 ticks a second"
                self.assertIn(said, self.sit(line))
                time.sleep(1)
                turns, seconds = self.turns_and_seconds(self.leave())
                return abs(turns / rate - seconds)

            self.comes_within(0.2, off)
        self.quit()

    def test_a_key_is_in_the_turn_in_which_it_is_struck(self) -> None:
        """The time between two keys is that of their turns."""
        self.begin(self.program(ECHO))

        def off() -> float:
            self.sit()
            self.press(b"a")
            self.wait_for(b"a")
            begun = time.monotonic()
            time.sleep(1)
            self.press(b"b")
            seconds = time.monotonic() - begun
            self.wait_for(b"b")
            first, second = (int(it[2]) for it in self.events_of(self.leave()))
            return abs((second - first) / 250_000 - seconds)

        self.comes_within(0.1, off)
        self.quit()

    def test_a_rate_of_none_is_faster(self) -> None:
        self.begin(self.program(ECHO))
        before = processes.seconds(self.child.pid)
        self.assertIn("from turn 0 on, as fast as this computer can", self.sit("console rate 0"))
        time.sleep(1)
        turns, _ = self.turns_and_seconds(self.leave())
        # Far faster than the usual rate, by the processor's seconds.
        self.assertGreater(turns, 2 * 250_000 * (processes.seconds(self.child.pid) - before))
        self.quit()

    def test_typing_while_output_floods(self) -> None:
        """What is shown is what is printed, byte for byte, and each key is taken."""
        self.begin(self.program(FLOOD))
        self.sit("console rate 0")
        shown = ""
        for before, key in ((".", "x"), ("x", "y"), ("y", "z")):
            shown += self.wait_for(before.encode()) + before
            self.press(key.encode())
            shown += self.wait_for(key.encode()) + key
        self.press(LEAVE)
        shown += self.wait_for(b"\r\nturn ")
        left = f"turn {self.wait_for(NEW_LINE)}"
        self.assertEqual(self.keys_of(left), list(b"xyz"))
        text = self.reply(f"text {left.split(':')[0].split()[1]}").split(":")[1]
        self.assertTrue(text == shown)
        self.assertRegex(text, r"^\.+x+y+z+$")
        self.quit()

    def test_no_slice_asks_for_the_whole_text(self) -> None:
        """The program is asked what was printed since, and never about an earlier turn."""
        spy = self.folder / "spy"
        spy.write_text(f'#!/bin/sh\ntee lines | "{BUILT.program}" "$@"\n')
        spy.chmod(0o755)
        self.begin(self.program(FLOOD), "--program", str(spy))
        self.sit("console rate 0")
        for key in (b"a", b"b", b"c"):
            self.press(key)
            self.wait_for_bytes(key)
        self.press(LEAVE)
        self.wait_for_bytes(b"events 1 to 3 were made")
        self.quit()
        lines = (self.folder / "lines").read_text().splitlines()
        begun = lines.index("text 0") + 1
        asked = [it.split() for it in lines[begun:]]
        texts = [it for it in asked if it[0] == "text"]
        self.assertGreater(len(texts), 2)
        self.assertTrue(all(it[2] == "from" for it in texts))
        turns = [int(it[1]) for it in asked]
        self.assertEqual(turns, sorted(turns))

    def test_the_last_turns(self) -> None:
        self.begin(self.program([0o1], "at 899999000 tick"))  # WAIT
        self.sit()
        self.wait_for(b"[turn 900000000; the run ends at turn 1000000000]\r\n")
        self.assertIn("no event was made", self.leave())
        begun = self.sit("console from 999999990")
        self.assertIn("the run has 10 turns left, up to turn 1000000000", begun)
        self.wait_for(b"turn 1000000000, the end of the run: 10 turns in ")
        why = "console: turn 1000000000 is the end of the run: the last turn is 999999999"
        self.assertEqual(self.reply("console from 1000000000"), why)
        self.quit()


    def test_turns_that_are_due(self) -> None:
        slow, fast = console.Pace(1, 0, 0.0), console.Pace(250_000, 100, 5.0)
        self.assertEqual([slow.due(it, 0) for it in (0.9, 1.0)], [0, 1])
        self.assertEqual([fast.due(5 + it / 64, 100) for it in (1, 4)], [4006, 15725])
        self.assertEqual(fast.due(65, 100), 100)  # it was suspended for a minute
        self.assertEqual(fast.due(65 + 1 / 64, 100), 4006)
        self.assertEqual(console.Pace(0, 7, 5.0).due(5, 7), 1_000_000_000)

    def test_a_slice_that_takes_long_is_shorter_the_next_time(self) -> None:
        part = console.Slice(0.008)
        noted = [(20_000, 0.001, 40_000), (500, 0.001, 40_000), (40_000, 0.1, 20_000)]
        for turns, took, wanted in [*noted, (20_000, 0.1, 20_000), (20_000, 0.3, 10_000)]:
            part.note(turns, took)
            self.assertEqual(part.turns, wanted)


class Breaks(AtConsole):
    """However the console ends, the terminal is as before, and no event is lost."""

    def sit_and_type(self, *words: str) -> None:
        self.begin(self.program(ECHO), *words)
        self.sit()
        self.press(b"abc")
        self.wait_for(b"abc")

    def close_terminal(self) -> None:
        nowhere = os.open(os.devnull, os.O_RDWR)
        os.dup2(nowhere, self.ours)
        os.close(nowhere)

    def taken_up(self) -> None:
        written = self.explore("text 5000000\n", "--resume")
        self.assertIn("3 edits taken up", written)
        self.assertIn("text 3:abc", written)

    def test_the_terminal_is_closed(self) -> None:
        self.sit_and_type()
        self.close_terminal()
        self.assertEqual(self.child.wait(SECONDS), -signal.SIGHUP)
        self.taken_up()

    def test_the_terminal_is_closed_and_nobody_is_told(self) -> None:
        """As after nohup."""
        self.prepare = take_terminal_for_ever
        self.sit_and_type()
        self.close_terminal()
        self.assertEqual(self.child.wait(SECONDS), 1)
        self.taken_up()

    def test_signals_that_end_it(self) -> None:
        for number in (signal.SIGTERM, signal.SIGHUP, signal.SIGQUIT):
            self.sit_and_type()
            self.child.send_signal(number)
            self.ends_with(-number)
            self.taken_up()
            self.seen = b""

    def test_a_signal_in_a_paste(self) -> None:
        """The events whose keys were echoed are in the journal."""
        for number in range(10):
            self.begin(self.program(ECHO))
            self.sit()
            self.press(b"0123456789" * 40)
            time.sleep(0.01 * number)
            self.child.send_signal(signal.SIGTERM)
            self.ends_with(-signal.SIGTERM)
            shown = re.sub(rb"[^0-9]", b"", self.seen)
            written = self.explore("text 5000000\n", "--resume", status=None)
            if shown:
                self.assertIn(f":{shown.decode()}", written)
            for path in (self.folder / "state" / "nezdrab").glob("*.journal"):
                path.unlink()
            self.seen = b""

    def test_an_interrupt_from_elsewhere_leaves(self) -> None:
        self.sit_and_type()
        self.child.send_signal(signal.SIGINT)
        self.wait_for(b"events 1 to 3 were made\r\n")
        self.assertEqual(self.reply("text 5000000"), "text 3:abc")
        self.quit()

    def test_it_is_suspended_and_goes_on(self) -> None:
        self.sit_and_type()
        raw = termios.tcgetattr(self.ours)
        self.child.send_signal(signal.SIGSTOP)
        termios.tcsetattr(self.ours, termios.TCSANOW, self.settings)  # as a shell does
        self.child.send_signal(signal.SIGCONT)
        self.becomes(raw)
        self.child.send_signal(signal.SIGTSTP)  # which stops no process that no shell waits for
        self.becomes(raw)
        self.press(b"d")
        self.wait_for(b"d")
        self.assertIn("events 1 to 4 were made", self.leave())
        self.quit()

    def becomes(self, settings: list[object]) -> None:
        limit = time.monotonic() + SECONDS
        while termios.tcgetattr(self.ours) != settings and time.monotonic() < limit:
            time.sleep(0.01)
        self.assertEqual(termios.tcgetattr(self.ours), settings)

    @BY_PS
    def test_the_program_ends(self) -> None:
        self.sit_and_type()
        children = ["ps", "-o", "pid=,args=", "--ppid", str(self.child.pid)]
        found = subprocess.run(children, capture_output=True, text=True)
        (pid,) = [it.split()[0] for it in found.stdout.splitlines() if BUILT.program in it]
        os.kill(int(pid), signal.SIGKILL)
        self.wait_for(b"events 1 to 3 were made\r\n")
        self.wait_for(b"console: the program ended with status -9")
        self.assertEqual(self.reply("text 5000000"), "text 3:abc")
        self.sit()
        self.press(b"d")
        self.wait_for(b"abcd")
        self.leave()
        self.quit()

    def test_a_pipe_that_is_closed(self) -> None:
        explore = self.command(self.program(FLOOD))
        script = '"$@" | head -c 1000 >/dev/null; exit ${PIPESTATUS[0]}'
        piped = ["bash", "-c", script, "bash", *explore]
        with mock.patch.object(self, "command", return_value=piped):
            self.begin()
        self.press(b"console\n")
        self.ends_with(3)
        self.assertIn(b"explore: the output can't be written", self.seen)
