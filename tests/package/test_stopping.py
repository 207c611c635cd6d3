"""Questions that are stopped, programs that end: the machine goes on with all its edits."""
import os
import signal
import threading
import warnings
from contextlib import contextmanager
from types import FrameType
from typing import Iterator, Optional, Sequence
from unittest import mock

from nezdrab import Machine, ProgramEnded, TimedOut

from .machine_case import SECONDS, Case, program

LOOP = [0o5200, 0o776]  # INC R0; BR .-2
SOON = 0.3  # seconds; what is stopped waits for ever


@contextmanager
def ctrl_c() -> Iterator[None]:
    """A part in which Ctrl-C comes."""
    timer = threading.Timer(SOON, os.kill, (os.getpid(), signal.SIGINT))
    timer.start()
    try:
        yield
    finally:
        timer.join()


class Stopping(Case):
    def setUp(self) -> None:
        """A shell starts what is in its background with Ctrl-C ignored."""
        super().setUp()
        before = signal.signal(signal.SIGINT, signal.default_int_handler)
        self.addCleanup(signal.signal, signal.SIGINT, before)

    def stuck(self, word: str) -> Machine:
        """A machine with edits, whose program never replies to lines that begin with the word."""
        machine = self.machine(program=self.stuck_program(word), seconds=SECONDS)
        machine.core[0o1000] = LOOP
        self.assertEqual(machine.at(9, "tick"), 1)
        return machine

    def check(self, machine: Machine) -> None:
        """The machine goes on."""
        self.assertEqual(machine.regs(20).r0, 10)
        self.assertEqual([it.line() for it in machine.events()], ["at 9 tick"])
        self.assertEqual(len(machine.patches()), 2)

    def test_too_long(self) -> None:
        machine = self.stuck("trail 7")
        machine.seconds = SOON
        with self.assertRaisesRegex(TimedOut, "within 0.3 s"):
            machine.trail(7, 3)
        with self.assertRaises(TimedOut):
            machine.ask_all(["regs 5", "trail 7 3", "regs 6"])
        with self.assertRaises(TimedOut):
            list(machine.sweep(1, [2], "trail 7 3"))
        machine.seconds = SECONDS
        with machine.fork() as other:
            other.seconds = SOON
            with self.assertRaises(TimedOut):
                other.trail(7, 3)
        self.check(machine)
        machine.seconds = None
        self.assertEqual(len(machine.trail(8, 3)), 3)

    def interrupted(self, machine: Machine, line: str) -> None:
        """Ctrl-C comes while a line waits for its reply."""
        with self.assertRaises(KeyboardInterrupt), ctrl_c():
            machine.edit(line) if line.startswith("at") else machine.ask(line)

    def test_ctrl_c(self) -> None:
        machine = self.stuck("trail 7")
        self.interrupted(machine, "trail 7 3")
        self.check(machine)

    def test_ctrl_c_in_an_edit(self) -> None:
        """The edit isn't made, and uses no number up."""
        machine = self.stuck("at 7")
        self.interrupted(machine, "at 7 tick")
        self.check(machine)
        self.assertEqual(machine.at(8, "tick"), 2)

    def test_ctrl_c_after_the_reply(self) -> None:
        """The program has made the edit, and the machine hasn't taken it in: it isn't made."""
        machine = self.stuck("trail 7")
        engine = machine._engine

        def late(lines: Sequence[str], ahead: int) -> Iterator[str]:
            engine.begin().replies(lines)
            raise KeyboardInterrupt

        with mock.patch.object(engine, "ask_all", late), self.assertRaises(KeyboardInterrupt):
            machine.at(3, "tick")
        self.check(machine)

    def test_an_error_of_a_signal(self) -> None:
        """As tools that limit the time of tests raise one."""

        def over(number: int, frame: Optional[FrameType]) -> None:
            raise ZeroDivisionError

        machine, before = self.stuck("trail 7"), signal.signal(signal.SIGALRM, over)
        self.addCleanup(signal.signal, signal.SIGALRM, before)
        signal.setitimer(signal.ITIMER_REAL, SOON)
        with self.assertRaises(ZeroDivisionError):
            machine.trail(7, 3)
        self.check(machine)

    def test_ctrl_c_in_a_sweep(self) -> None:
        machine = self.stuck("trail 7")
        with self.assertRaises(KeyboardInterrupt), ctrl_c():
            list(machine.sweep(1, range(10), "trail 7 3", processes=2))
        self.check(machine)

    def test_a_program_that_ends(self) -> None:
        machine = self.machine()
        machine.core[0o1000] = LOOP
        machine.at(9, "tick")
        machine._engine.begin().process.kill()
        with self.assertRaisesRegex(ProgramEnded, "status -9; the next line starts it again"):
            machine.regs(5)
        self.check(machine)

    def test_a_program_that_is_none(self) -> None:
        for program in "/bin/true", "/bin/echo":
            with self.assertRaisesRegex(ProgramEnded, "the program"):
                Machine(program=program)

    def test_closed(self) -> None:
        """Nothing starts it again."""
        with self.machine() as machine:
            self.assertEqual(machine.regs(0).pc, 0o1000)
        for line in "regs 0", "at 5 tick":
            with self.assertRaises(ProgramEnded) as caught:
                machine.edit(line) if line.startswith("at") else machine.ask(line)
            self.assertEqual(str(caught.exception), "the machine was closed")
        machine.close()

    def test_unclosed(self) -> None:
        """The program of a machine ends with it, and leaves no zombie; but not with a copy of the
        machine in a process that os.fork makes."""
        machine = Machine(program=program())
        process = machine._engine.begin().process.pid
        child = os.fork()
        if child == 0:
            warnings.simplefilter("ignore")  # the copy's pipes are closed unsaid
            del machine
            os._exit(0)
        os.waitpid(child, 0)
        self.assertEqual(machine.regs(5).pc, 0o1002)
        del machine
        with self.assertRaises(ProcessLookupError):
            os.kill(process, 0)
