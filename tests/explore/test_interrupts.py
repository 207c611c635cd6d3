"""Ctrl-C at any time: no edit is lost, and there is no traceback."""
import os
import signal
import subprocess
import time

from .explore_case import SECONDS
from .installed import BY_BLOCKING, BY_PS
from .terminal import AtTerminal

GAPS = (0.0, 0.001, 0.003, 0.005, 0.007, 0.01, 0.03, 0.1)


def is_not_ignored() -> None:
    """A shell starts what is in its background with Ctrl-C ignored."""
    signal.signal(signal.SIGINT, signal.SIG_DFL)


class Interrupts(AtTerminal):
    """Signals one after another, at a terminal and at the start."""

    def two_in_a_question(self, gap: float) -> None:
        self.type("regs 1000000000\n")
        self.wait_for(b"regs: at work, ")
        self.interrupt()
        time.sleep(gap)
        self.interrupt()
        self.wait_for(b"regs: stopped; the edits are all there")
        self.settle()

    def test_two_lose_no_edit(self) -> None:
        (self.folder / "my.session").write_text(
            "".join(f"core {1000 + 2 * it:o} {it:o}\n" for it in range(2000))
        )
        self.begin("my.session")
        for number, gap in enumerate(GAPS):
            self.type(f"at {number} key {number:o}\n")
            self.wait_for(b"event ")
            self.two_in_a_question(gap)
        self.type("events\n")
        self.wait_for(f"{len(GAPS)} events".encode())
        self.type("patches\n")
        self.wait_for(b"patches 2000")
        self.end()

    def test_while_the_program_is_started_again(self) -> None:
        (self.folder / "my.session").write_text("core 1000 1\n" * 30_000 + "core 1002 7\n")
        self.begin("my.session")
        self.two_in_a_question(0.01)
        for _ in range(3):
            self.type("regs 0\n")
            self.wait_for(b"regs 0")
            time.sleep(0.01)
            self.interrupt()
            self.settle()
        self.type("patches\n")
        self.wait_for(b"patches 2\r\ncore 001000 000001\r\ncore 001002 000007\r\n")
        self.end()

    def test_several_at_the_prompt_drop_the_line(self) -> None:
        self.begin("examples/first-run.session")
        self.wait_for(b"explore> ")
        for gap in GAPS[:4] * 40:
            os.write(self.ours, b"core 1000 1")
            for _ in range(3):
                self.interrupt()
                time.sleep(gap)
            self.assertIsNone(self.child.poll(), self.seen)
        self.settle()
        self.type("patches\n")
        self.wait_for(b"patches 3")
        self.end()

    def children(self) -> list[str]:
        """The programs that this explore has started, and that haven't ended."""
        command = ["ps", "-o", "pid=,stat=", "--ppid", str(self.child.pid)]
        found = subprocess.run(command, capture_output=True, text=True)
        return [it for it in found.stdout.splitlines() if "Z" not in it.split()[1]]

    @BY_PS
    def test_no_program_is_left(self) -> None:
        """One has what is at work now, or what is at work next."""
        self.begin("examples/one-key-sooner.session")
        lines = ("until mode user to 20000000\n", "sweep -j 3 key 101 from 5 to 900: regs 900000\n")
        for number in range(40):
            self.type(lines[number % 2])
            time.sleep(0.01 * number)
            self.interrupt()
            self.settle()
        limit = time.monotonic() + SECONDS
        while len(self.children()) > 2 and time.monotonic() < limit:
            time.sleep(0.1)
        self.assertLessEqual(len(self.children()), 2)  # the machine's and the disassembler
        self.end()

    @BY_BLOCKING
    def test_at_the_start(self) -> None:
        for number in range(50):
            child = subprocess.Popen(
                self.command("examples/first-run.session"),
                cwd=self.folder,
                env=self.environment(),
                stdin=subprocess.PIPE,
                stdout=subprocess.PIPE,
                stderr=subprocess.PIPE,
                preexec_fn=is_not_ignored,
            )
            time.sleep(0.003 * number)
            child.send_signal(signal.SIGINT)
            _, error = child.communicate(timeout=SECONDS)
            self.assertNotIn(b"Traceback", error)
            self.assertIn(child.returncode, (130, -signal.SIGINT))
            if child.returncode == 130:
                self.assertEqual(error, b"explore: stopped\n")
