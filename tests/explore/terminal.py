"""explore at a pseudo terminal, which the tests type at."""
import os
import pty
import re
import select
import signal
import subprocess
import time
from typing import Callable, Optional

from tests import processes

from .explore_case import SECONDS, Case


PROMPT = re.compile(rb"explore ([0-9]+)> ")


class AtTerminal(Case):
    """A test that types, and reads what is shown. `prepare` is done in the child first."""

    prepare: Optional[Callable[[], None]] = None

    def setUp(self) -> None:
        super().setUp()
        self.seen = b""
        self.turn = 0

    def begin(self, *words: str) -> None:
        ours, theirs = pty.openpty()
        self.child = subprocess.Popen(
            self.command(*words),
            cwd=self.folder,
            env=self.environment(),
            start_new_session=True,
            stdin=theirs,
            stdout=theirs,
            stderr=theirs,
            preexec_fn=self.prepare,
        )
        os.close(theirs)
        self.ours = ours
        self.addCleanup(os.close, ours)
        self.addCleanup(self.child.wait)
        self.addCleanup(self.child.kill)

    def wait_for(self, text: bytes) -> str:
        """Reads until the text is there; returns what was read up to it."""
        return self.wait_for_bytes(text).decode()

    def wait_for_bytes(self, text: bytes) -> bytes:
        limit = time.monotonic() + SECONDS
        while text not in self.seen:
            self.assertLess(time.monotonic(), limit, f"{text!r} doesn't come after {self.seen!r}")
            if select.select([self.ours], [], [], 0.2)[0]:
                self.read()
        before, _, self.seen = self.seen.partition(text)
        return before

    def read(self) -> None:
        """Reads what is shown. The turn in a prompt is left out, and kept in `turn`."""
        self.seen += os.read(self.ours, 65536)
        self.turn = int([self.turn, *PROMPT.findall(self.seen)][-1])
        self.seen = PROMPT.sub(b"explore> ", self.seen)

    def type(self, text: str) -> None:
        """Types at the next prompt. What is typed before it is echoed twice."""
        self.wait_for(b"explore> ")
        os.write(self.ours, text.encode())

    def end(self) -> None:
        self.type("\x04")
        self.assertEqual(self.child.wait(SECONDS), 0)

    def interrupt(self) -> None:
        """What the terminal does at Ctrl-C."""
        os.killpg(self.child.pid, signal.SIGINT)

    def settle(self) -> None:
        """Lets signals that were sent have their effect, up to the prompt that is there then."""
        limit = time.monotonic() + SECONDS
        while True:
            if select.select([self.ours], [], [], 0.3)[0]:
                self.read()
            elif b"explore> " in self.seen.rpartition(b"\n")[2]:
                if processes.all_wait(self.child.pid):
                    break
            self.assertLess(time.monotonic(), limit, f"no prompt comes after {self.seen!r}")
        self.seen = b"explore> "

    def drop_line(self) -> None:
        """Ctrl-C where a line is typed: it counts once readline waits for input."""
        limit = time.monotonic() + SECONDS
        next_one = 0.0
        while b"explore> " not in self.seen:
            self.assertLess(time.monotonic(), limit, f"no prompt comes after {self.seen!r}")
            if time.monotonic() > next_one:
                self.interrupt()
                next_one = time.monotonic() + 3
            if select.select([self.ours], [], [], 0.2)[0]:
                self.read()
        self.settle()
