"""What Ctrl-C does: it ends what is under way, once. Between what may be ended it is put off, so
that no edit is cut in two, and a second Ctrl-C finds nothing half done."""
import signal
import threading
from contextlib import contextmanager
from types import FrameType
from typing import Iterator, Optional


def typed_line(prompt: str) -> str:
    """A line that is typed at the prompt. Each Ctrl-C raises here, since `input` drops one that
    comes while it flushes, and fails if the handler returns after another has raised."""
    return input(prompt)


class Interrupts:
    """Whether Ctrl-C ends what the main thread does now, whether one was put off, and how many
    came."""

    def __init__(self) -> None:
        self.ends, self.came, self.count = False, False, 0

    def install(self) -> None:
        signal.signal(signal.SIGINT, self.handle)

    def handle(self, number: int, frame: Optional[FrameType]) -> None:
        self.count += 1
        if frame is not None and frame.f_code is typed_line.__code__:
            self.ends = False
            signal.default_int_handler(number, frame)  # `raise` fails if another has raised
        if self.ends:
            self.ends = False
            raise KeyboardInterrupt
        self.came = True

    @contextmanager
    def allowed(self) -> Iterator[None]:
        """What Ctrl-C ends. One that came before ends it at once."""
        try:
            self.ends = True
            if self.came:
                self.came = self.ends = False
                raise KeyboardInterrupt
            yield
        finally:
            self.ends = False

    def again(self) -> None:
        """Those that came count no more. The next one ends what follows in what is allowed."""
        self.came, self.ends = False, True

    def forget(self) -> None:
        """Those that came count no more: what they were to end has ended."""
        self.came = False

    @contextmanager
    def held(self) -> Iterator[None]:
        """A part that is done whole. A Ctrl-C that came meanwhile counts at its end."""
        if not self.ends or threading.current_thread() is not threading.main_thread():
            yield
            return
        self.ends = False
        try:
            yield
        finally:
            self.ends = not self.came
        if self.came:
            self.came = self.ends = False
            raise KeyboardInterrupt


INTERRUPTS = Interrupts()
