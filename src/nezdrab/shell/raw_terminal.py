"""The terminal in raw mode: each key as it is struck, each byte as it is written."""
import os
import select
import signal
import sys
import termios
from contextlib import contextmanager, suppress
from types import FrameType, TracebackType
from typing import Any, Iterator, Optional

from ..core.errors import ExploreError
from .output import Unwritable
from .sequences import Sequences

ENDING = (signal.SIGTERM, signal.SIGHUP, signal.SIGQUIT)
MOST_KEYS = 4096
WRITING_SECONDS = 0.5


def raw(settings: list[Any]) -> list[Any]:
    """These settings so that each byte is read and written as it is."""
    of_input, of_output, of_control, of_line, *others = settings
    of_input &= ~(termios.IGNBRK | termios.BRKINT | termios.PARMRK | termios.INPCK)
    of_input &= ~(termios.ISTRIP | termios.INLCR | termios.IGNCR | termios.ICRNL)
    of_input &= ~(termios.IXON | termios.IXOFF)
    of_output &= ~termios.OPOST
    of_control = of_control & ~(termios.CSIZE | termios.PARENB) | termios.CS8
    of_line &= ~(termios.ECHO | termios.ECHONL | termios.ICANON | termios.ISIG | termios.IEXTEN)
    *speeds, characters = others
    characters = list(characters)
    characters[termios.VMIN], characters[termios.VTIME] = 1, 0
    return [of_input, of_output, of_control, of_line, *speeds, characters]


class RawTerminal:
    """Standard input in raw mode, and what a program prints. Both are put back however that ends,
    and while the process is suspended: a signal that ends the process waits for what is held, puts
    the terminal back, and ends the process then. A SIGINT is noted alone: Ctrl-C is a key here, so
    another process has sent it."""

    def __init__(self, has_answers: bool = False) -> None:
        self.input, self.output = sys.stdin.fileno(), sys.stdout.fileno()
        is_utf_8 = (sys.stdout.encoding or "").lower().replace("-", "") == "utf8"
        self.sequences = Sequences(is_utf_8, has_answers)
        self.settings = self._settings()
        self.handlers: dict[signal.Signals, Any] = {}
        self.is_interrupted, self.is_held, self.ended_by = False, False, 0

    def _settings(self) -> list[Any]:
        try:
            return termios.tcgetattr(self.input)
        except termios.error as error:
            raise ExploreError(f"the terminal can't be used: {error.args[-1]}") from error

    def __enter__(self) -> "RawTerminal":
        handlers = {signal.SIGINT: self._interrupt, **{it: self._end for it in ENDING}}
        handlers.update({signal.SIGTSTP: self._suspend, signal.SIGCONT: self._go_on})
        for number, handler in handlers.items():
            before = signal.getsignal(number)
            if before != signal.SIG_IGN:
                self.handlers[number] = before
                signal.signal(number, handler)
        self._make_raw()
        return self

    def __exit__(
        self,
        kind: Optional[type[BaseException]],
        error: Optional[BaseException],
        trace: Optional[TracebackType],
    ) -> None:
        self._put_back()
        for number, handler in self.handlers.items():
            signal.signal(number, handler or signal.SIG_DFL)

    def _make_raw(self) -> None:
        with suppress(termios.error):  # a process in the background stops here, or it is gone
            termios.tcsetattr(self.input, termios.TCSANOW, raw(self.settings))

    def _put_back(self) -> None:
        self._set_back()
        with suppress(termios.error):
            termios.tcsetattr(self.input, termios.TCSANOW, self.settings)

    def _set_back(self) -> None:
        """Writes what sets back what the program has set. A terminal that takes nothing now is
        left: a signal that ends the process mustn't wait for it."""
        data = self.sequences.set_back()
        with suppress(OSError):
            if data and select.select([], [self.output], [], WRITING_SECONDS)[1]:
                os.write(self.output, data)

    # Signals

    def _end(self, number: int, frame: Optional[FrameType]) -> None:
        self.ended_by = number
        if not self.is_held:
            self._put_back()
            signal.signal(number, signal.SIG_DFL)
            os.kill(os.getpid(), number)

    def _interrupt(self, number: int, frame: Optional[FrameType]) -> None:
        self.is_interrupted = True

    def _suspend(self, number: int, frame: Optional[FrameType]) -> None:
        self._put_back()
        signal.signal(number, signal.SIG_DFL)
        os.kill(os.getpid(), number)
        signal.signal(number, self._suspend)
        self._make_raw()

    def _go_on(self, number: int, frame: Optional[FrameType]) -> None:
        self._make_raw()

    @contextmanager
    def held(self) -> Iterator[None]:
        """A part that is done whole. A signal that came meanwhile ends the process after it."""
        self.is_held = True
        try:
            yield
        finally:
            self.is_held = False
            if self.ended_by:
                self._end(self.ended_by, None)

    # Keys and output

    def keys(self, seconds: float, last: int) -> bytes:
        """The keys that are there, or else the first one that comes within this time. What comes
        after the key `last` isn't read: it is for the prompt."""
        found = bytearray()
        while len(found) < MOST_KEYS and last not in found[-1:]:
            wait = 0.0 if found else max(0.0, seconds)
            if not select.select([self.input], [], [], wait)[0]:
                break
            found += self._key()
        return bytes(found)

    def _key(self) -> bytes:
        try:
            key = os.read(self.input, 1)
        except BlockingIOError:
            return b""
        except OSError as error:
            raise ExploreError(f"the terminal can't be read: {error.strerror}") from error
        if not key:
            raise ExploreError("the terminal has ended")
        return key

    def show(self, printed: bytes) -> None:
        """Shows what a program prints."""
        self.write(self.sequences.passed(printed))

    def write(self, data: bytes) -> None:
        """Writes all bytes as they are."""
        while data:
            try:
                data = data[os.write(self.output, data) :]
            except BlockingIOError:
                select.select([], [self.output], [])
            except BrokenPipeError:
                raise
            except OSError as error:
                raise Unwritable(error.strerror) from error
