"""A progress bar, and a sign on standard error, if that is a terminal, that a long question is at
work."""
import os
import sys
import threading
import time
from contextlib import contextmanager
from typing import Callable, ClassVar, Iterable, Iterator, Optional, TypeVar

from ..core.errors import ExploreError
from ..core.interrupts import INTERRUPTS
from ..core.values import dataclass
from ..core.visible import visible

WIDTH = 30


@dataclass
class Progress:
    """A bar on standard error, if that is a terminal."""

    total: int
    what: str
    done: int = 0
    begun: float = 0.0
    shown: float = 0.0
    bars: ClassVar[int] = 0

    def __enter__(self) -> "Progress":
        self.begun = time.monotonic()
        self.is_shown = sys.stderr.isatty()
        return self

    def step(self, count: int = 1) -> None:
        self.done += count
        now = time.monotonic()
        if self.is_shown and now - self.shown > 0.1 and now - self.begun > 0.5:
            Progress.bars += not self.shown
            self.shown = now
            bar = "#" * (WIDTH * self.done // max(1, self.total))
            seconds = now - self.begun
            sys.stderr.write(
                f"\r[{bar:<{WIDTH}}] {self.done}/{self.total} {self.what}, {seconds:.0f} s "
            )
            sys.stderr.flush()

    def __exit__(self, *what: object) -> None:
        if self.is_shown and self.shown:
            Progress.bars -= 1
            sys.stderr.write("\r" + " " * (WIDTH + 50) + "\r")
            sys.stderr.flush()


Part = TypeVar("Part")


def with_bar(parts: Iterable[Part], total: int, done: Callable[[Part], int]) -> Iterator[Part]:
    """Parts of this many turns, with a bar: `done` tells how many are done after a part."""
    with Progress(total, "turns") as progress:
        for part in parts:
            yield part
            progress.step(done(part) - progress.done)


def stopped_by(work: Iterable[object]) -> str:
    """Does work to its end, and returns an empty text, or what stops it: Ctrl-C or an error."""
    try:
        for _ in work:
            pass
    except KeyboardInterrupt:
        INTERRUPTS.again()
        return "stopped"
    except ExploreError as error:
        return str(error)
    return ""


def processors() -> int:
    return len(os.sched_getaffinity(0)) if hasattr(os, "sched_getaffinity") else os.cpu_count() or 1


SECONDS_WITHOUT, SECONDS_BETWEEN = 0.7, 0.2


class AtWork:
    """While a line is done, shows how long it has been at work since it last showed something. A
    bar of a search takes its place."""

    is_hidden: ClassVar[bool] = False

    def __init__(self, what: str):
        self.what = visible(what)
        self.is_shown = sys.stderr.isatty()
        self.lock = threading.Lock()
        self.ended = threading.Event()
        self.since = time.monotonic()
        self.written = ""
        self.thread: Optional[threading.Thread] = None

    @classmethod
    @contextmanager
    def hidden(cls) -> Iterator[None]:
        """A part that has the terminal to itself."""
        cls.is_hidden = True
        try:
            yield
        finally:
            cls.is_hidden = False

    def __enter__(self) -> "AtWork":
        if self.is_shown:
            self.thread = threading.Thread(target=self._watch, daemon=True)
            self.thread.start()
        return self

    def __exit__(self, *what: object) -> None:
        self.ended.set()
        self.shows()
        if self.thread:
            self.thread.join()

    def shows(self) -> None:
        """A line is shown now: the sign goes, and time counts from here."""
        with self.lock:
            self.since = time.monotonic()
            self._clear()

    def _clear(self) -> None:
        if self.written:
            self._write(" " * len(self.written) + "\r")
            self.written = ""

    def _write(self, text: str) -> None:
        try:
            sys.stderr.write(f"\r{text}")
            sys.stderr.flush()
            self.written = text
        except OSError:
            self.ended.set()

    def _watch(self) -> None:
        while not self.ended.wait(SECONDS_BETWEEN):
            with self.lock:
                seconds = time.monotonic() - self.since
                if seconds < SECONDS_WITHOUT or self.ended.is_set() or self.is_hidden:
                    continue
                if Progress.bars:
                    self.written = ""  # the bar stands over it
                else:
                    self._write(f"{self.what}: at work, {seconds:.0f} s ")
