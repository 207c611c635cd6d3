"""Standard output and standard error. Each write is explore's own: what can't be written is known
here, and nothing is left for the interpreter to write at its end."""
import codecs
import io
import os
import select
import sys
from pathlib import Path
from typing import Optional

from ..core.visible import escaped_character, visible, visible_bytes

MOST_WAITING = 65_536  # characters


class Unwritable(Exception):
    """Standard output can't be written."""


class Log:
    """A file that gets what is typed and shown."""

    def __init__(self, path: Path, handle: int):
        self.path, self.handle = path, handle
        self.waiting = b""

    def add(self, text: str) -> None:
        self.waiting += text.encode("utf-8", "backslashreplace")

    def flush(self) -> str:
        """Writes what waits; returns why it can't be written, or an empty text."""
        data, self.waiting = self.waiting, b""
        try:
            write_all(self.handle, data)
        except OSError as error:
            return f"the log {self.path} can't be written, and ends: {error.strerror}"
        return ""


class Lines:
    """The lines that wait to be written to standard output, and the log that gets them too."""

    def __init__(self) -> None:
        self.waiting: list[str] = []
        self.size = 0
        self.log: Optional[Log] = None

    def add(self, line: str) -> None:
        self.waiting.append(f"{visible(line)}\n")
        self.size += len(line)
        self.note(line)

    def note(self, line: str) -> None:
        """A line of the log alone: one that is typed is at the terminal already."""
        if self.log is not None:
            self.log.add(f"{visible(line)}\n")

    def note_printed(self, printed: bytes) -> None:
        """What a console shows, which may be much before the next line is."""
        if self.log is None:
            return
        self.log.add(visible_bytes(printed).decode().replace("\r", ""))
        if len(self.log.waiting) > MOST_WAITING:
            self.flush_log()

    def begin_log(self, log: Optional[Log]) -> None:
        """What waits is still for the log before, which is closed."""
        before = self.log
        if before is not None:
            self.flush()
            os.close(before.handle)
        self.log = log

    def flush_log(self) -> None:
        """If the log can't be written it ends, which is shown."""
        fault = self.log.flush() if self.log is not None else ""
        if fault and self.log is not None:
            os.close(self.log.handle)
            self.log = None
            self.waiting.append(f"{visible(fault)}\n")

    def flush(self) -> None:
        """Writes them all. If they can't be written they are lost."""
        self.flush_log()
        data = "".join(self.waiting).encode(sys.stdout.encoding, "as_typed")
        self.waiting, self.size = [], 0
        try:
            write_all(sys.stdout.fileno(), data)
        except BrokenPipeError:
            raise
        except OSError as error:
            raise Unwritable(error.strerror) from error


LINES = Lines()


def write_all(handle: int, data: bytes) -> None:
    left = memoryview(data)
    while left:
        try:
            left = left[os.write(handle, left) :]
        except BlockingIOError:
            select.select([], [handle], [])


def put(line: str, is_flushed: bool = True) -> None:
    """Writes a line to standard output, with those that wait; or has it wait too."""
    LINES.add(line)
    if is_flushed or LINES.size > MOST_WAITING:
        LINES.flush()


def flush() -> None:
    LINES.flush()


def complain(text: str) -> None:
    """Writes a line to standard error, if anybody can read it."""
    try:
        data = f"explore: {visible(text)}\n".encode(sys.stderr.encoding, "as_typed")
        write_all(sys.stderr.fileno(), data)
    except OSError:
        pass


def as_typed(error: UnicodeError) -> tuple[str, int]:
    """A character that the encoding lacks is shown as an escape."""
    if not isinstance(error, UnicodeEncodeError):
        raise error
    shown = [escaped_character(it) for it in error.object[error.start : error.end]]
    return "".join(shown), error.end


def prepare_streams() -> None:
    """No character and no byte is an error of standard input, output or error."""
    codecs.register_error("as_typed", as_typed)
    sys.stdin = sys.stdin or open(os.devnull)
    sys.stdout = sys.stdout or open(os.devnull, "w")
    sys.stderr = sys.stderr or open(os.devnull, "w")
    streams = ((sys.stdin, "surrogateescape"), (sys.stdout, "as_typed"), (sys.stderr, "as_typed"))
    for stream, errors in streams:
        if isinstance(stream, io.TextIOWrapper):
            stream.reconfigure(errors=errors)


def leave_streams() -> None:
    """What others have left in the streams is written, or goes nowhere if it can't be: otherwise
    the interpreter fails at its end, with a status of its own."""
    for stream in (sys.stdout, sys.stderr):
        try:
            stream.flush()
        except OSError:
            os.dup2(os.open(os.devnull, os.O_WRONLY), stream.fileno())


def fault_in_words(error: BaseException) -> str:
    """A fault of explore itself, in one line."""
    import traceback  # which takes a while to read

    place = traceback.extract_tb(error.__traceback__)[-1]
    said = " ".join(str(error).split())
    where = f"{os.path.basename(place.filename)}:{place.lineno}"
    return f"a fault of explore, please report it: {type(error).__name__}: {said} ({where})"
