"""Programs that read lines from a pipe and write lines to one; and the program search, of which
each line that goes in gets one reply."""
import os
import re
import select
import subprocess
import time
from pathlib import Path
from typing import Callable, Optional, Sequence

from . import sessions
from .errors import ExploreError
from .values import dataclass, field

CONTROL = re.compile(r"[\0-\x08\n-\x1f\x7f]")  # all but the tab, which separates words
PIPE_BYTES, LONGEST_SHOWN = 65_536, 60


class ProgramEnded(ExploreError):
    """The program isn't there any more."""


class Child:
    """A running program. The Ctrl-C of the terminal doesn't reach it."""

    def __init__(self, command: Sequence[str], folder: Optional[Path] = None):
        pipe = subprocess.PIPE
        try:
            self.process = subprocess.Popen(
                command, cwd=folder, start_new_session=True, stdin=pipe, stdout=pipe, stderr=pipe
            )
        except OSError as error:
            raise ExploreError(f"{command[0]} can't be started: {error.strerror}") from error
        assert self.process.stdin and self.process.stdout and self.process.stderr
        self.given, self.written = self.process.stdin, self.process.stdout
        self.said = self.process.stderr

    def ended(self) -> ProgramEnded:
        """How the program ended, and what it said."""
        self.process.kill()
        said = self.said.read().decode(errors="replace").strip()
        status = self.process.wait()
        reason = f": {said}" if said else ""
        return ProgramEnded(f"the program ended with status {status}{reason}")

    def close(self) -> None:
        self.process.kill()
        self.process.wait()
        for pipe in (self.given, self.written, self.said):
            try:
                pipe.close()
            except OSError:
                pass


class OutOfStep(ProgramEnded):
    """The replies aren't those to the lines that were sent."""


class TimedOut(ExploreError):
    """The replies didn't come in time."""


def bytes_of(line: str) -> bytes:
    return line.encode(errors="surrogateescape")


def refusal_of(line: str) -> str:
    """The reply to a line with a control character, which isn't sent: an LF in it would make it two
    lines. Empty if the line can be sent."""
    if not CONTROL.search(line):
        return ""
    is_long = len(bytes_of(line)) > sessions.LONGEST_LINE
    return "refused 11 LineTooLong" if is_long else "refused 10 BadLine"


def encoded(line: str) -> bytes:
    """The line as it is sent. An error if it wouldn't get exactly one reply."""
    data = bytes_of(line)
    if CONTROL.search(line) or not sessions.has_reply(data):
        raise ExploreError(f"{line[:60]!r} isn't one line that gets a reply, so it isn't sent")
    return data


@dataclass
class Replies:
    """The replies to these lines, taken apart as they come."""

    lines: Sequence[bytes]
    found: list[bytes] = field(default_factory=list)
    reply: list[bytes] = field(default_factory=list)  # the lines of the one that has begun
    left: int = 0  # how many lines of it are to come
    cut: list[bytes] = field(default_factory=list)  # the parts of a line without its end

    def take(self, part: bytes) -> bool:
        """Takes what the program has written; true once all replies are there."""
        *whole, rest = part.split(b"\n")
        if whole:
            whole[0] = b"".join([*self.cut, whole[0]])
            self.cut = []
        for line in whole:
            self.take_line(line)
        self.cut += [rest] if rest else []
        is_whole = len(self.found) == len(self.lines)
        if is_whole and self.cut:
            raise unasked(self.cut[0])
        return is_whole

    def take_line(self, line: bytes) -> None:
        if self.left:
            self.left -= 1
        elif len(self.found) == len(self.lines):
            raise unasked(line)
        else:
            check_reply(self.lines[len(self.found)], line)
            self.left, self.reply = sessions.further_lines(line), []
        self.reply.append(line)
        if not self.left:
            self.found.append(b"\n".join(self.reply))


def shown(line: bytes) -> str:
    """The beginning of a line for a message."""
    return repr(line[:LONGEST_SHOWN].decode(errors="backslashreplace"))


def unasked(reply: bytes) -> OutOfStep:
    return OutOfStep(f"the program says {shown(reply)}, which nothing asked for")


def check_reply(line: bytes, reply: bytes) -> None:
    """An error if this can't be the first line of the reply to the line."""
    if not sessions.is_reply(line, reply):
        raise OutOfStep(f"the program's reply to {shown(line)} is {shown(reply)}")


class Program(Child):
    """A running program. Lines are sent as fast as it reads them, while its replies are read: so
    neither waits for the other, however much there is of both. If there are `seconds`, the replies
    to lines that are sent together must have come by then."""

    seconds: Optional[float] = None

    def __init__(self, command: Sequence[str], folder: Optional[Path] = None):
        super().__init__(command, folder)
        os.set_blocking(self.given.fileno(), False)
        self.replies_come, self.either = select.poll(), select.poll()
        self.replies_come.register(self.written, select.POLLIN)
        self.either.register(self.written, select.POLLIN)
        self.either.register(self.given, select.POLLOUT)

    def replies(self, lines: Sequence[str]) -> list[str]:
        """The reply to each of these lines, with all its lines, without the last LF."""
        refusals = [refusal_of(it) for it in lines]
        sent = [encoded(it) for it, refusal in zip(lines, refusals) if not refusal]
        taken = Replies(sent)
        if sent:
            self.exchange(sent, taken.take)
        found = iter(taken.found)
        return [it or next(found).decode("ascii", "backslashreplace") for it in refusals]

    def block(self, sent: Sequence[bytes]) -> bytes:
        """The replies, unread, to lines that can be sent as they are. Each has one line."""
        data = bytearray()
        ends = 0

        def take(part: bytes) -> bool:
            nonlocal ends
            data.extend(part)
            ends += part.count(b"\n")
            return ends >= len(sent)

        self.exchange(sent, take)
        found, beginning = bytes(data), sessions.BEGINNINGS[sessions.first_word(sent[0])] + b" "
        fitting = found.startswith(beginning) + found.count(b"\n" + beginning)
        if not (fitting == ends == len(sent) and found.endswith(b"\n")):
            Replies(sent).take(found)  # which tells what doesn't fit, if it is no refusal
        return found

    def exchange(self, lines: Sequence[bytes], take: Callable[[bytes], bool]) -> None:
        """Sends lines, and hands what the program writes to `take`, until that has it all."""
        if self.replies_come.poll(0):
            raise unasked(self._read())
        left = memoryview(b"".join(it + b"\n" for it in lines))
        end = None if self.seconds is None else time.monotonic() + self.seconds
        is_whole = False
        while not is_whole:
            left = left[self._sent(left) :]
            if self._has_come(bool(left), end):
                is_whole = take(self._read())
        if left:
            raise OutOfStep("the program has replied before it was asked")

    def _has_come(self, is_left: bool, end: Optional[float]) -> bool:
        """Waits until the program has written something, or if lines are left until it takes more,
        and tells whether it has written. Without an end a read of what it writes waits as well."""
        if not is_left and end is None or self.replies_come.poll(0):
            return True
        wait = None if end is None else 1000 * max(0.0, end - time.monotonic())
        if not (self.either if is_left else self.replies_come).poll(wait):
            raise TimedOut(f"the program hasn't replied within {self.seconds:g} s")
        return not is_left

    def _sent(self, data: memoryview) -> int:
        """How much of it the program's pipe takes now."""
        try:
            return os.write(self.given.fileno(), data) if data else 0
        except BlockingIOError:
            return 0
        except OSError as error:
            raise self.ended() from error

    def _read(self) -> bytes:
        part = os.read(self.written.fileno(), PIPE_BYTES)
        if not part:
            raise self.ended()
        return part
