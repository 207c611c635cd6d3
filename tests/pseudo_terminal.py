"""A program at a pseudo-terminal, which a check types at."""
import os
import pty
import re
import select
import subprocess
import time
from contextlib import suppress
from typing import Any, Sequence

from tests import stored_sessions as sessions


class NotShown(Exception):
    """What should have been shown, and what was."""


class PseudoTerminal:
    """A program whose standard input, output and error are a terminal."""

    def __init__(self, command: Sequence[str], folder: str, environment: dict[str, str]):
        self.ours, theirs = pty.openpty()
        streams: dict[str, Any] = {"stdin": theirs, "stdout": theirs, "stderr": theirs}
        self.child = subprocess.Popen(
            command, cwd=folder, env=environment, start_new_session=True, **streams
        )
        os.close(theirs)
        self.seen = b""
        self.count = 0  # of all bytes that were shown

    def __enter__(self) -> "PseudoTerminal":
        return self

    def __exit__(self, *ignored: object) -> None:
        self.child.kill()
        self.child.wait()
        os.close(self.ours)

    def type(self, keys: bytes) -> None:
        os.write(self.ours, keys)

    def type_one_by_one(self, keys: bytes) -> None:
        """Types each key once something was shown after the one before."""
        for key in keys:
            count, limit = self.count, time.monotonic() + sessions.SECONDS
            self.type(bytes([key]))
            while self.count == count:
                if time.monotonic() > limit or not self._read():
                    raise NotShown(f"nothing is shown after the key {key:o}")

    def wait_for(self, shown: bytes) -> None:
        """Reads until the text is shown, in which `..` stands for anything in a line."""
        wanted = re.compile(b"[^\r\n]*?".join(re.escape(it) for it in shown.split(b"..")))
        limit = time.monotonic() + sessions.SECONDS
        found = wanted.search(self.seen)
        while not found:
            if time.monotonic() > limit or not self._read():
                raise NotShown(f"{shown!r} isn't shown, but {self.seen!r}")
            found = wanted.search(self.seen)
        self.seen = self.seen[found.end() :]

    def _read(self) -> bool:
        """Whether the program may show more."""
        if not select.select([self.ours], [], [], 0.2)[0]:
            return True
        with suppress(OSError):
            part = os.read(self.ours, 65536)
            self.seen += part
            self.count += len(part)
            return bool(part)
        return False
