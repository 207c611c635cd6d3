"""What the tests share: the programs, and a folder to run explore in."""
import os
import subprocess
import tempfile
import unittest
from pathlib import Path
from typing import Optional

from tests import under_test

ROOT = Path(__file__).resolve().parents[2]
SECONDS = 300


class Built:
    """The programs under test."""

    @property
    def program(self) -> str:
        return under_test.program("search")

    @property
    def disassembler(self) -> str:
        return under_test.program("disassemble")


BUILT = Built()


class Case(unittest.TestCase):
    """A test with a folder of its own, which has the examples."""

    maxDiff = 4000

    def setUp(self) -> None:
        folder = tempfile.TemporaryDirectory()
        self.addCleanup(folder.cleanup)
        self.folder = Path(folder.name)
        self.state = str(self.folder / "state")
        os.symlink(ROOT / "examples", self.folder / "examples")

    def command(self, *words: str) -> list[str]:
        """explore with these words. The prompt's history is kept nowhere."""
        built = ["--program", BUILT.program, "--disassembler", BUILT.disassembler]
        return [str(ROOT / "explore"), *built, *words]

    def environment(self) -> dict[str, str]:
        """That of the tests, in which explore's Python has its own buffers, as it usually has."""
        mine = {"XDG_STATE_HOME": self.state, "TERM": "dumb"}
        return {**{it: os.environ[it] for it in os.environ if it != "PYTHONUNBUFFERED"}, **mine}

    def full_disk(self) -> dict[str, str]:
        """The same where files can't grow: Python would leave cut modules in its cache."""
        return {**self.environment(), "XDG_CACHE_HOME": "none"}

    def explore(self, lines: str, *words: str, status: Optional[int] = 0) -> str:
        """What explore writes for these lines of a pipe."""
        ended = subprocess.run(
            self.command(*words),
            input=lines,
            cwd=self.folder,
            env=self.environment(),
            capture_output=True,
            text=True,
            timeout=SECONDS,
        )
        if status is not None:
            self.assertEqual(ended.returncode, status, ended.stderr)
        self.error = ended.stderr
        return ended.stdout

    def pdp11(self, lines: str, *words: str) -> str:
        """What the program answers to a session."""
        ended = subprocess.run(
            [BUILT.program, *words],
            input=lines,
            cwd=self.folder,
            capture_output=True,
            text=True,
            timeout=SECONDS,
        )
        self.assertEqual((ended.returncode, ended.stderr), (0, ""))
        return ended.stdout
