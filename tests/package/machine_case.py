"""What the tests of the package share: machines of the built program, and the program's own replies
to the lines of a session."""
import subprocess
import tempfile
import unittest
from pathlib import Path
from typing import Any, Sequence

from nezdrab import Machine
from nezdrab.core.options import options_of_session, words_of_options
from tests import stored_sessions as sessions, under_test

ROOT = Path(__file__).resolve().parents[2]
EXAMPLES = ROOT / "examples"
SECONDS = 300
# A program that never replies to a line that begins with WORD: it reads on until nothing more can
# come.
STUCK = """\
#!/bin/sh
while IFS= read -r line; do
    case $line in "WORD"*) exec cat >/dev/null ;; esac
    printf '%s\\n' "$line"
done | PROGRAM "$@"
"""


def program() -> str:
    return under_test.program("search")


def replies(path: Path, lines: Sequence[str]) -> list[str]:
    """The replies of the program to these lines after the session."""
    text = path.read_bytes() + b"".join(f"{it}\n".encode() for it in lines)
    command = [program(), *words_of_options(options_of_session(path))]
    ran = subprocess.run(command, input=text, capture_output=True, check=True, timeout=SECONDS)
    found = [it.decode().removesuffix("\n") for it in sessions.replies_of(ran.stdout)]
    return found[-len(lines) :]


class Case(unittest.TestCase):
    """A test with a folder of its own, whose machines are closed at its end."""

    maxDiff = 4000

    def setUp(self) -> None:
        folder = tempfile.TemporaryDirectory()
        self.addCleanup(folder.cleanup)
        self.folder = Path(folder.name)

    def machine(self, *, program: str = "", **options: Any) -> Machine:
        machine = Machine(program=program or under_test.program("search"), **options)
        self.addCleanup(machine.close)
        return machine

    def of_session(self, name: str, **options: Any) -> Machine:
        machine = Machine.of_session(EXAMPLES / name, program=program(), **options)
        self.addCleanup(machine.close)
        return machine

    def stuck_program(self, word: str) -> str:
        path = self.folder / "stuck"
        path.write_text(STUCK.replace("WORD", word).replace("PROGRAM", program()))
        path.chmod(0o755)
        return str(path)
