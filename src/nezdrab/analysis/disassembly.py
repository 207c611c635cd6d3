"""The program disassemble as a child process: texts of words, and words of texts."""
import re
from functools import cached_property
from typing import Callable, Optional, Sequence

from ..core.program import Child, ProgramEnded
from ..core.programs import program_of
from ..core.errors import ExploreError
from ..core.values import dataclass

WORD = re.compile("[0-7]{6}")


@dataclass(frozen=True)
class Instruction:
    """The text of an instruction, and how many words it took."""

    words: int
    text: str


class Disassemble(Child):
    """A running disassemble."""

    def send(self, line: str) -> None:
        try:
            self.given.write(f"{line}\n".encode())
            self.given.flush()
        except OSError as error:
            raise self.ended() from error

    def line(self) -> str:
        """The next line that the program writes."""
        line = self.written.readline()
        if not line.endswith(b"\n"):
            raise self.ended()
        return line[:-1].decode("ascii", "backslashreplace")


class Asked:
    """A disassemble with these options. It is started by the first line."""

    def __init__(self, *options: str):
        self.options = options
        self.child: Optional[Disassemble] = None

    def reply(self, program: str, line: str) -> str:
        """The reply to a line. If the program ends, or Ctrl-C comes before the reply, the next line
        starts it again: otherwise it would get the reply to this one."""
        self.child = self.child or Disassemble([program, *self.options])
        try:
            self.child.send(line)
            return self.child.line()
        except BaseException as error:
            self.close()
            if isinstance(error, ProgramEnded):
                raise ExploreError(f"disassemble: {error}") from error
            raise

    def close(self) -> None:
        if self.child is not None:
            self.child.close()
            self.child = None


class Disassembler:
    """Asks the program disassemble. Without it instructions are shown as `.WORD`."""

    def __init__(
        self, program: Optional[str], later: Optional[Callable[[], Optional[str]]] = None
    ):
        self._given, self._later = program, later
        self.texts, self.words = Asked(), Asked("--assemble")
        self.known: dict[tuple[int, ...], Instruction] = {}

    @cached_property
    def program(self) -> Optional[str]:
        """The path of the program, or None. It may be looked for only when it is needed first."""
        return self._later() if self._later else self._given

    def instruction(self, address: int, words: Sequence[int]) -> Instruction:
        """The instruction at this virtual address, from its word and the two that follow."""
        if self.program is None:
            return Instruction(1, f".WORD {words[0]:06o}")
        key = (address, *words)
        if key not in self.known:
            reply = self.texts.reply(self.program, " ".join(f"{it:06o}" for it in key))
            count, _, text = reply.partition(" ")
            if not count.isdigit():
                raise ExploreError(f"the disassembler answers {key} with '{reply}'")
            self.known[key] = Instruction(int(count), text)
        return self.known[key]

    def assembled(self, address: int, text: str) -> list[int]:
        """The words of the instruction that is shown as this text at this virtual address."""
        if self.program is None:
            raise ExploreError("without the program disassemble no instruction can be assembled")
        words = self.words.reply(self.program, f"{address:o} {text}").split(" ")
        if not all(map(WORD.fullmatch, words)):
            raise ExploreError(f"no instruction at {address:o} is '{text}'")
        return [int(it, 8) for it in words]

    def close(self) -> None:
        self.texts.close()
        self.words.close()


def disassembler_of(given: Optional[str], say: Callable[[str], None]) -> Disassembler:
    """The program that is given, or one that is looked for when an instruction is shown first: that
    takes as long as all else at the start. Without one explore goes on, and shows words."""

    def found() -> Optional[str]:
        try:
            return program_of("disassemble", given)
        except ExploreError as error:
            say(f"{error}; instructions are shown as words")
            return None

    try:
        return Disassembler(found()) if given else Disassembler(None, found)
    except ExploreError as error:
        say(f"{error}; instructions are shown as words")
        return Disassembler(None)
