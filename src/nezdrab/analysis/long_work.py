"""Long work, of `sweep` and `matters`: its options, what is asked before it begins, results that
are kept in a file as they come, and commands that do it in parts."""
import os
import re
import shlex
import stat
from pathlib import Path
from typing import Iterable, Iterator, Optional, Protocol, Sequence

from ..core.engine import Machine
from ..core.errors import ExploreError
from ..core.in_words import counted
from ..core.interrupts import INTERRUPTS, typed_line
from ..core.language import MOST_DIGITS, is_decimal
from ..core.programs import own_command
from ..core.sessions import first_word
from ..core.written_files import OUTPUT, is_locked_here, write_whole
from .crew import AtWork, processors
from .explorer import Explorer
from .quotes import WORD, file_of, files_of, quote_fault
from .script import session_lines


class Results(Protocol):
    """Results of long work, in lines of a file below a heading."""

    work: str
    heading: str

    def __len__(self) -> int:
        """How many there are."""

    def take(self, line: str) -> str:
        """Adds what a line of a file has; returns what is wrong with it, or an empty text."""


def take_lines(results: Results, path: Path, text: str) -> None:
    """Adds what a file has. A last line without its end was cut off, and counts for nothing."""
    for number, line in enumerate(text.split("\n")[:-1], 1):
        results.heading = results.heading or line
        wrong = results.take(line)
        if wrong:
            raise ExploreError(f"{path}:{number}: {wrong}")


def read_files(results: Results, paths: Sequence[str]) -> None:
    """Adds what the files of `--gather` have."""
    if not paths:
        raise ExploreError(f"the form is: {results.work} --gather FILE ..")
    for path in map(Path, paths):
        try:
            take_lines(results, path, path.read_text(errors="replace"))
        except OSError as error:
            raise ExploreError(f"{path}: {error.strerror}") from error


def stopped_work(results: Results, lines: Iterable[str], path: Optional[Path]) -> str:
    """Does work that gives a line for each of its results, and keeps them in a file, if there is
    one. Returns what stops it, Ctrl-C or an error, or an empty text. An error without a result is
    raised."""
    file = ResultFile(results, path) if path else None
    stopped = ""
    try:
        for line in lines:
            if file:
                file.add(line)
    except KeyboardInterrupt:
        stopped = "stopped"
    except ExploreError as error:
        if not len(results):
            raise
        stopped = str(error)
    finally:
        if file:
            file.close()
    INTERRUPTS.again()
    return stopped


class ResultFile:
    """The file of `-o`: results are added to it, and nothing else of this command writes to it
    meanwhile. If there are none, no new file is left."""

    def __init__(self, results: Results, path: Path):
        self.path, self.heading = path, results.heading
        self.is_new = not os.path.lexists(path)
        try:
            self.handle = os.open(path, os.O_RDWR | os.O_APPEND | os.O_CREAT, 0o666)
        except OSError as error:
            raise ExploreError(f"{path} can't be written: {error.strerror}") from error
        try:
            if stat.S_ISREG(os.fstat(self.handle).st_mode):
                self.take(results)
        except BaseException:
            self.close()
            raise

    def take(self, results: Results) -> None:
        """Takes in what is there. A last line without its end was cut off, and goes. Without any
        the heading is written before the first result."""
        if not is_locked_here(self.handle):
            raise ExploreError(f"{self.path}: another {results.work} is writing to it")
        data = self.path.read_bytes()
        whole = data[: data.rfind(b"\n") + 1]
        take_lines(results, self.path, whole.decode(errors="replace"))
        os.ftruncate(self.handle, len(whole))
        if whole:
            self.heading = ""

    def add(self, line: str) -> None:
        heading = f"{self.heading}\n" if self.heading else ""
        data = f"{heading}{line}\n".encode(errors="surrogateescape")
        self.heading = ""
        try:
            while data:
                data = data[os.write(self.handle, data) :]
        except OSError as error:
            raise ExploreError(f"{self.path} can't be written: {error.strerror}") from error

    def close(self) -> None:
        if self.is_new and not os.fstat(self.handle).st_size:
            self.path.unlink(missing_ok=True)
        os.close(self.handle)


def job_lines(machine: Machine, work: str, parts: Sequence[str], path: Path) -> Iterator[str]:
    """Writes the commands that do this work in parts, and the session that they read. The session
    numbers the events anew, in their order."""
    OUTPUT.target(path)  # if it can't be written the session isn't either
    session = path.with_name(f"{path.name}.session").resolve()
    write_whole(session, "".join(f"{it}\n" for it in session_lines(machine)))
    ending = shlex.quote(str(session))
    lines = [f"{own_command()} --{work} {shlex.quote(it)} {ending}\n" for it in parts]
    write_whole(path, "".join(lines))
    results = shlex.quote(f"{path}.out")
    read = "reads" if len(lines) == 1 else "read"
    yield f"{counted(len(lines), 'command')} in {path}, which {read} {path}.session"
    yield f"in this folder: parallel < {shlex.quote(str(path))} > {results}"
    yield f"then: {work} --gather {results}"


def kept_in(path: object) -> str:
    """How work that was stopped goes on."""
    return f"; the same line goes on from {path}" if path else "; with -o FILE it could go on"


MOST_UNASKED, MOST_HANDS = 100_000, 256


class WorkOptions:
    """The options before the words of a line: of each its value, or an empty text; or the files
    of `--gather`."""

    def __init__(self, words: str, bare: Sequence[str]):
        wrong = quote_fault(words)
        if wrong:
            raise ExploreError(wrong)
        is_gathering = first_word(words) == "--gather"
        self.gathered = files_of(words)[1:] if is_gathering else None
        bare_words = "|".join(bare)
        options = re.compile(
            rf"(?:(?P<number>-j)[ \t]+(?P<digits>[0-9]+)|(?P<bare>{bare_words}))(?:[ \t]+|(?=:))"
            rf"|(?P<name>-j|-o|--jobs)[ \t]+(?P<value>{WORD})[ \t]+"
        )
        self.found: dict[str, str] = {}
        match = options.match(words)
        while match:
            name = match["number"] or match["bare"] or match["name"]
            self.found[name] = match["digits"] or match["value"] or ""
            words = words[match.end() :]
            match = options.match(words)
        self.words = words
        hands = self.found.get("-j", str(processors()))
        if not is_decimal(hands) or not 1 <= int(hands[:MOST_DIGITS]) <= MOST_HANDS:
            raise ExploreError(f"N of -j is 1 to {MOST_HANDS}")
        self.hands = int(hands)

    def line(self, explorer: Explorer) -> str:
        """The words, with numbers for the symbols of their question."""
        head, colon, question = self.words.partition(":")
        return head + colon + explorer.symbols.line_in_octal(question, explorer.machine)

    def has(self, name: str) -> bool:
        return name in self.found

    def path(self, name: str) -> Optional[Path]:
        """The FILE of an option, if it is there."""
        return Path(file_of(self.found[name])) if name in self.found else None

    def check(self, explorer: Explorer, command: str, count: int, what: str) -> None:
        """So much is begun only if the user says so."""
        if count > MOST_UNASKED and not self.has("-y") and not self.has("--jobs"):
            ask_to_begin(explorer, command, f"{count} {what} are more than {MOST_UNASKED}")


def ask_to_begin(explorer: Explorer, command: str, said: str) -> None:
    """Asks at a terminal whether work is to begin, of which this is said. Without a terminal, and
    without a yes, it is an error."""
    if not explorer.is_terminal:
        raise ExploreError(f"{said}; {command} -y .. does them")
    try:
        with AtWork.hidden():
            answer = typed_line(f"{said}; begin? (y or n) ")
    except EOFError:
        answer = ""
    if answer.strip() not in ("y", "yes"):
        raise ExploreError("not begun")
