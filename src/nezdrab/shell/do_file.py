"""Files of lines: `do`."""
from pathlib import Path
from typing import Iterator

from ..analysis.command import Arguments, command
from ..analysis.explorer import Explorer
from ..core import sessions
from ..core.errors import ExploreError, LineRefused
from ..core.interrupts import INTERRUPTS
from ..core.kinds import check_known, content

MOST_BYTES = 1_048_576
MOST_DEEP = 16  # files that do one another
REST = "the lines after it aren't done"


class FileStopped(ExploreError):
    """Which line of a file ended it, and why."""


def lines_of(path: Path) -> list[str]:
    """The lines of a file, without their ends."""
    data = content(path, MOST_BYTES)
    check_known(path, data)
    if b"\0" in data:
        raise ExploreError(f"{path} is no text")
    lines = map(sessions.without_end, sessions.lines_of(data))
    return [it.decode(errors="surrogateescape") for it in lines]


def outcome(explorer: Explorer, place: str, line: str) -> Iterator[str]:
    """What a line of a file shows. If it can't be done, or Ctrl-C ends a part of it, it ends the
    file."""
    interrupts = INTERRUPTS.count
    try:
        yield from explorer.interpreter.lines_as_typed(line)
    except LineRefused:
        raise FileStopped(f"{place}: refused; {REST}") from None
    except FileStopped as error:
        raise FileStopped(f"{place}: {error}") from None
    except BrokenPipeError:
        raise
    except (ExploreError, OSError) as error:
        raise FileStopped(f"{place}: {sessions.first_word(line)}: {error}; {REST}") from None
    if INTERRUPTS.count != interrupts:
        raise FileStopped(f"{place}: stopped; {REST}")


@command("do FILE", r"<file:file>", "does the lines of FILE as if they were typed")
def do(explorer: Explorer, arguments: Arguments) -> Iterator[str]:
    """Does the lines of FILE, one after the other, each with its own `undo`. A line may be another
    `do`, up to 16 files deep. Comments begin with a #. A line that is refused or can't be done ends
    the file, and so does Ctrl-C: the lines after it aren't done. An `expect` whose TEXT doesn't
    come ends it too; a search that finds nothing doesn't. Paths are those of the folder where
    explore runs."""
    path = Path(arguments.text("file"))
    if explorer.depth >= MOST_DEEP:
        raise ExploreError(f"{path}: more than {MOST_DEEP} files that do one another")
    explorer.depth += 1
    for number, line in enumerate(lines_of(path), 1):
        if line.strip(" \t") and not line.startswith("#"):
            yield from outcome(explorer, f"{path}:{number}", line)
    explorer.depth -= 1
