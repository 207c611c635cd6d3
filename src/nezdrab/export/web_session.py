"""A session as the page holds it, with all that its options name, and its symbols: one that lies in
a file, or the one that explore has now."""
import stat
from pathlib import Path
from typing import Iterable, Iterator, Optional

from ..analysis.command import Arguments, command
from ..analysis.explorer import Explorer
from ..analysis.restart import options_of
from ..analysis.script import past_lines
from ..core import sessions
from ..core.asked import turns_of_question
from ..core.engine import LAST_TURN
from ..core.errors import ExploreError
from ..core.options import FILES, Options
from ..core.replies import Mode
from ..core.symbol_files import Symbol
from ..core.written_files import OUTPUT, write_whole
from .page_file import OLDER, PageSession, is_older, page_with

# Files of symbols, by the names from which the page tells the mode.
SYMBOLS = {Mode.KERNEL: "kernel.sym", Mode.USER: "user.sym"}
# What begins the comments that say what the page calls a word, and what it tells of the session.
TOLD = ("# name ", "# story ")

Files = dict[str, bytes]


def held(path: Path) -> bytes:
    try:
        return path.read_bytes()
    except OSError as error:
        raise ExploreError(f"{path}: {error.strerror}") from error


def as_text(name: str) -> str:
    """A name with ? for each byte that is no text."""
    return name.encode(errors="replace").decode()


def put(files: Files, kind: str, name: str, inside: bytes) -> str:
    """Puts a file among these by its name, and returns the name. A name that another file has, or
    that the program would take for an option, gets the kind before it."""
    name = as_text(name)
    while name.startswith("-") or files.get(name, inside) != inside:
        name = f"{kind}-{name}"
    files[name] = inside
    return name


def packed_files(options: Options) -> tuple[list[str], Files]:
    """The options with their files' names alone, and the files by these names."""
    words: list[str] = []
    found: Files = {}
    for option, value in options.items():
        if option in FILES:
            value = put(found, option, Path(value).name, held(Path(value)))
        words += [f"--{option}", value]
    return words, found


def lines_of(data: bytes) -> list[str]:
    """The lines of a session, with a character for each byte."""
    return [sessions.without_end(it).decode("latin-1") for it in sessions.lines_of(data)]


def session_for_page(session: Optional[Path], options: Options) -> PageSession:
    """The session and all that its options name; an empty one without a session."""
    words, found = packed_files(options)
    if session is None:
        return PageSession("", words, (), found)
    for name in SYMBOLS.values():
        beside = session.parent / name
        if beside.is_file():
            found.setdefault(name, held(beside))
    return PageSession(as_text(session.name), words, lines_of(held(session)), found)


# The session that explore has now


def check_files(options: Options) -> None:
    """An error if a file of the options was a pipe, which can't be read again."""
    for option, path in ((it, Path(options[it])) for it in FILES if it in options):
        if path.exists() and not path.is_file():
            raise ExploreError(f"--{option} {path} is no plain file, and can't be read again")


def symbol_text(symbols: Iterable[Symbol]) -> bytes:
    """The names of places as lines, in which a # begins a comment."""
    places = (it for it in symbols if not it.is_constant and "#" not in it.name)
    return "".join(f"{it.name} {it.value:o}\n" for it in places).encode()


def lines_now(session: Optional[Path]) -> list[str]:
    """The lines of the session that explore began with, or none if its file is gone."""
    try:
        return lines_of(session.read_bytes()) if session else []
    except OSError:
        return []


def last_asked(lines: Iterable[str]) -> int:
    """The last turn that a question of these lines is about."""
    turns = filter(None, map(turns_of_question, lines))
    return max((last for _, last in turns if last <= LAST_TURN), default=0)


def last_shown(explorer: Explorer, given: Optional[int]) -> int:
    """The last turn that the page shows: the one given or else the last that was asked about, here
    or in the session; or the one of a later event."""
    machine = explorer.machine
    if given is None:
        asked = last_asked(lines_now(explorer.session))
        given = max(explorer.turn, machine.asked.greatest, asked)
    return max(given, *(it.turn for it in machine.script), 0)


def session_of(explorer: Explorer, end: int) -> PageSession:
    """What explore has now, to be shown up to a turn: the past with its options and images, the
    symbols, and what the session calls words and tells of itself."""
    options = options_of(explorer.machine.start)
    check_files(options)
    words, files = packed_files(options)
    for mode, name in SYMBOLS.items():
        symbols = symbol_text(explorer.symbols.taken[mode])
        if symbols:
            put(files, mode.value, name, symbols)
    own = (it for it in lines_now(explorer.session) if len(it) <= sessions.LONGEST_LINE)
    told = (it for it in own if it.startswith(TOLD))
    lines = [*told, *past_lines(explorer.machine), f"regs {end}"]
    name = explorer.session.name if explorer.session else ""
    return PageSession(as_text(name), words, lines, files)


ENDINGS = (".html", ".htm")


def check_name(path: Path) -> None:
    """An error if the file mustn't be written, or a browser wouldn't take it for a page."""
    _, found = OUTPUT.target(path)
    is_plain = found is None or stat.S_ISREG(found.st_mode)
    if is_plain and path.suffix.lower() not in ENDINGS:
        raise ExploreError(f"{path}: a browser takes a file for a page if its name ends in .html")


@command(
    "page FILE [to N]", r"<file:file>( to <turn:decimal>)?", "the machine as a page for a browser"
)
def page(explorer: Explorer, arguments: Arguments) -> Iterator[str]:
    """Writes one file with all in it, which a browser opens from a disk and which asks nobody for
    anything: the page that `./explore web` opens, with the past as it is now. It draws the turns
    and the words that you name there, moves events, and answers questions. It has the options with
    their images, the patches, tape, delays and events, the symbols of places, and what comments
    `# name core A NAME` of SESSION call words, with its story; events are numbered anew. Neither
    breakpoints and displays, nor words that were defined, nor what `undo` would take back are in
    it. It shows the turns up to N, or to the last one that you or SESSION asked about, and to the
    last event. With #turn=T at the end of its address it opens at turn T. FILE ends in .html."""
    path = Path(arguments.text("file"))
    check_name(path)
    given = arguments.optional("turn")
    end = last_shown(explorer, None if given is None else int(given))
    text, older = page_with(session_of(explorer, end)), is_older()
    write_whole(path, text)
    yield f"the machine is in {path}, with its turns to {end}"
    if explorer.turn:
        yield f"{path}#turn={explorer.turn} opens it at the current turn"
    if older:
        yield OLDER
