"""The examples that the page has beside its session: those of examples/, and the programs of
examples/media as sessions that have them in core."""
from pathlib import Path
from typing import Mapping, NamedTuple

from nezdrab.core.options import options_of_session
from nezdrab.core.replies import Mode
from nezdrab.core.symbol_files import Symbol, symbol_file
from nezdrab.export.page_file import PageSession
from nezdrab.export.web_session import SYMBOLS, held, session_for_page
from nezdrab.shell.load import Loaded, loaded_program, loaded_tape
from page import bundle
from webassembly import files as modules

FOLDER = modules.ROOT / "examples"
# In a session that goes on by moving keys, the example ends with the first of these questions.
LAST = ("text 1000", "text 300000")
PROGRAMS = {".lda": loaded_tape, ".aout": loaded_program}


class Place(NamedTuple):
    """An example: its name in a link, what the page calls it, its file below examples/, what is
    asked beside its own lines, so that the page shows the turns up to there, and the files of
    symbols of kernel mode, if another one than kernel.sym beside it."""

    key: str
    title: str
    file: str
    asked: tuple[str, ...] = ()
    symbols: tuple[str, ...] = ()


NAMES_OF_FORTH = ("forth/kernel.sym", "forth/words.sym")
PLACES = (
    Place("ledger", "A bank's ledger, and a lost deposit", "ledger/ledger.session"),
    Place("forth", "A Forth to sit at", "forth/forth.session", ("text 1000000",), NAMES_OF_FORTH),
    Place("note", "A Forth, and a lost note", "forth/long/lost-note.session", (), NAMES_OF_FORTH),
    Place("keys", "A system that counts the keys of a line", "moved-keys.session"),
    Place("reader", "A paper tape in the reader", "tape-to-console.session"),
    Place("tape", "A paper tape of the absolute loader", "media/hello.lda"),
    Place("aout", "An a.out of Unix", "media/hello.aout"),
    Place("boot", "A disk that is booted", "boot-rk0.session"),
)


def words_of(found: Loaded) -> dict[int, int]:
    """The words that a program puts into core, by their addresses. The other half of a word of
    which it has one byte is 0, as at power-up."""
    words: dict[int, int] = {}
    for at, byte in found.bytes.items():
        words[at & ~1] = words.get(at & ~1, 0) | byte << 8 * (at & 1)
    return words


def listed_beside(path: Path) -> list[Symbol]:
    """The symbols of the listing beside a program, without constants."""
    listing = path.with_suffix(".lst")
    if not listing.is_file():
        return []
    return [it for it in symbol_file(held(listing).decode()).symbols if not it.is_constant]


def session_of_program(path: Path, found: Loaded) -> PageSession:
    """A program as patches of core, with its start and its symbols."""
    name = path.name
    patches = [f"core {at:o} {word:o}" for at, word in sorted(words_of(found).items()) if word]
    options = [] if found.start is None else ["--start", f"{found.start:o}"]
    listed = found.symbols or listed_beside(path)
    symbols = "".join(f"{it.name} {it.value:o}\n" for it in listed).encode()
    files: Mapping[str, bytes] = {f"{name}.sym": symbols} if symbols else {}
    return PageSession(name, options, [*patches, LAST[0]], files)


def example_of(path: Path) -> PageSession:
    load = PROGRAMS.get(path.suffix)
    if load:
        return session_of_program(path, load(held(path), None))
    session = session_for_page(path, options_of_session(path))
    end = next((at for at, it in enumerate(session.lines, 1) if it in LAST), len(session.lines))
    return session._replace(lines=session.lines[:end])


def bundled(place: Place) -> bundle.Example:
    found = example_of(FOLDER / place.file)
    files = dict(found.files)
    if place.symbols:
        files[SYMBOLS[Mode.KERNEL]] = b"".join(held(FOLDER / it) for it in place.symbols)
    session = found._replace(lines=[*found.lines, *place.asked], files=files)
    return bundle.Example(place.key, place.title, session)


def examples_for_page() -> list[bundle.Example]:
    return [bundled(it) for it in PLACES]
