"""`explore web`: the page with a session in it, as one file, in the browser."""
import argparse
import webbrowser
from pathlib import Path

from ..core.errors import ExploreError
from ..core.options import check_session
from ..core.written_files import OUTPUT, write_whole
from ..export.page_file import OLDER, has_session, is_older, page_with
from ..export.web_session import held, session_for_page
from .command_line import Parser, add_options, check_options, options_of
from .output import complain, put

DESCRIPTION = """\
Writes the machine as a page, one HTML file with all in it, and opens it in the browser. The page
begins with SESSION and its images; kernel.sym and user.sym beside SESSION are its symbols. FILE is
SESSION's name with the ending .html in this folder, if it isn't given."""


def arguments(words: list[str]) -> argparse.Namespace:
    parser = Parser(
        prog="explore web",
        description=DESCRIPTION,
        allow_abbrev=False,
        formatter_class=argparse.RawDescriptionHelpFormatter,
    )
    add_options(parser)
    parser.add_argument("--to", metavar="FILE", type=Path, help="the file to write")
    parser.add_argument("--no-open", action="store_true", help="only writes the file")
    parser.add_argument("session", metavar="SESSION", type=Path, nargs="?")
    return parser.parse_args(words)


def write_page(to: Path, text: str) -> None:
    """Writes the page. It takes the place of an older page, and of no other file."""
    OUTPUT.overwrites = to.is_file() and has_session(held(to))
    if to.is_file() and not OUTPUT.overwrites:
        raise ExploreError(f"{to} is there already, and is no page of the machine")
    write_whole(to, text)


def show_page(words: list[str]) -> None:
    found = arguments(words)
    session = found.session
    if session:
        check_session(session)
    options = options_of(found, session)
    check_options(options, found, session)
    text = page_with(session_for_page(session, options))
    to = found.to or Path(f"{session.stem if session else 'nezdrab'}.html")
    if is_older():
        complain(OLDER)
    write_page(to, text)
    put(str(to))
    if not found.no_open and not webbrowser.open(to.resolve().as_uri()):
        complain(f"no browser was found: open {to} in one")
