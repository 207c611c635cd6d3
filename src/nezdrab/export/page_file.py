"""The browser's page as one file with a session in it: the form in which it holds sessions, as its
own `Save page` writes them, and the packed page, in which another session takes a session's place.
`tools/web --pack` packs it of web/."""
import base64
import gzip
import json
import re
import subprocess
import zlib
from pathlib import Path
from typing import Mapping, NamedTuple, Sequence

from ..core.errors import ExploreError
from ..core.programs import BESIDE, clone

NAME = "nezdrab.html"
PROGRAMS = ("search", "disassemble")  # that the page has as WebAssembly modules
OLDER = f"{NAME} is older than the sources of this clone: tools/web --make makes it again"
SESSION = "session"
BEGIN, END = f'<script type="application/json" id="{SESSION}">', "</script>"
HELD = re.compile(f"{re.escape(BEGIN)}[^<]*{END}")


class PageSession(NamedTuple):
    """A session for the page: its name, the words of the program's command line, its lines with a
    character for each byte, and the files that those words name, with files of symbols."""

    name: str
    arguments: Sequence[str]
    lines: Sequence[str]
    files: Mapping[str, bytes]


EMPTY = PageSession("", (), (), {})


def packed_bytes(held: bytes) -> str:
    return base64.b64encode(gzip.compress(held, 9, mtime=0)).decode("ascii")


def unpacked_bytes(text: str) -> bytes:
    """What was packed; a ValueError if it can't be read."""
    try:
        return gzip.decompress(base64.b64decode(text, validate=True))
    except (OSError, EOFError, zlib.error) as error:
        raise ValueError(f"it can't be unpacked: {error}") from error


def as_json(session: PageSession) -> dict[str, object]:
    files = {name: packed_bytes(held) for name, held in session.files.items()}
    return {
        "name": session.name,
        "arguments": list(session.arguments),
        "lines": list(session.lines),
        "files": files,
    }


def element(kind: str, name: str, text: str) -> str:
    """An element that a browser doesn't run."""
    return f'<script type="{kind}" id="{name}">{text}</script>\n'


def json_text(held: object) -> str:
    """In an element `<` can't stand as itself: it may begin the element's end."""
    return json.dumps(held).replace("<", "\\u003c")


def json_element(name: str, held: object) -> str:
    return element("application/json", name, json_text(held))


# The packed page


def packed_page() -> Path:
    """The page beside the package, or the release file of a clone."""
    root = clone()
    places = [BESIDE / NAME, *([root / "release" / NAME] if root else [])]
    found = next(filter(Path.is_file, places), None)
    if found is None:
        looked = " and no ".join(map(str, places))
        how = "a clone makes it by tools/web --pack"
        raise ExploreError(f"the page isn't here: there is no {looked}; {how}")
    return found


def page_with(session: PageSession) -> str:
    """The text of the page's one file with this session in it."""
    path = packed_page()
    try:
        page = path.read_text(encoding="utf-8")
    except (OSError, UnicodeDecodeError) as error:
        raise ExploreError(f"{path}: {getattr(error, 'strerror', None) or error}") from error
    if len(HELD.findall(page)) != 1:
        raise ExploreError(f"{path} is no packed page: it has no place for a session")
    text = json_text(as_json(session))
    return HELD.sub(lambda _: f"{BEGIN}{text}{END}", page)


def has_session(data: bytes) -> bool:
    """Whether this is a page of the machine."""
    return BEGIN.encode() in data


def is_older() -> bool:
    """Whether a clone's page has programs of other sources than are here, as far as that is known:
    beside each module stands the sum of its sources."""
    root = clone()
    return root is not None and not all(is_current(root, it) for it in PROGRAMS)


def is_current(root: Path, program: str) -> bool:
    try:
        said = (root / "release" / f"{program}.wasm.sources").read_text().splitlines()
        command = [str(root / "tools" / "sources-sum"), program]
        summed = subprocess.run(command, stdin=subprocess.DEVNULL, stdout=subprocess.PIPE)
    except (OSError, ValueError):
        return True
    return summed.returncode != 0 or f"sources {summed.stdout.decode().strip()}" in said
