"""A document as HTML of the one page: its anchors, its links, its tables and pictures."""
import base64
import html
import os
import re
import subprocess
from html.parser import HTMLParser
from pathlib import Path
from typing import NamedTuple, Optional

from tests.checks.docs import ROOT, Document, anchors_of

MAKER = "pandoc"
COMMAND = [MAKER, "--from=gfm", "--to=html5", "--no-highlight", "--wrap=preserve"]
HEADING = re.compile(r"h[1-6]")
KINDS = {".png": "image/png", ".svg": "image/svg+xml"}


class NotTurned(Exception):
    """Why a document can't be a part of the page."""


class Heading(NamedTuple):
    """A heading: `h1` to `h6`, its place in the page, and its HTML."""

    kind: str
    place: str
    title: str


def stem_of(name: str) -> str:
    """What a document is called in the page: LANGUAGE of docs/LANGUAGE.md."""
    return Path(name).stem


def place_of(name: str, anchor: str) -> str:
    """The anchor of the page that stands for a heading of a document, or for its beginning."""
    return f"{stem_of(name)}/{anchor}" if anchor else stem_of(name)


def picture(name: str) -> str:
    """A picture as an address that holds all of it."""
    path = Path(ROOT, name)
    kind = KINDS.get(path.suffix)
    if kind is None:
        raise NotTurned(f"{name} is no picture of a known kind: {', '.join(KINDS)}")
    return f"data:{kind};base64,{base64.b64encode(path.read_bytes()).decode()}"


def tag(name: str, **attributes: str) -> str:
    written = (f' {key}="{html.escape(value)}"' for key, value in attributes.items())
    return f"<{name}{''.join(written)}>"


class Turned(HTMLParser):
    """The HTML of a document, written again for the page."""

    def __init__(self, document: Document, names: set[str]) -> None:
        super().__init__(convert_charrefs=False)
        self.document = document
        self.name = document.name
        self.names = names
        self.anchors = iter(anchors_of(document))
        self.written: list[str] = []
        self.headings: list[Heading] = []
        # the place of the heading that is being written, and where its text begins
        self.heading = "", 0
        # the path that a link to a file outside the page has, and where its text begins
        self.outside: Optional[tuple[str, int]] = None

    def handle_starttag(self, name: str, attributes: list[tuple[str, Optional[str]]]) -> None:
        held = {key: value or "" for key, value in attributes}
        if HEADING.fullmatch(name):
            place = place_of(self.name, next(self.anchors, ""))
            self.written.append(tag(name, id=place))
            self.heading = place, len(self.written)
        elif name == "a":
            self.begin_link(held["href"])
        elif name == "img":
            source = picture(self.path_of(held["src"]))
            self.written.append(tag(name, src=source, alt=held.get("alt", "")))
        elif name == "table":
            self.written.append('<div class="wide"><table>')
        else:
            self.written.append(self.get_starttag_text() or "")

    def handle_startendtag(self, name: str, attributes: list[tuple[str, Optional[str]]]) -> None:
        self.handle_starttag(name, attributes)

    def handle_endtag(self, name: str) -> None:
        if name == "a" and self.outside:
            self.end_outside(*self.outside)
            return
        if HEADING.fullmatch(name):
            place, begin = self.heading
            self.headings.append(Heading(name, place, "".join(self.written[begin:])))
        self.written.append("</table></div>" if name == "table" else f"</{name}>")

    def handle_data(self, data: str) -> None:
        self.written.append(data)

    def handle_entityref(self, name: str) -> None:
        self.written.append(f"&{name};")

    def handle_charref(self, name: str) -> None:
        self.written.append(f"&#{name};")

    def path_of(self, path: str) -> str:
        """A path of this document, from the root of the repository."""
        return os.path.normpath(os.path.join(os.path.dirname(self.name), path))

    def begin_link(self, target: str) -> None:
        path, _, anchor = target.partition("#")
        name = self.path_of(path) if path else self.name
        if re.match(r"[a-z]+:", target):
            self.written.append(tag("a", href=target))
        elif name in self.names:
            self.written.append(tag("a", href=f"#{place_of(name, anchor)}"))
        else:
            self.outside = name, len(self.written)

    def end_outside(self, path: str, begin: int) -> None:
        """Ends what was a link to a file outside the page: its path is beside its text."""
        if html.escape(path) not in "".join(self.written[begin:]):
            self.written.append(f" (<code>{html.escape(path)}</code>)")
        self.outside = None


def text_of(document: Document) -> str:
    """The Markdown of a document. As for GitHub a table may follow a line of text; pandoc takes an
    empty line between them."""
    prose = {number for number, _ in document.prose}
    lines: list[str] = []
    for number, line in enumerate(document.lines, 1):
        if number in prose and line.startswith("|") and lines and lines[-1][:1] not in ("", "|"):
            lines.append("")
        lines.append(line)
    return "".join(f"{it}\n" for it in lines)


def turned(document: Document, names: set[str]) -> Turned:
    """A document as HTML, in a page that has the documents of these names."""
    given = text_of(document)
    ran = subprocess.run(COMMAND, input=given, capture_output=True, encoding="utf-8")
    if ran.returncode != 0:
        why = f"{MAKER} ended with {ran.returncode}: {ran.stderr.strip()}"
        raise NotTurned(f"{document.name}: {why}")
    page = Turned(document, names)
    page.feed(ran.stdout)
    page.close()
    places = [place_of(page.name, it) for it in anchors_of(document)]
    if [it.place for it in page.headings] != places:
        raise NotTurned(f"{document.name}: {MAKER} finds other headings than tools/check documents")
    return page
