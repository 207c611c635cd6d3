"""make site FOLDER: writes README and docs/*.md as one page, FOLDER/nezdrab.html, with a table of
contents. Links between the documents lead to their places in the page; of a link to another file
its path is shown. The pictures are in it, so the page stands alone and loads nothing.

It takes pandoc (Debian: apt-get install pandoc); without it the exit status is 2."""
import argparse
import os
import shutil
import sys
from pathlib import Path

from nezdrab.core.written_files import replaced
from tests.checks.docs import DEFINITIONS, README, Document, documents

from .turned import MAKER, NotTurned, Turned, place_of, stem_of, turned

FILE = "nezdrab.html"
STYLE = Path(__file__).with_name("style.css")
PAGE = """\
<!DOCTYPE html>
<html lang="en">
<head>
<meta charset="utf-8">
<meta name="viewport" content="width=device-width, initial-scale=1">
<title>Nezdrab</title>
<style>
{style}</style>
</head>
<body>
<nav id="contents" aria-label="Contents">
<h2>Contents</h2>
{contents}
</nav>
<main>
{articles}
</main>
</body>
</html>
"""
NO_MAKER = f"it takes {MAKER}, which isn't installed (apt-get install {MAKER})"


def in_order(found: list[Document]) -> list[Document]:
    """README, then the others in the order in which the rows of its table link to them."""
    readme = next(it for it in found if it.name == README)
    rows = "".join(line for line in readme.lines if line.startswith("|"))
    others = [it for it in found if it.name not in (README, DEFINITIONS)]

    def place(document: Document) -> int:
        first = rows.find(f"]({document.name})")
        return first if first >= 0 else len(rows)

    return [readme, *sorted(others, key=place)]


def contents_of(page: Turned) -> str:
    """A document's part of the table of contents."""
    stem = stem_of(page.name)
    sections = [
        f'<li class="{it.kind}"><a href="#{it.place}">{it.title}</a></li>'
        for it in page.headings
        if it.kind != "h1"
    ]
    link = f'<a href="#{stem}">{stem}</a>'
    if not sections:
        return f"<p>{link}</p>"
    return "\n".join([f"<details><summary>{link}</summary><ul>", *sections, "</ul></details>"])


def article_of(page: Turned) -> str:
    stem = stem_of(page.name)
    above = f'<p class="above">{stem} <a href="#contents">Contents</a></p>'
    return f'<article id="{stem}">\n{above}\n{"".join(page.written)}</article>'


def turned_documents() -> list[Turned]:
    """README and the documents as HTML, in the order of the page."""
    found = in_order(documents())
    return [turned(it, {it.name for it in found}) for it in found]


def page_of(pages: list[Turned]) -> str:
    """The one page, of these documents."""
    return PAGE.format(
        style=STYLE.read_text(encoding="utf-8"),
        contents="\n".join(map(contents_of, pages)),
        articles="\n".join(map(article_of, pages)),
    )


def make(folder: Path) -> None:
    """Writes the page. It is there whole, or as it was before."""
    folder.mkdir(parents=True, exist_ok=True)
    path = folder / FILE
    page = page_of(turned_documents())
    replaced(path, path.stat() if path.exists() else None, [page.encode()])
    print(path, flush=True)


def folder_named(text: str) -> Path:
    if not text:
        raise argparse.ArgumentTypeError("the folder has no name")
    return Path(text)


def main() -> int:
    as_it_is = argparse.RawDescriptionHelpFormatter
    parser = argparse.ArgumentParser(
        prog="make site", description=__doc__, formatter_class=as_it_is
    )
    parser.add_argument("folder", metavar="FOLDER", type=folder_named)
    folder = parser.parse_args().folder
    if shutil.which(MAKER) is None:
        print(f"make site: {NO_MAKER}", file=sys.stderr)
        return 2
    try:
        make(folder)
        return 0
    except OSError as error:
        where = error.filename or "standard output"
        print(f"make site: {where}: {error.strerror}", file=sys.stderr)
        sys.stdout = open(os.devnull, "w")  # what is left for it can't be written either
    except (NotTurned, ValueError) as error:
        print(f"make site: {error}", file=sys.stderr)
    except KeyboardInterrupt:
        print("make site: stopped", file=sys.stderr)
        return 130
    return 1
