"""Packs a page of web/ into one file that opens from a disk: the page with its style, a script that
loads it, and in elements of their own, which a browser doesn't run, its modules as one script, the
text of the worker, the WebAssembly modules, a session and examples. The script is packed as a
WebAssembly module is, and web/loader.js unpacks it. The examples are packed together; a session
that is one of them is named by its key. A content security policy allows what is packed to run,
and nothing elsewhere to be reached.

A module imports by lines `import { a, b } from "./name.js";`, and exports functions, classes and
constants where they are declared. In the script each module is a function that returns what it
exports."""
import base64
import gzip
import hashlib
import re
import zlib
from pathlib import Path
from typing import Mapping, NamedTuple, Sequence

from nezdrab.export.page_file import EMPTY, SESSION, PageSession, as_json, element, json_element
from nezdrab.export.page_file import json_text, packed_bytes

WORKER = "machine-worker.js"
LOADER = "loader.js"
PAGE_SCRIPT = "script"  # the element that web/loader.js takes
SESSIONS = "sessions"
IMPORT = re.compile(r'^import \{([^}]*)\} from "\./([a-z-]+\.js)";\n', re.M)
EXPORT = re.compile(r"^export (?=(?:async )?(?:function|class|const) (\w+))", re.M)
# A comment alone in its lines, and the type of a cast. Another one that code follows stays.
COMMENT = re.compile(r"^[ \t]*(?:/\*(?:(?!\*/).)*\*/|//[^\n]*)[ \t]*\n", re.M | re.S)
CAST = re.compile(r"/\*\* @type (?:(?!\*/).)*\*/ (?=\()", re.S)
INDENT = re.compile(r"^[ \t]+", re.M)
BLANK = re.compile(r"\n{2,}")
OTHER_FORMS = re.compile(r"^(?:import|export)\b.*|\bimport(?:\(|\.meta)", re.M)
ENDS_SCRIPT = re.compile(r"</script|<!--", re.I)
SCRIPT = re.compile(r'<script type="module" src="([a-z-]+\.js)"></script>')
STYLE = re.compile(r'<link rel="stylesheet" href="([a-z-]+\.css)">')
HEAD = '<meta charset="utf-8">\n'


class PackingError(Exception):
    """Why a page can't be packed, for the user to read."""


class Example(NamedTuple):
    """A session that can be opened in the page: its name in a link, and what the page calls it."""

    key: str
    title: str
    session: PageSession


def text_of(path: Path) -> str:
    try:
        return path.read_text(encoding="utf-8")
    except (OSError, UnicodeDecodeError) as error:
        raise PackingError(f"{path}: {getattr(error, 'strerror', None) or error}") from error


def in_order(folder: Path, entry: str) -> list[str]:
    """The module and all that it imports, each after those that it imports."""
    found: list[str] = []
    under_way: list[str] = []

    def add(name: str) -> None:
        if name in under_way:
            raise PackingError(f"modules import each other: {' '.join([*under_way, name])}")
        if name in found:
            return
        under_way.append(name)
        for match in IMPORT.finditer(text_of(folder / name)):
            add(match[2])
        found.append(under_way.pop())

    add(entry)
    return found


def stripped(text: str) -> str:
    """A module's text or a style without the comments, the blank lines and the indents that web/
    has. If a line may be a part of a longer literal, only the comments are left out."""
    text = CAST.sub("", COMMENT.sub("", text))
    are_whole = all(it.count("`") % 2 == 0 and not it.endswith("\\") for it in text.split("\n"))
    return BLANK.sub("\n", INDENT.sub("", text)) if are_whole else text


def as_function(folder: Path, name: str) -> str:
    """A module's text as a function that returns what the module exports."""
    text = stripped(text_of(folder / name))
    exported = EXPORT.findall(text)
    text = EXPORT.sub("", IMPORT.sub(taken, text))
    other = OTHER_FORMS.search(text) or ENDS_SCRIPT.search(text)
    if other:
        raise PackingError(f"{folder / name}: the packing doesn't know '{other[0]}'")
    given = ", ".join(exported)
    return f'modules["{name}"] = (() => {{\n{text}return {{ {given} }};\n}})();\n'


def taken(match: "re.Match[str]") -> str:
    names = match[1].replace(" as ", ": ")
    return f'const {{{names}}} = modules["{match[2]}"];\n'


def script_of(folder: Path, entry: str) -> str:
    """The module and all that it imports as one script."""
    functions = "".join(as_function(folder, name) for name in in_order(folder, entry))
    return f'"use strict";\nconst modules = {{}};\n{functions}'


def session_as_json(session: PageSession, examples: Sequence[Example]) -> dict[str, object]:
    """The session, or the key of the example that it is."""
    held = as_json(session)
    key = next((it.key for it in examples if as_json(it.session) == held), None)
    return held if key is None else {"example": key}


def of_examples(examples: Sequence[Example]) -> str:
    """The elements of the examples: their keys and titles, and all their sessions, packed."""
    names = [{"key": it.key, "title": it.title} for it in examples]
    sessions = json_text([as_json(it.session) for it in examples]).encode("ascii")
    return json_element("examples", names) + element("text/plain", SESSIONS, packed_bytes(sessions))


def module_text(module: bytes) -> str:
    """A WebAssembly module or a script as the text of its element: packed, five characters for four
    bytes. A full stop stands for the digit `<`, so that nothing in the text is a tag."""
    return base64.b85encode(gzip.compress(module, 9, mtime=0)).decode("ascii").replace("<", ".")


def module_bytes(text: str) -> bytes:
    """What the element with this text has; a ValueError if it can't be read."""
    try:
        return gzip.decompress(base64.b85decode(text.replace(".", "<")))
    except (OSError, EOFError, zlib.error) as error:
        raise ValueError(f"the module can't be unpacked: {error}") from error


def policy(scripts: Sequence[str], styles: Sequence[str]) -> str:
    """The content security policy: the page's own scripts and style, compiling WebAssembly, and a
    worker that the page made; nothing of any host."""
    script = " ".join(map(source_of, scripts))
    style = " ".join(source_of(it) for it in styles) or "'none'"
    return (
        f"default-src 'none'; script-src {script} 'wasm-unsafe-eval'; "
        f"style-src {style}; worker-src blob:; img-src data: blob:; "
        "base-uri 'none'; form-action 'none'"
    )


def source_of(text: str) -> str:
    digest = hashlib.sha256(text.encode()).digest()
    return f"'sha256-{base64.b64encode(digest).decode('ascii')}'"


def page(
    path: Path,
    programs: Mapping[str, bytes],
    session: PageSession = EMPTY,
    examples: Sequence[Example] = (),
) -> str:
    """The page at `path` with the WebAssembly modules of these programs, the session, and further
    ones that can be opened in it."""
    text, folder = INDENT.sub("", text_of(path)), path.parent
    entry = SCRIPT.findall(text)
    if len(entry) != 1 or text.count(HEAD) != 1 or re.search(r"\sstyle=", text):
        raise PackingError(
            f"{path}: a page has one line {HEAD.strip()}, one <script type=\"module\" src=..>, and"
            " no attribute style, which its policy forbids"
        )
    script, loader = script_of(folder, entry[0]), script_of(folder, LOADER)
    styles = {str(it): stripped(text_of(folder / it)) for it in STYLE.findall(text)}
    inside = element("text/plain", PAGE_SCRIPT, module_text(script.encode()))
    inside += element("text/plain", WORKER, script_of(folder, WORKER))
    for name in sorted(programs):
        inside += element("text/plain", f"{name}.wasm", module_text(programs[name]))
    inside += json_element(SESSION, session_as_json(session, examples)) + of_examples(examples)
    allowed = policy((loader, script), list(styles.values()))
    head = f'<meta http-equiv="Content-Security-Policy" content="{allowed}">\n'
    text = text.replace(HEAD, HEAD + head)
    text = STYLE.sub(lambda match: f"<style>{styles[match[1]]}</style>", text)
    return SCRIPT.sub(lambda _: f'{inside}<script type="module">{loader}</script>', text)
