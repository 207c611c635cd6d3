"""documents: replays the sessions that README.md and docs/ show on pdp11, search and explore, and
compares. It also checks the links and widths of these documents and of
crates/DEFINITIONS.md, how many lines docs/ has, that README.md names the kit of release/KIT, and
that the checklists of docs/CHANGING.md name each file that their examples are in
(checks/checklists.py). It prints what is wrong. The last line is 'N passed, M failed'.

Each block of a document is fenced, and its info string says what it is:

  session         lines of a session, each followed by its reply. The reply `ok` may be left out.
  search, search beside
                  the same on the program search.
  session beside  a line in the left column, its reply in the next one, and then what anybody likes
                  to say. Two spaces or more separate columns. A line without a reply column is
                  one whose reply is `ok`. If the left column is empty, the reply goes on.
  commands        each line is a command. They run in a folder that has the program as ./pdp11,
                  ./explore, and the examples as examples/. The next block, `output`, is what they
                  write.
  typed           after a block of commands: lines that are typed to what the last command starts,
                  each with its reply as in `session beside`.
  explore PATH    what ./explore shows for the stored session PATH: each line after `explore> ` is
                  typed, and the others are what it gives.
  terminal WORDS  ./explore with these words is started at a pseudo-terminal. The left column is
                  what is typed: a line at the prompt, or, from the line `console` up to `Ctrl-E`,
                  keys, written as in explore's `type`, each once the one before had an effect. The
                  next column is what is shown then, with further lines below it, in this order.
  terminal-on     further lines, at the terminal of the block before it.
  python          tests/test_package.py runs it.
  text, sh, rust  nothing is replayed.

`session after PATH` and `session beside after PATH` begin with a stored session, as far as it goes
before the first line of the block; it has its arguments and its folder. In a reply or an output
`..` stands for anything, at a terminal for anything in a line."""
import contextlib
import itertools
import os
import re
import shlex
import subprocess
import sys
import tempfile
from collections import Counter
from typing import Iterable, Iterator, NamedTuple, Optional, Sequence

from nezdrab.analysis.script import typed_bytes
from tests import stored_sessions as sessions, under_test
from tests.checks.checklists import CHANGING, failures_of_checklists
from tests.pseudo_terminal import NotShown, PseudoTerminal

ROOT = os.path.normpath(os.path.join(os.path.dirname(os.path.abspath(__file__)), "..", ".."))
README, DOCS, DEFINITIONS = "README.md", "docs", "crates/DEFINITIONS.md"
WIDEST_PROSE, WIDEST_CELL, MOST_LINES = 100, 120, 2300
NOT_REPLAYED = {"python", "text", "sh", "rust"}
SESSION, SEARCH, COMMANDS, OUTPUT, TYPED = "session", "search", "commands", "output", "typed"
EXPLORE, PROMPT = "explore", "explore> "
TERMINAL, TERMINAL_ON = "terminal", "terminal-on"
CONSOLE, LEAVE = "console", "Ctrl-E"
ITEM = re.compile(r"\s*([-*]|\d+\.) ")
LINK = re.compile(r"\]\(([^()\s]+)\)")
CODE = re.compile(r"`[^`]*`")


class Block(NamedTuple):
    """A fenced block: where it begins, what it is, and its lines."""

    name: str
    info: str
    lines: list[str]


class Document(NamedTuple):
    """A document: its lines, its fenced blocks, and its other lines with their numbers."""

    name: str
    lines: list[str]
    blocks: list[Block]
    prose: list[tuple[int, str]]


class Programs(NamedTuple):
    """The paths of the programs."""

    pdp11: str
    search: str
    disassemble: str


def read_document(name: str) -> Document:
    """A document with its fenced blocks, and its other lines as pairs of number and text."""
    with open(os.path.join(ROOT, name), encoding="utf-8") as file:
        lines = file.read().splitlines()
    blocks: list[Block] = []
    prose: list[tuple[int, str]] = []
    block: Optional[Block] = None
    for number, line in enumerate(lines, 1):
        if block is not None and line.strip() == "```":
            block = None
        elif block is not None:
            block.lines.append(line)
        elif line.startswith("```"):
            block = Block(f"{name}:{number}", line[3:].strip(), [])
            blocks.append(block)
        else:
            prose.append((number, line))
    return Document(name, lines, blocks, prose)


def documents() -> list[Document]:
    names = sorted(it for it in os.listdir(os.path.join(ROOT, DOCS)) if it.endswith(".md"))
    paths = (README, *(f"{DOCS}/{name}" for name in names), DEFINITIONS)
    return [read_document(it) for it in paths]


# Sessions


def steps_beside(lines: list[str]) -> list[sessions.Step]:
    """The steps of a block that has each reply beside its line."""
    steps: list[sessions.Step] = []
    for text in lines:
        line, *columns = [it.encode() for it in re.split(r" {2,}", text.rstrip())]
        if not line and columns and steps:
            steps[-1].reply.append(columns[0])
        elif not sessions.has_reply(text.encode()):
            steps.append(sessions.Step(text.encode(), []))
        else:
            steps.append(sessions.Step(line, columns[:1] or [b"ok"]))
    return steps


def matches(shown: bytes, got: bytes) -> bool:
    """Whether a text is the one that is shown, in which `..` stands for anything."""
    parts = [re.escape(it) for it in shown.split(b"..")]
    return re.fullmatch(b".*".join(parts), got, re.DOTALL) is not None


def stored_session(path: str) -> Optional[sessions.Session]:
    base, _ = os.path.splitext(os.path.join(ROOT, path))
    found = sessions.sessions_of(os.path.dirname(base))
    return next((it for it in found if it.name == base), None)


def lines_before(session: sessions.Session, steps: list[sessions.Step]) -> list[bytes]:
    """The lines of a stored session before the first one of the steps."""
    begin = steps[0].line if steps else None
    lines = (it.rstrip(b"\n") for it in sessions.lines_of(session.lines))
    return list(itertools.takewhile(lambda line: line != begin, lines))


def failure_of_session(programs: Programs, block: Block) -> Optional[str]:
    """What is wrong with a block of a session, or None."""
    kind, *words = block.info.split()
    is_beside = words[:1] == ["beside"]
    words = words[1:] if is_beside else words
    if is_beside:
        steps = steps_beside(block.lines)
    else:
        steps = sessions.steps_of([it.encode() for it in block.lines])
    before: list[bytes] = []
    nothing = sessions.Ended(b"", 0, b"")
    session: Optional[sessions.Session] = sessions.Session(block.name, ROOT, b"", [], nothing)
    if words:
        session = stored_session(words[1]) if words[0] == "after" and len(words) == 2 else None
    if session is None:
        return f"'{' '.join(words)}' names no stored session"
    if words:
        before = lines_before(session, steps)
    lines = before + [step.line for step in steps]
    program = programs.search if kind == SEARCH else programs.pdp11
    ended = sessions.run(program, session, b"".join(line + b"\n" for line in lines))
    if (ended.status, ended.error) != (0, b""):
        return f"status {ended.status}, {ended.error!r}"
    replies = sessions.replies_of(ended.output)
    return failure_of_replies(steps, replies[sum(sessions.has_reply(it) for it in before) :])


def failure_of_replies(steps: list[sessions.Step], got: list[bytes]) -> Optional[str]:
    """What is wrong with the replies to the lines of a block, or None."""
    wanted = [step for step in steps if step.reply]
    for step, reply in itertools.zip_longest(wanted, got):
        shown = b"".join(it + b"\n" for it in step.reply) if step else b""
        if step is None or reply is None or not matches(shown, reply):
            line = step.line.decode() if step else "the end"
            return f"the reply to '{line}' is {reply!r}, and not {shown!r}"
    return None


def failure_of_commands(
    programs: Programs, block: Block, after: Optional[Block]
) -> Optional[str]:
    """What is wrong with a block of commands and the block after it, or None."""
    if after is None or after.info not in (OUTPUT, TYPED):
        return f"no block '{OUTPUT}' or '{TYPED}' follows the commands"
    steps = steps_beside(after.lines) if after.info == TYPED else []
    lines = b"".join(step.line + b"\n" for step in steps)
    got = output_of(programs, ["bash", "-c", "\n".join(block.lines)], lines)
    if after.info == TYPED:
        return failure_of_replies(steps, sessions.replies_of(got))
    return failure_of_output(after.lines, got)


def failure_of_explore(programs: Programs, block: Block) -> Optional[str]:
    """What is wrong with a block of lines that are typed to explore, or None."""
    typed = "".join(f"{it[len(PROMPT):]}\n" for it in block.lines if it.startswith(PROMPT))
    command = ["./explore", "--echo", *block.info.split()[1:]]
    return failure_of_output(block.lines, output_of(programs, command, typed.encode()))


def failure_of_terminal(programs: Programs, blocks: Sequence[Optional[Block]]) -> Optional[str]:
    """What is wrong with blocks that are typed at one terminal, or None."""
    first, *_ = there = [it for it in blocks if it is not None]
    if len(there) < len(blocks) or first.info.split()[:1] != [TERMINAL]:
        return f"no block '{TERMINAL}' is before it"
    with folder_of(programs) as folder:
        command = ["./explore", *first.info.split()[1:]]
        environment = {**os.environ, "XDG_STATE_HOME": folder, "TERM": "dumb"}
        try:
            with PseudoTerminal(command, folder, environment) as terminal:
                for block in there:
                    type_block(terminal, block)
        except NotShown as error:
            return str(error)
    return None


def type_block(terminal: PseudoTerminal, block: Block) -> None:
    """Types the left column of a block, and waits for what is beside it."""
    is_console = False
    for line, *shown in (re.split(r" {2,}", it.rstrip()) for it in block.lines):
        if line == LEAVE:
            terminal.type(b"\x05")
            is_console = False
        elif line and is_console:
            terminal.type_one_by_one(bytes(typed_bytes(line)))
        elif line:
            terminal.wait_for(b"explore..> ")  # the current turn may be in it
            terminal.type(f"{line}\n".encode())
            terminal.wait_for(f"{line}\r\n".encode())
            is_console = line.split()[0] == CONSOLE
        if shown:
            terminal.wait_for(shown[0].encode())


def failure_of_output(lines: list[str], got: bytes) -> Optional[str]:
    """What is wrong with the output of commands, of which these lines are shown, or None."""
    shown = "".join(it + "\n" for it in lines).encode()
    return None if matches(shown, got) else f"the output is {got!r}, and not {shown!r}"


@contextlib.contextmanager
def folder_of(programs: Programs) -> Iterator[str]:
    """A folder that has the programs and the examples."""
    built = ["--program", programs.search, "--disassembler", programs.disassemble]
    explore = shlex.join([os.path.join(ROOT, "explore"), *built])
    with tempfile.TemporaryDirectory() as folder:
        os.symlink(programs.pdp11, os.path.join(folder, "pdp11"))
        os.symlink(os.path.join(ROOT, "examples"), os.path.join(folder, "examples"))
        with open(os.path.join(folder, "explore"), "w", encoding="utf-8") as file:
            file.write(f'#!/bin/sh\nexec {explore} "$@"\n')
        os.chmod(file.name, 0o755)
        yield folder


def output_of(programs: Programs, command: list[str], given: bytes) -> bytes:
    """What a command writes in a folder that has the programs and the examples."""
    with folder_of(programs) as folder:
        try:
            ran = subprocess.run(
                command,
                cwd=folder,
                input=given,
                stdout=subprocess.PIPE,
                stderr=subprocess.STDOUT,
                timeout=sessions.SECONDS,
            )
        except subprocess.TimeoutExpired:
            return f"no answer in {sessions.SECONDS} seconds\n".encode()
        return ran.stdout


def failure_of_block(
    programs: Programs, before: Optional[Block], block: Block, after: Optional[Block]
) -> Optional[str]:
    """What is wrong with a block between the blocks before and after it, or None."""
    kind = (block.info.split() or [""])[0]
    if kind in (SESSION, SEARCH):
        return failure_of_session(programs, block)
    if kind == EXPLORE:
        return failure_of_explore(programs, block)
    if kind == TERMINAL:
        return failure_of_terminal(programs, [block])
    if kind == TERMINAL_ON:
        return failure_of_terminal(programs, [before, block])
    if block.info == COMMANDS:
        return failure_of_commands(programs, block, after)
    if block.info in (OUTPUT, TYPED):
        follows = before is not None and before.info == COMMANDS
        return None if follows else "no block of commands is before it"
    return None if block.info in NOT_REPLAYED else f"a block of the unknown kind '{block.info}'"


# Links, widths, sizes, and the kit


def anchors_of(document: Document) -> list[str]:
    """The anchors of a document's headings, in their order, as GitHub makes them."""
    seen: Counter[str] = Counter()
    anchors = []
    for _, line in document.prose:
        if line.startswith("#"):
            title = CODE.sub(lambda code: code.group().strip("`"), line.lstrip("#").strip())
            anchor = re.sub(r"[^\w\- ]", "", title.lower()).replace(" ", "-")
            anchors.append(f"{anchor}-{seen[anchor]}" if seen[anchor] else anchor)
            seen[anchor] += 1
    return anchors


def failures_of_links(
    document: Document, anchors: dict[str, list[str]]
) -> Iterator[Optional[str]]:
    """What is wrong with each link of a document to a file or an anchor, or None."""
    for number, line in document.prose:
        for target in LINK.findall(CODE.sub("", line)):
            if re.match(r"[a-z]+:", target):
                continue
            path, _, anchor = target.partition("#")
            name = os.path.join(os.path.dirname(document.name), path) if path else document.name
            name = os.path.normpath(name)
            if not os.path.exists(os.path.join(ROOT, name)):
                yield f"{document.name}:{number}: there is no {name}"
            elif anchor and anchor not in anchors.get(name, []):
                yield f"{document.name}:{number}: {name} has no heading '{anchor}'"
            else:
                yield None


def cells_of(row: str) -> list[str]:
    return [it.strip() for it in row.strip().strip("|").split("|")]


def failures_of_widths(document: Document) -> Iterator[str]:
    """The lines of a document that are too wide, and its blocks that aren't fenced."""
    is_list, last = False, ""
    for number, line in document.prose:
        at = f"{document.name}:{number}"
        if line.startswith("|"):
            wide = [it for it in cells_of(line) if len(it) > WIDEST_CELL]
            yield from (f"{at}: a cell of {len(it)} characters: {it[:40]} .." for it in wide)
        elif len(line) > WIDEST_PROSE:
            yield f"{at}: {len(line)} columns"
        if ITEM.match(line):
            is_list = True
        elif line and not line.startswith(" "):
            is_list = False
        if line.startswith("    ") and not last.strip() and not is_list:
            yield f"{at}: a block that isn't fenced"
        last = line


def failures_of_size(found: list[Document]) -> Iterator[str]:
    inside = [it for it in found if it.name.startswith(DOCS)]
    count = sum(len(it.lines) for it in inside)
    if count > MOST_LINES:
        yield f"{DOCS}/ has {count} lines, more than {MOST_LINES}"


def failure_of_kit(readme: Document) -> Optional[str]:
    with open(os.path.join(ROOT, "release", "KIT"), encoding="utf-8") as file:
        kit = file.read().strip()
    is_named = any(f"`{kit}`" in line for line in readme.lines)
    return None if is_named else f"{readme.name} doesn't name the kit of release/KIT, `{kit}`"


def all_failures(programs: Programs, found: list[Document]) -> Iterator[Optional[str]]:
    """What is wrong by each check, or None. Of the widths of a document each is one failure."""
    anchors = {it.name: anchors_of(it) for it in found}
    for document in found:
        blocks = document.blocks
        for before, block, after in zip([None, *blocks], blocks, [*blocks[1:], None]):
            wrong = failure_of_block(programs, before, block, after)
            yield wrong and f"{block.name}: {wrong}"
        yield from failures_of_links(document, anchors)
        yield from at_least_one(failures_of_widths(document))
    yield from at_least_one(failures_of_size(found))
    yield failure_of_kit(found[0])
    for document in found:
        if document.name == CHANGING:
            yield from failures_of_checklists(document.lines)


def at_least_one(failures: Iterable[str]) -> list[Optional[str]]:
    """What is wrong, or one None if nothing is."""
    return [*failures] or [None]


def main() -> int:
    sessions.parser_of(__doc__).parse_args()
    programs = Programs(*map(under_test.by_its_name, Programs._fields))
    results = list(all_failures(programs, documents()))
    wrong = [it for it in results if it is not None]
    print("".join(f"{it}\n" for it in wrong), end="")
    print(f"{len(results) - len(wrong)} passed, {len(wrong)} failed")
    return int(len(wrong) > 0)


if __name__ == "__main__":
    sys.exit(main())
