"""What checks and tests share: the lines of the session language, which are those of
src/nezdrab/core/sessions.py, and the stored sessions of a folder.

NAME.transcript has the lines of a session, each with its reply under it; the reply `ok` of an edit
is left out. If bytes, status or standard error matter, a session stands in files of its own:
NAME.session is standard input, NAME.expected standard output, NAME.status the exit status (no file:
0), NAME.stderr standard error (no file: empty). NAME.args has the arguments, one a line. A session
is run in its folder, which has the files that its arguments name. NAME.search-transcript and
NAME.search are the same for the program search alone."""
import argparse
import os
import re
import subprocess
from dataclasses import dataclass
from typing import Any, Iterable, NamedTuple, Optional, Union

from nezdrab.core.sessions import *  # noqa: F403, what the checks know as sessions.NAME
from nezdrab.core.sessions import EDITS, SEARCHES, first_word, further_lines, has_reply, is_reply
from nezdrab.core.sessions import lines_of, pattern_of, without_end

ROOT = os.path.dirname(os.path.dirname(os.path.abspath(__file__)))
# Where stored sessions are: of one rule each, of many values of a rule; and all folders.
RULES, VALUES = "tests/sessions/rules", "tests/sessions/values"
ALL = (RULES, VALUES, "examples")
SECONDS = 300


class Ended(NamedTuple):
    """How a program ended. Without an answer in time the status says so."""

    output: bytes
    status: Union[int, str]
    error: bytes


class Session(NamedTuple):
    """A stored session, and how the program must end."""

    name: str
    folder: str
    lines: bytes
    args: list[str]
    expected: Ended


class Step(NamedTuple):
    """A line of a session with the lines of its reply, none of them with its line feed."""

    line: bytes
    reply: list[bytes]


SEARCH_LINE = re.compile("|".join(map(pattern_of, SEARCHES)).encode())
# How the files of stored sessions end, each with the ending of a transcript of the same kind.
TRANSCRIPTS = {".session": ".transcript", ".search": ".search-transcript"}


def existing_program(path: str) -> str:
    """The program's absolute path, from any folder; an error of the arguments if it isn't there."""
    if not os.access(path, os.X_OK):
        raise argparse.ArgumentTypeError(f"{path}: no such program; tools/program pdp11 finds one")
    return os.path.abspath(path)


@dataclass(frozen=True)
class Asked:
    """What a tool's arguments say: the folders, the strides to run their sessions with, which of
    its own flags are there, and what each of its own words is."""

    folders: list[str]
    strides: list[str]
    flags: frozenset[str]
    words: dict[str, Any]


def parser_of(description: Optional[str]) -> argparse.ArgumentParser:
    as_it_is = argparse.RawDescriptionHelpFormatter
    return argparse.ArgumentParser(description=description, formatter_class=as_it_is)


def asked(parser: argparse.ArgumentParser, *flags: str) -> Asked:
    """Reads a tool's arguments. A flag is given as it is typed, as `--search`."""
    parser.add_argument("--stride", metavar="LIST", default="", help="such as 1,4,10000")
    for flag in flags:
        parser.add_argument(flag, dest=flag, action="store_true")
    parser.add_argument("folders", metavar="FOLDER", nargs="*")
    words = vars(parser.parse_args())
    strides = [stride for stride in words["stride"].split(",") if stride]
    there = frozenset(flag for flag in flags if words[flag])
    return Asked(words["folders"], strides, there, words)


def asked_folders(parser: argparse.ArgumentParser) -> argparse.Namespace:
    """Reads a tool's arguments, whose last ones are folders that must be there."""
    parser.add_argument("folders", metavar="FOLDER", nargs="*")
    found = parser.parse_args()
    for it in found.folders:
        if not os.path.isdir(it):
            parser.error(f"{it}: no such folder")
    return found


def folders_of(given: list[str], *usual: str) -> list[str]:
    """The folders that are given, otherwise the usual ones of this repository."""
    return given or [os.path.relpath(os.path.join(ROOT, it)) for it in usual]


def stored(path: str, default: bytes = b"") -> bytes:
    if not os.path.exists(path):
        return default
    with open(path, "rb") as file:
        return file.read()


def sessions_of(folder: str, wanted: str = ".session") -> list[Session]:
    """Every session in the folder and the folders below it whose file has the wanted ending or is a
    transcript of that kind, in the order of their names."""
    found = []
    for at, folders, files in os.walk(folder):
        folders.sort()
        for file in sorted(files):
            base, ending = os.path.splitext(os.path.join(at, file))
            if ending == wanted:
                found.append(session_in_files(base, wanted))
            elif ending == TRANSCRIPTS[wanted]:
                found.append(session_in_transcript(base, ending))
    return found


def is_of_both(session: Session) -> bool:
    """Whether the program search must end a session as pdp11 does: there is no line of a search,
    which pdp11 refuses, and no help is asked for."""
    searches = any(SEARCH_LINE.fullmatch(without_end(it)) for it in lines_of(session.lines))
    return not searches and not {"-h", "--help"} & set(session.args)


def arguments_of(base: str) -> list[str]:
    return stored(base + ".args").decode().splitlines()


def session_in_files(base: str, ending: str) -> Session:
    status = int(stored(base + ".status", b"0"))
    expected = Ended(stored(base + ".expected"), status, stored(base + ".stderr"))
    folder = os.path.dirname(base)
    return Session(base, folder, stored(base + ending), arguments_of(base), expected)


def session_in_transcript(base: str, ending: str) -> Session:
    steps = steps_of(stored(base + ending).splitlines())
    lines = b"".join(step.line + b"\n" for step in steps)
    output = b"".join(line + b"\n" for step in steps for line in step.reply)
    folder = os.path.dirname(base)
    return Session(base, folder, lines, arguments_of(base), Ended(output, 0, b""))


def steps_of(lines: list[bytes]) -> list[Step]:
    """The steps of a transcript: what follows a line that has a reply is its reply. If that can't
    be the reply to an edit, the edit is answered `ok`."""
    steps, left = [], list(lines)
    while left:
        line, reply = left.pop(0), []
        if has_reply(line):
            is_edit = first_word(line) in EDITS
            if is_edit and not (left and is_reply(line, left[0])):
                reply = [b"ok"]
            elif left:
                count = 1 + further_lines(left[0])
                reply, left = left[:count], left[count:]
        steps.append(Step(line, reply))
    return steps


def with_strides(session: Session, strides: Iterable[str]) -> list[Session]:
    """The session with each of these strides; unchanged if there is none, or if the session has a
    stride of its own."""
    if not strides or any(arg.startswith("--stride") for arg in session.args):
        return [session]
    named = [(f"{session.name} with stride {it}", ["--stride", it]) for it in strides]
    return [session._replace(name=name, args=[*words, *session.args]) for name, words in named]


def run(program: str, session: Session, lines: bytes, **more: Any) -> Ended:
    """Runs the program with the session's arguments on these lines; subprocess.run gets `more`."""
    how: dict[str, Any] = {"cwd": session.folder, "capture_output": True, "timeout": SECONDS}
    how.update(more)
    try:
        ran = subprocess.run([program, *session.args], input=lines, **how)
    except subprocess.TimeoutExpired:
        return Ended(b"", f"no answer in {SECONDS} seconds", b"")
    return Ended(ran.stdout, ran.returncode, ran.stderr)


def replies_of(output: bytes) -> list[bytes]:
    """The replies in an output, each with all its lines."""
    lines, replies = lines_of(output), []
    while lines:
        more = further_lines(lines[0])
        replies.append(b"".join(lines[: more + 1]))
        lines = lines[more + 1 :]
    return replies


def difference(got: Ended, wanted: Ended) -> str:
    """Says what differs first between two runs."""
    for name in ("status", "error"):
        if getattr(got, name) != getattr(wanted, name):
            return f"{name} is {getattr(got, name)!r}, and not {getattr(wanted, name)!r}"
    ours, theirs = got.output.split(b"\n"), wanted.output.split(b"\n")
    lines = range(max(len(ours), len(theirs)))
    at = next(i for i in lines if ours[i : i + 1] != theirs[i : i + 1])
    return f"line {at + 1} of the output is {ours[at : at + 1]}, and not {theirs[at : at + 1]}"
