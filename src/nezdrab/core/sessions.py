"""The lines of the session language: their forms, what they are, and how a text of lines and
replies falls into them."""
import re
from typing import AnyStr, NamedTuple

from .line_table import ROWS

LONGEST_LINE = 200


class Line(NamedTuple):
    """A line of the language, as `search --lines` has it: its form; whether it is of sessions or of
    searches alone; what it is; the kinds of its arguments; how its reply begins if the line is
    taken; which turns it asks of; and what it does. If a reply is its first word and the count C, C
    lines follow."""

    form: str
    language: str
    kind: str
    arguments: str
    reply: str
    turns: str
    summary: str


EDIT, QUESTION, STEP = "edit", "question", "step"
# Which turns a line asks of: the state before one, those of a span, and so many before one.
STATE, SPAN, LAST = "before N", "N to M", "C before N"
TABLE = [Line(*row.split("\t")) for row in ROWS.splitlines()]
LANGUAGE = [it for it in TABLE if it.language == "session"]
SEARCHES = [it for it in TABLE if it.language == "search"]
# What a CONDITION is, in which W is an octal word, and the words of it before an address.
CONDITIONS = (
    "one to four of these with 'and' between them: X = Y, X != Y, X < Y, X > Y, X & W = W, at A, "
    "kernel or user. X is R0 to R5, KSP, USP, SP, PC, PS or core A; Y is such an X or W"
)
CONDITIONS_HERE = (  # in explore and in the package, by drive_searches
    f"{CONDITIONS}. X or Y may be a word of the drive too, disk I, in version 2 disk D I"
)
BEFORE_ADDRESS = ("at", "core")
# The events that `at` and `alter` name, each with the letter of its number, if it has one.
EVENTS = {
    "key": "B",
    "switches": "W",
    "continue": "",
    "tick": "",
    "printer": "",
    "reader": "",
    "punch": "",
    "disk": "",
}
# What a refusal says, by its number; 10 is a line that has no form of the language.
REFUSALS = {
    "1": "the memory that the line needs was refused",
    "2": "the address, or one of the range, is not in core",
    "3": "the address is odd",
    "4": "the number, or one of the range, is past the end of a drive",
    "5": "no event has this number; events lists them",
    "6": "the script is full",
    "7": "the turn or the delay is above 1000000000",
    "8": "the count is not 1 to 256; of a trail not 1 to 64, or above its turn; of a search the "
    "first number is above the second, or a word is past address 177776",
    "9": "this core word has no patch; patches lists them",
    "11": f"the line has more than {LONGEST_LINE} bytes",
    "16": "the drive's number is above 7",
}
REFUSALS_OF_SEARCH = {**REFUSALS, "17": "there is no edit to take back, or to make again"}


def command_of(line: Line) -> bytes:
    """The word that a line of the language begins with, as it is in a session."""
    return line.form.split()[0].encode()


def pattern_of(line: Line) -> str:
    """What fits such a line. A word in capitals stands for any word, EDIT and CONDITION for any
    words."""
    words = line.form.replace("EDIT", "..").replace("CONDITION", "..").split()
    return " ".join(".+" if it == ".." else r"\S+" if it.isupper() else it for it in words)


QUESTIONS = {command_of(line) for line in LANGUAGE if line.kind == QUESTION}
EDITS = {command_of(line) for line in TABLE if line.kind == EDIT}
# The first word of the reply, if the line is taken, by the first word of the line.
BEGINNINGS = {command_of(it): it.reply.split()[0].encode() for it in TABLE}
REFUSED = b"refused"
# The reply begins with the command and the count of the lines that follow.
COUNTED = {command_of(it) for it in TABLE if it.reply.endswith(" C")}
WORD, WORD_OF_BYTES = re.compile("[^ \t]+"), re.compile(rb"[^ \t]+")


def words_of(line: AnyStr) -> list[AnyStr]:
    """The words of a line: spaces and tabs separate them, and each other byte is part of one."""
    if isinstance(line, bytes):
        return WORD_OF_BYTES.findall(line)
    return WORD.findall(line)


def first_word(line: AnyStr) -> AnyStr:
    """The first word of a line; empty if it has none."""
    found = (WORD_OF_BYTES if isinstance(line, bytes) else WORD).search(line)
    return found[0] if found else line[:0]


def is_reply(line: bytes, reply: bytes) -> bool:
    """Whether this may be the reply to the line, by the first word of each."""
    return reply.partition(b" ")[0] in (REFUSED, BEGINNINGS.get(first_word(line)))


def further_lines(first: bytes) -> int:
    """How many lines of a reply follow its first one."""
    command, *rest = first.split(maxsplit=2) or [b""]
    return int(rest[0]) if command in COUNTED and rest and rest[0].isdigit() else 0


def lines_of(text: bytes) -> list[bytes]:
    return re.findall(rb"[^\n]*\n|[^\n]+", text)


def without_end(line: bytes) -> bytes:
    """The line without its LF and a CR directly before that."""
    return line[:-1].removesuffix(b"\r") if line.endswith(b"\n") else line


def has_reply(line: bytes) -> bool:
    line = without_end(line)
    return len(line) > LONGEST_LINE or (not line.startswith(b"#") and line.strip(b" \t") != b"")
