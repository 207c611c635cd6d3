"""What the manual pages and the completions show: each program under the name that it has when it
is installed, its options, and how it ends. SIMH has a command pdp11, so the names are others there.
The options are those of the stored help, which the gate compares with the programs, and those of
explore's own parser."""
import argparse
import itertools
import re
from dataclasses import dataclass
from pathlib import Path

from nezdrab import main
from nezdrab.dap import server

ROOT = Path(__file__).resolve().parents[3]
OPTION = re.compile(r"  (?:(-\w), |    )(--\w+)(?: <(\w+)>)? +(\S.*)")
STATUS = re.compile(r"\| (\d) \| (.+?) \| (.+?) \|$", re.M)
CODES = re.compile(r" \([0-9, ]+\)")  # of refusals, behind when a status comes


@dataclass(frozen=True)
class Option:
    """An option: its name, its short one, what its value is, if it has one, and what it does."""

    name: str
    short: str
    value: str
    is_value_needed: bool
    summary: str


@dataclass(frozen=True)
class Ending:
    """An exit status, and when the program ends with it."""

    status: str
    when: str


@dataclass(frozen=True)
class Program:
    """A program: its name when it is installed, and in the repository, if it has one there; what it
    is, in a line, and in paragraphs, of which an indented one is an example."""

    name: str
    here: str
    brief: str
    paragraphs: list[str]
    options: list[Option]
    endings: list[Ending]
    takes_session: bool = False
    has_language: bool = True


def text_of(path: str) -> str:
    return (ROOT / path).read_text(encoding="utf-8")


def options_of_help(text: str) -> list[Option]:
    """The options that a stored help shows."""
    rows = text.split("\nOptions:\n", 1)[1].split("\n\n", 1)[0].splitlines()
    found = [it for it in map(OPTION.fullmatch, rows) if it is not None]
    if len(found) != len(rows):
        raise ValueError("a line of the options isn't an option")
    return [Option(it[2], it[1] or "", it[3] or "", True, it[4]) for it in found]


def options_of_parser(parser: argparse.ArgumentParser, others: list[Option]) -> list[Option]:
    """The options of a parser; those of another program have its words."""
    summaries = {it.name: it.summary for it in others}
    found = []
    for it in parser._actions:
        if not it.option_strings:
            continue
        *short, name = it.option_strings
        value = it.metavar if isinstance(it.metavar, str) else ""
        summary = summaries.get(name, "") if it.help is None else it.help
        needed = it.nargs != argparse.OPTIONAL
        found.append(Option(name, "".join(short), value, needed, summary))
    return found


def endings_of_language() -> list[Ending]:
    """The exit statuses that docs/LANGUAGE.md names, each with when it comes."""
    text = text_of("docs/LANGUAGE.md").split("\n| status | when |", 1)[1].split("\n\n", 1)[0]
    return [Ending(it[1], CODES.sub("", it[2])) for it in STATUS.finditer(text)]


OF_EXPLORE = [
    Ending("0", "the lines were read to their end, or `quit` was"),
    Ending("1", "explore can't begin or go on; standard error says why"),
    Ending("2", "the arguments are wrong"),
    Ending("3", "standard output was closed before all of it was written"),
    Ending("130", "Ctrl-C ended it"),
]
OF_ADAPTER = [
    Ending("0", "the editor ended it"),
    Ending("1", "it can't begin or go on; standard error says why"),
    Ending("2", "the arguments are wrong, or standard input is a terminal"),
    Ending("130", "Ctrl-C ended it"),
]
OF_DISASSEMBLE = [
    Ending("0", "end of input, or help or the release was asked for"),
    Ending("2", "the arguments are wrong"),
    Ending("3", "the input can't be read, or the output can't be written"),
    Ending("4", "out of memory"),
]


def programs() -> list[Program]:
    """The programs, in the order of what they build on."""
    of_pdp11 = text_of("tests/sessions/rules/program/help.expected")
    of_search = text_of("tests/sessions/rules/searches/help.expected")
    options = options_of_help(of_pdp11)
    endings = endings_of_language()
    lines_in = "Lines of a session come on standard input, each has its reply on standard output."
    described = re.split(r"\n\n|\n(?=\./)", main.DESCRIPTION)
    return [
        Program("nezdrab", "pdp11", heading(of_pdp11), [lines_in], options, endings),
        Program(
            "nezdrab-search",
            "search",
            heading(of_search),
            [f"{lines_in} Beside the lines of nezdrab(1) there are those that search its turns."],
            options_of_help(of_search),
            endings,
        ),
        Program(
            "nezdrab-explore",
            "explore",
            "a prompt over the session language of a PDP-11/40 whose past can be edited",
            [it.replace("./explore", "nezdrab-explore") for it in described],
            options_of_parser(main.new_parser(), options),
            OF_EXPLORE,
            takes_session=True,
        ),
        disassembler(),
        adapter(),
    ]


def disassembler() -> Program:
    text = text_of("tests/sessions/rules/program/disassemble.help")
    lines = text.split("\n\n", 3)[3].splitlines()
    parts = itertools.groupby(lines, lambda it: it.startswith(" "))
    return Program(
        "nezdrab-disassemble",
        "disassemble",
        heading(text),
        ["\n".join(part) for _, part in parts],
        options_of_help(text),
        OF_DISASSEMBLE,
        has_language=False,
    )


def adapter() -> Program:
    return Program(
        "nezdrab-dap",
        "",
        "what an editor starts to debug in a recorded run of a PDP-11/40",
        [server.DESCRIPTION, "`nezdrab-explore dap` is the same."],
        options_of_parser(server.new_parser(), []),
        OF_ADAPTER,
        has_language=False,
    )


def heading(text: str) -> str:
    """The first line of a help, as what a program is."""
    return text[0].lower() + text.split("\n", 1)[0][1:]
