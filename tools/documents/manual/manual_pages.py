"""A program's manual page in the macros man(7)."""
import re
import textwrap
from typing import Iterable, Iterator, Sequence

from nezdrab.core.programs import release
from nezdrab.shell.command_table import COMMANDS
from nezdrab.shell.prompt import NUMBERS, OWN_HELP
from tests import stored_sessions as sessions

from .tables import Option, Program

WIDTH = 78
PROMPT_RULES = "At the prompt `help` lists these, and `help WORD` has more of each."
EVENT_RULE = "EVENT is {}."
LETTERS = "A, D, I, W and B are octal; N, T, C and E are decimal."
SEARCH_LETTERS = (
    "A, B, D, I, J, K, V and W are octal; C, F, M and N are decimal. With N and M the turns from N "
    "on and before M are searched; F is a byte, counted from 0; MODE is kernel or user. A "
    f"CONDITION is {sessions.CONDITIONS}."
)
REFUSED = (
    "A line that can't be taken has the reply `refused`, with a number and a name. The number 10 "
    "is of a line that has no form of the language. The others are:"
)
MARKED = re.compile(r"`([^`]*)`")


def escaped(text: str) -> str:
    """A text as roff shows it: with its own backslashes, hyphens, quotes and carets."""
    for mark, shown in ("\\", "\\e"), ("-", "\\-"), ("'", "\\(aq"), ("^", "\\(ha"), ("~", "\\(ti"):
        text = text.replace(mark, shown)
    return text


def prose(text: str) -> Iterator[str]:
    """A paragraph; what stands in backquotes is bold. No line begins with a dot, which would be a
    macro, since a line of input is no more than a place to break."""
    marked = MARKED.sub(r"\\fB\1\\fR", escaped(text))
    for line in textwrap.wrap(marked, WIDTH, break_long_words=False, break_on_hyphens=False):
        yield f"\\&{line}" if line.startswith(".") else line


def section(head: str) -> str:
    return f".SH {head}" if " " not in head else f'.SH "{head}"'


def item(term: str, text: str) -> Iterator[str]:
    """A term, bold, with what it means."""
    yield ".TP"
    yield bold(term)
    yield from prose(text)


def form_of(option: Option) -> str:
    value = f" {option.value}" if option.value else ""
    value = value if option.is_value_needed or not value else f" [{option.value}]"
    return (f"{option.short}, " if option.short else "") + option.name + value


def items(rows: Iterable[tuple[str, str]]) -> Iterator[str]:
    for term, text in rows:
        yield from item(term, text)


def event_forms() -> str:
    *first, last = [f"{name} {letter}".rstrip() for name, letter in sessions.EVENTS.items()]
    return EVENT_RULE.format(f"{', '.join(first)} or {last}")


def lines_of_session() -> Iterator[str]:
    yield section("LINES OF A SESSION")
    yield from prose(LETTERS)
    yield from items((it.form, it.summary) for it in sessions.LANGUAGE)
    yield ".PP"
    yield from prose(event_forms())


def lines_of_searches() -> Iterator[str]:
    yield section("LINES OF SEARCHES")
    yield from prose(SEARCH_LETTERS)
    yield from items((it.form, it.summary) for it in sessions.SEARCHES)


def refusals(of: dict[str, str]) -> Iterator[str]:
    yield section("REFUSALS")
    yield from prose(REFUSED)
    yield from items(of.items())


def commands() -> Iterator[str]:
    yield section("COMMANDS")
    yield from prose(PROMPT_RULES)
    yield from prose(NUMBERS)
    own = [*((it.form, it.summary) for it in COMMANDS.values()), *OWN_HELP.values()]
    for form, summary in sorted(own):
        first, *further = form.split("  or  ")
        head = [".TP", bold(first), *(line for it in further for line in (".TQ", bold(it)))]
        yield from [*head, *prose(summary)]


def bold(term: str) -> str:
    return f"\\fB{escaped(term)}\\fR"


def title(program: Program) -> Iterator[str]:
    """The head of a page, its name and how the program is called."""
    day = release()
    yield f'.TH {escaped(program.name.upper())} 1 {day} "Nezdrab {day}" "Nezdrab"'
    yield ".nh"
    yield from (section("NAME"), f"{escaped(program.name)} \\- {escaped(program.brief)}")
    yield section("SYNOPSIS")
    session = " [\\fISESSION\\fR]" if program.takes_session else ""
    yield f"{bold(program.name)} [\\fIOPTIONS\\fR]{session}"


def body(program: Program) -> Iterator[str]:
    """What a page says of its program."""
    yield section("DESCRIPTION")
    for number, paragraph in enumerate(program.paragraphs):
        yield from [".PP"] if number else []
        if paragraph.startswith(" "):
            yield from (".nf", f"\\&{escaped(paragraph)}", ".fi")
        else:
            yield from prose(" ".join(paragraph.split()))
    yield section("OPTIONS")
    yield from items((form_of(it), it.summary) for it in program.options)
    yield from commands() if program.takes_session else ()
    if program.has_language:
        yield from lines_of_session()
        if program.here == "pdp11":
            yield from refusals(sessions.REFUSALS)
        else:
            yield from lines_of_searches()
            yield from refusals(sessions.REFUSALS_OF_SEARCH)
    yield section("EXIT STATUS")
    yield from items((it.status, it.when) for it in program.endings)


def page(program: Program, others: Sequence[Program]) -> str:
    """The manual page of a program, which names the others."""
    names = [f"{bold(it.name)}(1)" for it in others if it != program]
    see = [section("SEE ALSO"), ", ".join(names)]
    return "".join(f"{line}\n" for line in [*title(program), *body(program), *see])
