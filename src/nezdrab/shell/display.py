"""Lines that are shown at each new current turn, `display`, `undisplay`; and words that stand for
lines, `define`, `undefine`, `defines`."""
import re
from typing import Iterator

from ..analysis.command import Arguments, command
from ..analysis.explorer import PLACE, TURN, Explorer
from ..core import sessions
from ..core.errors import ExploreError, LineRefused
from ..core.language import OF_LANGUAGE, is_edit
from .command_table import COMMANDS, WORDS
from .topics import only_shows

NONE_SET = "no line is displayed: display LINE adds one"


def check_only_shows(line: str) -> None:
    """An error if a line isn't one that only shows or finds something."""
    word = sessions.first_word(line)
    is_known = word in COMMANDS or word in OF_LANGUAGE
    is_shown = word not in COMMANDS or only_shows(word)
    if not is_known or is_edit(line) or not is_shown:
        raise ExploreError(f"'{word}' can't be displayed: a LINE shows or finds something")


def lines_at(explorer: Explorer, line: str) -> Iterator[str]:
    """What a line shows. The current turn stays."""
    turn = explorer.turn
    try:
        named = re.sub(PLACE, lambda it: str(turn) if it[1] == TURN else it[0], line)
        yield from explorer.interpreter.lines(named)
    finally:
        explorer.turn = turn


def display_lines(explorer: Explorer, number: int, line: str) -> Iterator[str]:
    """A line that is displayed and what it shows, or why it can't be done now."""
    yield f"display {number}: {line}"
    try:
        yield from lines_at(explorer, line)
    except LineRefused:
        pass
    except (ExploreError, OSError) as error:
        yield f"  {error}"


def displays_after_move(explorer: Explorer) -> Iterator[str]:
    """All that is displayed, if the current turn is a new one."""
    displays = explorer.displays
    if explorer.turn != displays.turn:
        displays.turn = explorer.turn
        for number, line in list(displays.lines.items()):
            yield from display_lines(explorer, number, line)


@command("display [LINE]", r"(?P<line>.+)?", "shows LINE at each new current turn")
def display(explorer: Explorer, arguments: Arguments) -> Iterator[str]:
    """Shows what LINE shows, now and after each line that makes another turn the current one, as
    `step` and `until` do. LINE is one that shows or finds something; in it $turn stands for the
    current turn, as in `display last $turn 1000`. Lines such as `list` and `dump` take it without
    that. The current turn stays as it is. `display` alone shows all, `undisplay N` ends one."""
    displays, line = explorer.displays, arguments.text("line")
    displays.turn = explorer.turn
    if not line:
        for number, text in displays.lines.items():
            yield from display_lines(explorer, number, text)
        yield from [] if displays.lines else [NONE_SET]
        return
    line = explorer.definitions.expanded(line, f"${TURN}")
    check_only_shows(line)
    yield from lines_at(explorer, line)
    displays.count += 1
    displays.lines[displays.count] = line
    yield f"display {displays.count} from now on: {line}"


@command("undisplay [N]", r"<number:decimal>?", "ends display N, or all of them")
def undisplay(explorer: Explorer, arguments: Arguments) -> Iterator[str]:
    """Ends the display with number N, or without N all of them."""
    lines = explorer.displays.lines
    numbers = [arguments.decimal("number")] if arguments.optional("number") else list(lines)
    for number in numbers:
        if number not in lines:
            raise ExploreError(f"there is no display {number}; display shows all")
        yield f"display {number} is gone: {lines.pop(number)}"
    if not numbers:
        yield NONE_SET


NAME = r"[A-Za-z][A-Za-z0-9_.-]{0,63}"


def definition_line(name: str, line: str) -> str:
    return f"define {name} {line}"


@command("define NAME LINE", r"(?P<name>\S+) (?P<line>.+)", "NAME stands for LINE from now on")
def define(explorer: Explorer, arguments: Arguments) -> Iterator[str]:
    """Makes NAME a word that does LINE. In LINE $1 to $9 stand for the words after NAME, with
    their quotes, $* for all of them, and $turn for the current turn: after `define who last $turn
    $1` the line `who 1000` is `last N 1000`. LINE may begin with a defined word. A word that begins
    lines already isn't taken; `undefine NAME` takes a word away, `defines` lists all. They stay
    until explore ends: a file of them is read by `do FILE`. `undo` takes back a line as it was
    typed."""
    name, line = arguments.text("name"), arguments.text("line")
    if re.fullmatch(NAME, name) is None:
        raise ExploreError(f"'{name}' is no NAME: a letter, then letters, digits, _ . -, up to 64")
    if name in WORDS:
        raise ExploreError(f"{name} is a command already; help {name} says what it does")
    if line.startswith("#"):
        raise ExploreError("LINE is a comment")
    explorer.definitions.lines[name] = line
    yield definition_line(name, line)


@command("undefine NAME", r"(?P<name>\S+)", "takes away a word that was defined")
def undefine(explorer: Explorer, arguments: Arguments) -> Iterator[str]:
    """Takes away the word NAME. Lines that lead to it are then no lines."""
    name, lines = arguments.text("name"), explorer.definitions.lines
    if name not in lines:
        raise ExploreError(f"{name} isn't defined; defines lists the words that are")
    yield f"no more: {definition_line(name, lines.pop(name))}"


@command("defines", r"", "lists the words that are defined")
def defines(explorer: Explorer, arguments: Arguments) -> Iterator[str]:
    """Lists the words that are defined, as lines that define them."""
    lines = explorer.definitions.lines
    for name in sorted(lines):
        yield definition_line(name, lines[name])
    if not lines:
        yield "no word is defined: define NAME LINE defines one"
