"""What Tab makes of the beginning of a word: commands, symbols and paths."""
import os
from typing import Iterable

from ..analysis.command import Command
from ..analysis.explorer import Explorer
from ..analysis.quotes import begun_word, in_quotes, is_plain
from ..core import sessions
from ..core.replies import Mode
from ..core.symbols import AN_ADDRESS, MODES, forms_of
from .command_table import COMMANDS, HELP, WORDS
from .mapped import MAPPED_WORDS
from .topics import LINES, TOPICS

# A word that may be an address or a file, and what may follow it in a line.
PROBE = "PROBE"
FURTHER = ("", " 1", " = 1", " at 1", " CLC")
BEFORE_CONDITION = ("where", "if")


def completions(explorer: Explorer, before: str, text: str) -> list[str]:
    """What a word may go on to, after what is before it in the line."""
    words = line_begun(sessions.words_of(before))
    if words == ["undefine"]:
        return [it for it in sorted(explorer.definitions.lines) if it.startswith(text)]
    if not words or words in ([HELP[0]], [HELP[1]]):
        return words_from(explorer, text, is_help=bool(words))
    found = symbols_from(explorer, words, text) if takes_address(explorer, words) else []
    return found if found and not takes_file(words) else [*found, *typed_paths(before, text)]


def line_begun(words: list[str]) -> list[str]:
    """The words of a line, or of the LINE in a line of `display` or `define`."""
    if words[:1] == ["display"]:
        return words[1:]
    return words[2:] if words[:1] == ["define"] and len(words) > 1 else words


def words_from(explorer: Explorer, text: str, is_help: bool = False) -> list[str]:
    """The commands and lines that begin so, for help the topics too. After the only one comes a
    space."""
    there = {*WORDS, *explorer.definitions.lines} - {HELP[1]}
    topics = {*TOPICS, *LINES} if is_help else set()
    found = [it for it in there | topics if it.startswith(text)]
    return sorted(found) if len(found) > 1 else [f"{it} " for it in found]


# Symbols, where a line takes an address


def takes(words: list[str], parts: Iterable[str]) -> bool:
    """Whether the next word of a command of explore may be one of these parts of it."""
    found = COMMANDS.get(words[0].rstrip("!"))
    if found is None:
        return False
    begin = " ".join([*words[1:], PROBE])
    return any(is_part(found, f"{begin}{it}", parts) for it in FURTHER)


def is_part(command: Command, words: str, parts: Iterable[str]) -> bool:
    match = command.pattern.fullmatch(words)
    return match is not None and any(match[it] == PROBE for it in parts)


def takes_file(words: list[str]) -> bool:
    found = COMMANDS.get(words[0].rstrip("!"))
    return found is not None and takes(words, found.parts_of("file"))


def takes_address(explorer: Explorer, words: list[str]) -> bool:
    """Whether an address may come next, in a line of explore or of the language. Behind a defined
    word anything may."""
    if words[0] in explorer.definitions.lines:
        return True
    found = COMMANDS.get(words[0])
    if found is not None and takes(words, found.parts_of("address")):
        return True
    if words[-1] in sessions.BEFORE_ADDRESS and any(it in words for it in BEFORE_CONDITION):
        return True
    if words[0] in MAPPED_WORDS and words[-1] in MODES:
        return True
    forms = forms_of(words[0], explorer.machine.setup.version)
    return any(is_next(form, words) for form in forms)


def is_next(form: list[str], words: list[str]) -> bool:
    """Whether an address comes next in this form of a line."""
    pairs = list(zip(form, words))
    fits = all(it.isupper() or it == word for it, word in pairs)
    return fits and len(form) > len(words) and form[len(words)] == AN_ADDRESS


def symbols_from(explorer: Explorer, words: list[str], text: str) -> list[str]:
    """The symbols that begin so; if the line names a mode, those of that mode."""
    modes = [it for it in explorer.symbols.numbers if it.value in words] or [*Mode]
    numbers = explorer.symbols.numbers
    names = {name for it in modes for name in numbers.get(it, {})}
    found = [it for it in names if it.startswith(text)]
    return sorted(found or [it for it in names if it.upper().startswith(text.upper())])


# Paths


def typed_paths(before: str, text: str) -> list[str]:
    """The paths that a word may go on to, after what is before it, as they are typed."""
    begun = begun_word(before)
    typed = begun + text
    quote = typed[:1] if typed[:1] in ("'", '"') else ""
    paths = paths_from(typed[len(quote) :])
    if not quote and not all(map(is_plain, paths)):
        quote = "'" if any('"' in it or "\\" in it for it in paths) else '"'
    return [in_quotes(it, quote)[len(begun) :] for it in paths]


def paths_from(text: str) -> list[str]:
    """The files and folders whose path begins so, and has nothing that a terminal doesn't show."""
    folder, name = os.path.split(text)
    try:
        with os.scandir(folder or ".") as entries:
            found = [(it.name, it.is_dir()) for it in entries if it.name.startswith(name)]
    except OSError:
        return []
    is_shown = [
        (it, is_folder)
        for it, is_folder in found
        if it.isprintable() and (name or not it.startswith("."))
    ]
    return sorted(os.path.join(folder, it) + "/" * is_folder for it, is_folder in is_shown)
