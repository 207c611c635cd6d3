"""A FILE and a TEXT in a line: each is one word, and what has spaces stands in quotes, as in a
shell."""
import re
import shlex

from ..core.errors import ExploreError

# The parts of a word. Blanks are space and tab, as in the session language.
PLAIN = r"[^\x20\t\"'\\]*"
QUOTED = r"""(?:"[^"\\]*(?:\\.[^"\\]*)*"|'[^']*'|\\.)"""
WORD = rf"(?=[^\x20\t]){PLAIN}(?:{QUOTED}{PLAIN})*"
LONGEST_FILE = 8_192  # with quotes; a path has half of that at most
RULE = "a FILE or a TEXT with spaces stands in quotes, 'single' or \"double\""


def quote_fault(line: str) -> str:
    """What is wrong with the quotes of a line, if anything is."""
    rest = re.sub(rf"\A(?:[ \t]+|{WORD})*", "", line)
    if rest[:1] == "\\":
        return "nothing follows the \\ at the end"
    return f"the quote {rest[0]} isn't closed" if rest else ""


def file_of(word: str) -> str:
    """The path that a word names, as a shell has it."""
    if len(word) > LONGEST_FILE:
        raise ExploreError(f"a FILE of {len(word)} characters is longer than any path")
    words = shlex.shlex(word, posix=True)
    words.whitespace, words.whitespace_split, words.commenters = " \t", True, ""
    path = "".join(words)
    if not path:
        raise ExploreError("a FILE has no name")
    return path


def files_of(line: str) -> list[str]:
    """The paths that the words of a line name."""
    return [file_of(it) for it in re.findall(WORD, line)]


def text_of(word: str) -> str:
    """What a word has inside its quotes. A backslash stays: the TEXT says what it is."""
    return re.sub(QUOTED, lambda it: it[0] if it[0][0] == "\\" else it[0][1:-1], word)


def begun_word(line: str) -> str:
    """The end of a line that is inside a quote that isn't closed yet, from the quote on."""
    return re.sub(rf"\A(?:[ \t]+|{WORD}(?=[ \t]))*", "", line)


def is_plain(path: str) -> bool:
    """Whether a path needs no quotes."""
    return re.fullmatch(PLAIN, path) is not None


def in_quotes(path: str, quote: str) -> str:
    """A path as it is typed. That of a folder may go on, so its quote isn't closed."""
    return f"{quote}{path}{'' if path.endswith('/') else quote}"
