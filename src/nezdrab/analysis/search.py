"""The turn in which something happens: `until`, `next`, `first`, `where`."""
from typing import Iterator, Optional

from ..core.engine import LAST_TURN
from ..core.errors import ExploreError
from ..core.hardware import LARGEST_WORD
from ..core.in_words import span
from ..core.replies import LastWrite
from .command import Arguments, command, range_ahead, searched_range
from .disk_words import DiskWord, change_lines, functions_in_words, last_change
from .explorer import Explorer
from .listing import turn_in_words
from .script import typed_bytes


def word_of(arguments: Arguments, name: str) -> int:
    return checked_word(arguments.octal(name))


def checked_word(word: int) -> int:
    if word > LARGEST_WORD:
        raise ExploreError(f"{word:o} is more than a word has, {LARGEST_WORD:o}")
    return word


def not_found(turns: range, line: str, what: str = "not") -> str:
    """That it isn't in these turns, and how a search of the turns after them is typed."""
    on = "the run ends there" if turns.stop == LAST_TURN else f"on: {line} from {turns.stop}"
    return f"{what} in {span(turns)}; {on}"


def turn_of(explorer: Explorer, arguments: Arguments, turns: range) -> Optional[int]:
    """The first turn that has what `until` looks for."""
    return explorer.finder.first(turns, sought_in_words(arguments))


def sought_in_words(arguments: Arguments) -> str:
    """What `until` looks for, in the words of the line `first`."""
    if arguments.optional("address"):
        return f"at {word_of(arguments, 'address'):o}"
    if arguments.optional("vector"):
        return f"vector {word_of(arguments, 'vector'):o}"
    if arguments.optional("mode"):
        return f"where {arguments.text('mode')}"
    name, relation = arguments.text("register").upper(), arguments.text("relation")
    return f"where {name} {relation} {word_of(arguments, 'word'):o}"


UNTIL = ("PC X", "vector V", "mode user|kernel", "R = W", "text STRING")


@command(
    "  or  ".join(f"until {it} [from N] [to M]" for it in UNTIL),
    r"(?P<what>(PC|pc) <address:address>|vector <vector:octal>|mode (?P<mode>user|kernel)"
    r"|(?P<register>[Rr][0-5]|[KUku][Ss][Pp]|[Pp][Ss])( )?(?P<relation>=|!=|<|>)( )?<word:octal>"
    r"|text <text:text>){from}{to}",
    "the first turn that runs the instruction at X, or has what is named",
)
def until(explorer: Explorer, arguments: Arguments) -> Iterator[str]:
    """Finds the first of the turns N to M that runs an instruction with PC X, an address as
    the program has it; that is an interrupt by vector V; that begins in user or kernel mode; before
    which R, one of R0 to R5, KSP, USP and PS, is W (or !=, <, > W); or that prints the last byte of
    STRING, which is written as in `type`. Without `from` N is the turn after the current one, or 0
    at turn 0. Without `to` M is a million turns past the greatest turn that was asked so far. It is
    exact, and quick. The turn is then the current turn: `show`, `step`, `see`, `list` and the next
    `until` go on there. `first N M where CONDITION` takes more conditions at once."""
    turns, what = range_ahead(explorer, arguments), arguments.text("what")
    if arguments.optional("text") is not None:
        yield until_text(explorer, arguments.text("text"), what, turns)
        return
    found = turn_of(explorer, arguments, turns)
    if found is None:
        yield not_found(turns, f"until {what}")
    else:
        text = turn_in_words(explorer, found)
        explorer.turn = found
        yield f"turn {found}: {text}"


def until_text(explorer: Explorer, text: str, what: str, turns: range) -> str:
    string = bytes(typed_bytes(text))
    if not string:
        raise ExploreError("STRING has no byte")
    found = explorer.finder.end_of_text(turns, string)
    if found is None:
        return not_found(turns, f"until {what}")
    explorer.turn, length = found
    return f"turn {explorer.turn}: byte {length} of the text is printed, the last of {text}"


def write_in_words(explorer: Explorer, write: LastWrite) -> str:
    """A write in one line: the turn, which is the current one then, who wrote, the word, and the
    instruction or the function."""
    by = writer_in_words(explorer, write)
    explorer.turn = write.turn
    return f"turn {write.turn}: {write.writer} {write.word:06o}, by {by}"


def change_found(explorer: Explorer, word: DiskWord, turn: int) -> Iterator[str]:
    """A change of a word of a drive. Its turn is the current one then."""
    lines = list(change_lines(explorer, word, turn))
    explorer.turn = turn
    yield from lines


def writer_in_words(explorer: Explorer, write: LastWrite) -> str:
    """The instruction that wrote, or the function of the disk."""
    if write.writer == "cpu":
        return turn_in_words(explorer, write.turn)
    return functions_in_words(explorer, [write.turn], {})[write.turn]


WORD_OF_DISK = r"((?P<drive>[0-7]) )?"


def disk_word_of(explorer: Explorer, arguments: Arguments) -> DiskWord:
    return DiskWord(explorer.machine, arguments.octal("drive"), arguments.octal("index"))


@command(
    "next A [from N] [to M]  or  next disk [D] I [from N] [to M]",
    rf"((?P<kind>disk) {WORD_OF_DISK}<index:octal>|<address:address>){{from}}{{to}}",
    "the next write to a core word, or change of a disk word",
)
def next_command(explorer: Explorer, arguments: Arguments) -> Iterator[str]:
    """Finds the first of the turns N to M that writes the core word at A, and who wrote it,
    also if the word stays the same; or that changes word I of a drive. Without `from` N is the turn
    after the current one, or 0 at turn 0. Without `to` M is a million turns past the greatest turn
    that was asked so far. It is exact. An image and a patch are no writes."""
    turns, address = range_ahead(explorer, arguments), arguments.octal("address")
    if arguments.optional("kind"):
        yield from next_on_disk(explorer, disk_word_of(explorer, arguments), turns)
        return
    found = explorer.finder.next_write(turns, address)
    if found is None:
        yield not_found(turns, f"next {address:o}", "no write")
    else:
        yield write_in_words(explorer, found)


def next_on_disk(explorer: Explorer, word: DiskWord, turns: range) -> Iterator[str]:
    found = next(word.changes(turns), None)
    if found is None:
        yield not_found(turns, f"next {word.in_a_line}", "no change")
    else:
        yield from change_found(explorer, word, found)


@command(
    "first core A = W [from N] [to M]  or  first disk [D] I = W [from N] [to M]",
    rf"(core <address:address>|(?P<kind>disk) {WORD_OF_DISK}<index:octal>)( )?=( )?<value:octal>"
    r"{from}{to}",
    "the first turn that makes a word W",
)
def first(explorer: Explorer, arguments: Arguments) -> Iterator[str]:
    """Finds the first of the turns N to M that makes the word W, if it isn't W before turn N.
    Without `from` N is 0. Without `to` M is a million turns past the greatest turn that was asked
    so far. It is exact."""
    value, turns = word_of(arguments, "value"), searched_range(explorer, arguments)
    machine, address = explorer.machine, arguments.octal("address")
    if arguments.optional("kind"):
        word = disk_word_of(explorer, arguments)
        yield from first_on_disk(explorer, word, value, turns)
        return
    if machine.word(turns.start, address) == value:
        yield f"core {address:06o} is {value:06o} before turn {turns.start} already"
        return
    found = explorer.finder.first_write_of(turns, address, value)
    if found is None:
        yield f"not in {span(turns)}"
    else:
        yield write_in_words(explorer, found)


def first_on_disk(
    explorer: Explorer, word: DiskWord, value: int, turns: range
) -> Iterator[str]:
    if word.value(turns.start) == value:
        yield f"{word.name} is {value:06o} before turn {turns.start} already"
        return
    found = next((it for it in word.changes(turns) if word.value(it + 1) == value), None)
    if found is None:
        yield f"not in {span(turns)}"
    else:
        yield from change_found(explorer, word, found)


@command(
    "where disk [D] I N",
    rf"disk {WORD_OF_DISK}<index:octal> <turn:decimal>",
    "the turn in which a disk word last got another value",
)
def where(explorer: Explorer, arguments: Arguments) -> Iterator[str]:
    """Finds the last change of a word of a drive before turn N: the turn, the disk's function
    that did it, the core word it came from, and the PC and mode that began it. A write of the
    same value is no change. It is exact."""
    turn = arguments.decimal("turn")
    word = disk_word_of(explorer, arguments)
    found = last_change(word, turn)
    if found is None:
        yield f"{word.name} has been {word.value(turn):06o} since power-up"
    else:
        yield from change_found(explorer, word, found)
