"""The forms of the session language, and which word of a refused line is the wrong one."""
import re
from typing import Optional

from . import sessions
from .past import LINE_DEVICES, PATCHES
from .program import CONTROL
from .sessions import words_of
from .values import dataclass
from .visible import visible

OCTAL, DECIMAL = frozenset("01234567"), frozenset("0123456789")
LONGEST_LINE, MOST_DIGITS = sessions.LONGEST_LINE, 10


def comma_fault(words: str) -> str:
    """What is wrong with the first number that is written with commas, if there is one."""
    match = re.search(r"(?<!\S)[0-9]{1,3}(,[0-9]{3})+(?![^\s:])", words)
    return f"{match[0]} is written {match[0].replace(',', '')}, without commas" if match else ""


@dataclass(frozen=True)
class Number:
    """A number of the language."""

    title: str
    digits: frozenset[str]
    largest: Optional[int] = None

    def fault(self, letter: str, word: str) -> Optional[str]:
        base = "octal" if self.digits == OCTAL else "decimal"
        wrong = sorted(set(word) - self.digits)
        if comma_fault(word):
            return f"{letter}, {self.title}: {comma_fault(word)}"
        if wrong:
            return f"{letter}, {self.title}, is {base}, and '{word}' has '{wrong[0]}'"
        if len(word) > MOST_DIGITS:
            return f"{letter}, {self.title}, has {len(word)} digits, more than {MOST_DIGITS}"
        if self.largest is not None and int(word, 8) > self.largest:
            return f"{letter}, {self.title}, is {word}, more than {self.largest:o}"
        return None


# By the kind of an argument in the table of lines.
NUMBERS = {
    "address": Number("an address of core", OCTAL),
    "place": Number("the number of a word of a drive", OCTAL),
    "drive": Number("a drive", OCTAL),
    "word": Number("a word", OCTAL, 0o177777),
    "byte": Number("a byte", OCTAL, 0o377),
    "turn": Number("a turn", DECIMAL),
    "turns": Number("a count of turns", DECIMAL),
    "count": Number("a count", DECIMAL),
    "number": Number("the number of an event", DECIMAL),
}


def word_of(line: sessions.Line) -> str:
    return line.form.split()[0]


def rest_of(line: sessions.Line) -> str:
    """The form of a line without its first word."""
    return line.form.partition(" ")[2].replace("B B ..", "B ..").replace("EVENT", "event")


# The lines of the language by their first words; those of version 2 come last and stand apart.
SINCE_VERSION_2 = [it.form for it in sessions.LANGUAGE].index("version 2")
LINES = {word_of(it): it for it in sessions.LANGUAGE[: SINCE_VERSION_2 + 1]}
LINES_OF_EIGHT_DRIVES = {word_of(it): it for it in sessions.LANGUAGE[SINCE_VERSION_2 + 1 :]}
FORMS = {word: rest_of(it) for word, it in LINES.items()}
SUMMARIES = {word: it.summary for word, it in LINES.items()}
# Lines of searches without a turn, such as `setup`.
FINDING = [it for it in sessions.SEARCHES if it.kind != sessions.STEP]
STEPS = frozenset(word_of(it) for it in sessions.SEARCHES) - {word_of(it) for it in FINDING}
LISTS = {it.form: it.summary for it in FINDING if " " not in it.form}
SEARCHES = frozenset(word_of(it) for it in FINDING) - LISTS.keys()
OF_LANGUAGE = frozenset((*FORMS, *SEARCHES, *LISTS))  # the words that its lines begin with
EDITS = frozenset(it.decode() for it in sessions.EDITS)
FADING = (*PATCHES, "at", "alter", "drop")  # the edits that the line `fades` takes
EVENTS, MEANINGS = sessions.EVENTS, sessions.REFUSALS_OF_SEARCH
KINDS_OF_EVENTS = {"B": "byte", "W": "word"}


def is_edit(line: str) -> bool:
    return sessions.first_word(line) in EDITS


def is_decimal(word: str) -> bool:
    return word != "" and DECIMAL.issuperset(word)


def line_of(word: str, version: int) -> sessions.Line:
    """The line of the session language that begins with this word."""
    own: dict[str, sessions.Line] = LINES_OF_EIGHT_DRIVES if version == 2 else {}
    return own.get(word, LINES[word])


def form_of(word: str, version: int) -> str:
    """The form of a line that begins with this word, such as `core A W`."""
    return f"{word} {rest_of(line_of(word, version))}".rstrip()


def kinds_of(line: sessions.Line) -> list[str]:
    """The words of a line's form, with the kind of each argument in its place, in capitals."""
    kinds = iter(line.arguments.upper().split())
    return [next(kinds) if it.isupper() else it for it in line.form.split()]


def fault_of_event(words: list[str]) -> Optional[str]:
    if not words:
        return "the event is missing"
    if words[0] not in EVENTS:
        known = ", ".join(f"{name} {EVENTS[name]}".rstrip() for name in EVENTS)
        return f"there is no event '{words[0]}'; events are {known}"
    letters = EVENTS[words[0]].split()
    return fault_of_words(letters, [KINDS_OF_EVENTS[it] for it in letters], words[1:])


def fault_of_words(letters: list[str], kinds: list[str], words: list[str]) -> Optional[str]:
    """What is wrong with the words in the places of these letters, which are of these kinds."""
    for at, (letter, kind) in enumerate(zip(letters, kinds)):
        if kind == "event":
            return fault_of_event(words[at:])
        if letters[-1] == "..":
            found = (NUMBERS[kind].fault(letter, it) for it in words)
            return next((it for it in found if it), None)
        if at >= len(words):
            return f"{letter} is missing"
        wrong = fault_of_word(letter, kind, words[at])
        if wrong:
            return wrong
    extra = words[len(letters) :]
    return f"'{extra[0]}' is too much" if extra else None


def fault_of_word(letter: str, kind: str, word: str) -> Optional[str]:
    if kind == "device":
        known = ", ".join(sorted(LINE_DEVICES))
        return None if word in LINE_DEVICES else f"there is no device '{word}'; L is {known}"
    if kind == "2":
        return None if word == "2" else f"'{word}' is no version that a line leads to"
    return NUMBERS[kind].fault(letter, word)


def forms_of_searches(word: str) -> list[str]:
    """The lines of searches that begin with this word."""
    return [it.form for it in sessions.SEARCHES if it.form.split()[0] == word]


def explanation(line: str, reply: str, version: int) -> str:
    """Why this line got this refusal."""
    number, control = reply.split()[1], CONTROL.search(line)
    if number != "10":
        return MEANINGS.get(number, "")
    if control:
        return f"the line has a control character, {visible(control[0])}"
    word, *words = words_of(line)
    if word == "fades":
        return f"the form is: fades N EDIT, and EDIT is a line of {', '.join(FADING)}"
    if word in LISTS:
        return f"the form is: {word}"
    if word in SEARCHES and (word not in FORMS or len(words) > 1):
        more = f"; a CONDITION is {sessions.CONDITIONS_HERE}" if "where" in words else ""
        return f"the forms are: {'; '.join(forms_of_searches(word))}{more}"
    if word not in FORMS:
        return f"there is no line '{word}'; help lists the topics"
    its = line_of(word, version)
    letters, kinds = its.form.split()[1:], [it.lower() for it in kinds_of(its)[1:]]
    wrong = fault_of_words(letters, kinds, words) or "it has another form"
    if word in LINES_OF_EIGHT_DRIVES:
        drives = "one drive" if version == 1 else "eight drives"
        wrong += f" (version {version} has {drives})"
    return f"{form_of(word, version)}: {wrong}"
