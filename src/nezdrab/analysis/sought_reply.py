"""A reply that somebody looks for: in `matters .. until REPLY` and `reduce : QUESTION = REPLY`."""
import re

from ..core import sessions
from ..core.asked import NAMES
from ..core.engine import Machine, is_refused
from ..core.errors import ExploreError
from ..core.language import explanation
from ..core.sessions import words_of
from ..core.symbols import Symbols
from .sweep import check_question, in_one_line

OF_TEXTS = ("text ", "punched ")
NUMBER = re.compile(r"0*([0-9]+)")
ANYTHING = ".."


def is_reply(sought: str, reply: str) -> bool:
    """Whether this is the reply that is sought, with or without its first word. `..` stands for
    anything. Except in texts, zeros before numbers count for nothing, and so do further blanks."""
    is_text = reply.startswith(OF_TEXTS)
    wanted = sought.strip(" \t") if is_text else " ".join(words_of(sought))
    pattern = ".*".join(pattern_of(it, is_text) for it in wanted.split(ANYTHING))
    shown = (reply, reply.partition(" ")[2])
    return any(re.fullmatch(pattern, it, re.DOTALL) for it in shown)


def pattern_of(part: str, is_text: bool) -> str:
    """What fits a part of a reply."""
    if is_text:
        return re.escape(part)
    words = ((it, NUMBER.fullmatch(it)) for it in part.split(" "))
    return " ".join(f"0*{number[1]}" if number else re.escape(it) for it, number in words)


def question_and_reply(machine: Machine, symbols: Symbols, text: str) -> tuple[str, str, str]:
    """The three parts of `QUESTION = REPLY` or `QUESTION != REPLY`; QUESTION alone has no others.
    A question may have such a sign of its own: the program takes what is before the one that ends
    it."""
    check_question(text)
    for found in re.finditer(r"[ \t](!?=)([ \t]|$)", text):
        question = symbols.line_in_octal(text[: found.start()], machine)
        if not machine.ask(question).startswith("refused 10 "):
            return question, found[1], text[found.end() :].strip(" \t")
    return symbols.line_in_octal(text, machine), "", ""


def reply_of_turn(machine: Machine, question: str) -> str:
    """The reply to a question that names its turn, in one line. An error if it names none, or if
    it is refused."""
    check_question(question)
    word = sessions.first_word(question)
    if word not in NAMES:
        known = ", ".join(sorted(NAMES))
        raise ExploreError(f"'{word}' is no question here, which names its turn: {known}")
    reply = machine.ask(question)
    if is_refused(reply):
        why = explanation(question, reply, machine.setup.version)
        raise ExploreError(f"{question}: {reply}: {why}")
    return in_one_line(reply)
