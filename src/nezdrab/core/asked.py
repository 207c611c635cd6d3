"""What was asked of a machine: up to which turn, and how often it had to go back. A question about
a later turn goes on from the one before it; one about an earlier turn begins again at a state that
the program kept, which may be many turns before. So a search asks upwards, or by halving."""
from typing import Iterable, Optional

from . import sessions
from .language import is_decimal
from .values import dataclass

# Not `when F`. `fades` leaves the machine wherever it was found out.
ASKING = (sessions.STATE, sessions.SPAN, sessions.LAST)
NAMES = frozenset(it.form.split()[0] for it in sessions.TABLE if it.turns in ASKING)
OF_TURNS = frozenset(it.form.split()[0] for it in sessions.TABLE if it.turns == sessions.SPAN)
MOST_DIGITS = 10
LEAST_SPARSE_STRIDE, SPARSE_STATES = 50_000, 8
LEAST_STRIDE, KEPT_STATES = 64, 250  # the program keeps 256, and then doubles the stride


def turns_of_question(line: str) -> Optional[tuple[int, int]]:
    """The turns that the machine must be at before and after its reply, or None for another line.
    A trail begins at the first turn that it lists. Where a search ends its reply tells; `counts`
    runs to the end of its turns, and so does `latest` at first."""
    words = sessions.words_of(line)
    if len(words) < 2 or words[0] not in NAMES or not is_decimal(words[1]):
        return None
    turn = int(words[1][:MOST_DIGITS])
    if len(words) > 2 and is_decimal(words[2]):
        number = int(words[2][:MOST_DIGITS])
        if words[0] == "trail" and len(words) == 3:
            return max(0, turn - number), turn
        if words[0] in ("latest", "counts"):
            return turn, number
    return turn, turn


def last_turn_of(question: str) -> Optional[int]:
    """The last turn that a question is about, or None if it names none."""
    turns = turns_of_question(question)
    words = sessions.words_of(question)
    if turns is None:
        return None
    is_of_span = words[0] in OF_TURNS and len(words) > 2 and is_decimal(words[2])
    return int(words[2][:MOST_DIGITS]) if is_of_span else turns[1]


def stride_before(first: int, question: str) -> Optional[int]:
    """A stride with which a state is kept shortly before this turn, so that an edit from there on
    and a question replay little more than what lies between them. None if any stride has that."""
    asked = turns_of_question(question)
    least = max(LEAST_STRIDE, asked[1] // KEPT_STATES if asked else first)
    return first // (first // least) if first >= least else None


def sparse_stride(end: int) -> int:
    """A stride with few states between an edit and a question about turn `end`, for many edits
    whose runs soon meet the one before: each of these states is taken over."""
    return max(LEAST_SPARSE_STRIDE, end // SPARSE_STATES)


@dataclass
class Asked:
    """The turn of the last question, the greatest one, how many questions were about an earlier
    turn than the question before them, and how many there were. A program that was started again
    is at turn 0."""

    turn: int = 0
    greatest: int = 0
    went_back: int = 0
    questions: int = 0

    def reach(self, turn: int) -> None:
        """A search took the machine to this turn."""
        self.turn, self.greatest = turn, max(self.greatest, turn)

    def note(self, lines: Iterable[str]) -> None:
        """These lines were asked, and none was refused."""
        for line in lines:
            turns = turns_of_question(line)
            if turns is not None:
                first, last = turns
                self.questions += 1
                self.went_back += first < self.turn
                self.turn = last
                self.greatest = max(self.greatest, last)
