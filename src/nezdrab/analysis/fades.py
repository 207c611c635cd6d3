"""Where edits end to matter: from which turn on the run after them is the one before them again."""
from typing import Optional, Sequence

from ..core.engine import Machine, is_refused
from ..core.errors import ExploreError
from ..core.interrupts import INTERRUPTS
from ..core.language import FADING, MOST_DIGITS, is_decimal
from ..core.past import PATCHES
from ..core.sessions import words_of
from ..core.values import dataclass

MOST_TURNS = 20_000_000  # that edits are asked about from one question to the next
LEAST_TURNS = 10_000  # that one edit counts for: to ask about it takes up to a stride


def turns_to_ask(line: str, machine: Machine) -> Optional[range]:
    """The turns from the first that an edit can change to the last in which the scripts differ, or
    None if the line `fades` can't be asked about the edit. A patch counts from turn 0: the turn in
    which the run first touches the word isn't known here."""
    word, *words = words_of(line) or [""]
    if word not in FADING:
        return None
    if word in PATCHES:
        return range(1)
    numbers = [int(it) for it in words[:2] if is_decimal(it) and len(it) <= MOST_DIGITS]
    if word != "at" and numbers:
        event = machine.event(numbers[0])
        numbers = [event.turn, *numbers[1:]] if event else []
    turns = numbers[:1] if word == "at" else numbers
    return range(min(turns), max(turns) + 1) if turns else None


@dataclass(frozen=True)
class Fade:
    """What the program says of an edit: the turn from which on the run is the old one again, or
    None if there is no such turn up to `end`."""

    turn: Optional[int]
    end: int


def fade_of(machine: Machine, line: str, end: int) -> Optional[Fade]:
    """Asks about an edit that isn't made. None if the program doesn't say: it refuses the edit, or
    is an older one, without the line `fades`."""
    words = machine.ask(" ".join(["fades", str(end), *words_of(line)])).split()
    if len(words) != 2 or words[0] != "fades":
        return None
    if is_decimal(words[1]):
        return Fade(int(words[1]), end)
    return Fade(None, end) if words[1] == "none" else None


@dataclass
class Together:
    """The edits since the last question, and what is known of them together. If each of them fades,
    the run after them all is the one before them all from the last of these turns on. If one
    doesn't fade up to a turn, and all others do by then, they don't together."""

    questions: int  # that were answered before these edits
    journal: int  # how many edits the machine had after the last of these
    left: int  # how many turns may still be asked about
    count: int = 0
    again: int = 0  # the last turn in which one of them fades
    unlike: Optional[Fade] = None  # what was said of the one that doesn't fade
    is_known: bool = True

    def add(self, fade: Optional[Fade]) -> None:
        self.count += 1
        if fade is None:
            self.is_known = False
        elif fade.turn is None:
            self.is_known = self.unlike is None  # two that don't fade may together
            self.unlike = self.unlike or fade
        else:
            self.again = max(self.again, fade.turn)

    def said(self, asked: int) -> list[str]:
        """What is true of them, in a line, or nothing. The last question was about turn `asked`."""
        these = "" if self.count == 1 else f"with these {self.count} edits "
        if not self.is_known:
            return []
        if self.unlike is None:
            return [f"{these}the old run again from turn {self.again} on"]
        if self.again > self.unlike.end:
            return []
        further = "" if self.unlike.end == asked else "; no further turn was looked at"
        return [f"{these}not the old run again before turn {self.unlike.end}{further}"]


class Fading:
    """Makes edits, and asks about each before, as far as the machine has run already."""

    def __init__(self, most: int = MOST_TURNS) -> None:
        self.most = most
        self.together = Together(-1, 0, most)

    def make(self, machine: Machine, lines: Sequence[str]) -> list[str]:
        """The replies to edits, none of which moves an event that another one names."""
        turns = [turns_to_ask(it, machine) for it in lines]  # of events as they are before
        return [self._make(machine, *it) for it in zip(lines, turns)]

    def said(self, machine: Machine) -> list[str]:
        return self.together.said(machine.asked.turn)

    def _make(self, machine: Machine, line: str, turns: Optional[range]) -> str:
        if machine.asked.questions != self.together.questions:
            self.together = Together(machine.asked.questions, len(machine.journal), self.most)
        if len(machine.journal) != self.together.journal:
            self.together.is_known = False  # others were made, or taken back
        fade = self._fade(machine, line, turns) if self.together.is_known else None
        reply = machine.ask(line)
        if not is_refused(reply):
            self.together.add(fade)
            self.together.journal = len(machine.journal)
        return reply

    def _fade(self, machine: Machine, line: str, turns: Optional[range]) -> Optional[Fade]:
        """What the program says of an edit, if the run is known beyond its turns. Ctrl-C ends the
        question, and the edit is made."""
        if turns is None:
            return None
        end = min(machine.asked.turn, turns.start + self.together.left)
        if turns.stop > end:
            return None
        try:
            fade = fade_of(machine, line, end)
        except ExploreError:
            return None
        except KeyboardInterrupt:
            INTERRUPTS.again()
            return None
        if fade is not None:
            looked_at = (end if fade.turn is None else fade.turn) - turns.start
            self.together.left -= max(LEAST_TURNS, looked_at)
        return fade
