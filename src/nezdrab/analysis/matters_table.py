"""What `matters` shows."""
import os
import re
from typing import Iterable, Iterator, Mapping, Sequence

from ..core.engine import LAST_TURN
from ..core.in_words import counted
from ..core.moves import Tried, Way
from ..core.past import Event
from ..core.values import dataclass

# Of a value in the table, in characters.
LONGEST_VALUE, SHOWN_BEFORE, NEAR_DIFFERENCE = 24, 6, 24
LONGEST_REPLY = 160
FAR = LAST_TURN + 1
TITLES = ("event", "turn", "what", "dropped", "earlier", "later")
TO_THE_RIGHT = 2  # columns, of numbers


@dataclass(frozen=True)
class EventRow:
    """An event, and what is known of its moves."""

    event: Event
    tried: Mapping[Way, Tried]

    def order(self) -> tuple[int, bool, int, int]:
        """Those that small moves matter of come first, then those that can't be dropped."""
        changes = [self.tried[it].change for it in (Way.EARLIER, Way.LATER)]
        nearest = min((it.turns for it in changes if it), default=FAR)
        is_same = self.tried[Way.DROPPED].change is None
        return nearest, is_same, self.event.turn, self.event.number

    def cells(self, beside: "Beside", is_near: bool, same: str) -> list[str]:
        """`same` says that no move of those tried is one that is looked for."""
        number, turn, text = self.event
        dropped = dropped_cell(self.tried[Way.DROPPED], beside, same)
        same = "none found" if is_near else same
        moved = [moved_cell(self, it, beside, is_near, same) for it in (Way.EARLIER, Way.LATER)]
        return [str(number), str(turn), text, dropped, *moved]

    def nearest(self) -> str:
        """The edit of the nearest move that is looked for, or else of the drop; empty if none is
        known."""
        number, turn, text = self.event
        moves = {Way.EARLIER: -1, Way.LATER: 1}
        changes = ((self.tried[way].change, sign) for way, sign in moves.items())
        shifts = [(it.turns, sign * it.turns) for it, sign in changes if it]
        if shifts:
            return f"alter {number} {turn + min(shifts)[1]} {text}"
        return f"drop {number}" if self.tried[Way.DROPPED].change else ""


def dropped_cell(tried: Tried, beside: "Beside", same: str) -> str:
    if tried.change:
        return beside.value(tried.change.answer)
    return same if tried.known else "not tried"


def moved_cell(row: EventRow, way: Way, beside: "Beside", is_near: bool, same: str) -> str:
    tried, event = row.tried[way], row.event
    if tried.change:
        doubt = "" if is_near or tried.is_nearest else " or less"
        return f"by {tried.change.turns}{doubt}: {beside.value(tried.change.answer)}"
    first, last = (event.turn, 0) if way is Way.EARLIER else (LAST_TURN - event.turn, LAST_TURN)
    if not first:
        return f"in turn {last}"
    if not tried.same_to:
        return "not tried"
    end = f", turn {last}" if tried.same_to == first else ""
    return f"{same} (to {tried.same_to}{end})"


class Beside:
    """Shows other replies beside this one: what each has around its first difference. Those whose
    differences lie near each other begin at the same part."""

    def __init__(self, reply: str, others: Iterable[str]):
        self.parts, self.between = parts_of(reply), "" if is_text(reply) else " "
        self.starts: list[int] = []
        for begin in sorted(map(self.begin, others)):
            if not self.starts or self.width(self.starts[-1], begin) > NEAR_DIFFERENCE:
                self.starts.append(begin)

    def width(self, begin: int, end: int) -> int:
        return len(self.between.join(self.parts[begin:end]))

    def begin(self, other: str) -> int:
        """The part a little before the first difference."""
        at = begin = len(os.path.commonprefix([self.parts, parts_of(other)]))
        while begin and self.width(begin - 1, at) <= SHOWN_BEFORE:
            begin -= 1
        return begin

    def value(self, other: str) -> str:
        """A reply without its first word, or what it has from such a part on."""
        parts, begin = parts_of(other), self.begin(other)
        whole = self.between.join(parts)
        if len(whole) <= LONGEST_VALUE:
            return whole or "no byte"
        start = max(it for it in self.starts if it <= begin)
        end, longest = start, LONGEST_VALUE + self.width(start, begin)
        while end < len(parts) and len(self.between.join(parts[start : end + 1])) <= longest:
            end += 1
        value = self.between.join(parts[start:end])
        return f"{'..' * (start > 0)}{value}{'..' * (end < len(parts))}"


def is_text(reply: str) -> bool:
    return reply.startswith(("text ", "punched "))


def parts_of(reply: str) -> list[str]:
    """The bytes of a text as they are shown, or the words of another reply, without its name."""
    if is_text(reply):
        return re.findall(r"\\[0-7]{3}|.", reply.partition(":")[2])
    return reply.split(" ")[1:]


def table(
    question: str, reply: str, rows: Sequence[EventRow], is_near: bool, until: str
) -> Iterator[str]:
    shown = reply if len(reply) <= LONGEST_REPLY else f"..{reply[-LONGEST_REPLY:]}"
    yield f"matters: {question}    {shown}{f'    until {until}' if until else ''}"
    changes = [tried.change for it in rows for tried in it.tried.values()]
    beside = Beside(reply, (it.answer for it in changes if it))
    rows = sorted(rows, key=EventRow.order)
    cells = [it.cells(beside, is_near, "no" if until else "same") for it in rows]
    if not cells:
        yield "no event is tried"
        return
    columns = [(title, *with_values_below(it)) for title, it in zip(TITLES, zip(*cells))]
    widths = [max(map(len, column)) for column in columns]
    for row in zip(*columns):
        yield "  ".join(
            it.rjust(width) if at < TO_THE_RIGHT else it.ljust(width)
            for at, (it, width) in enumerate(zip(row, widths))
        ).rstrip()
    nearest = next(filter(None, map(EventRow.nearest, rows)), "none") if until else ""
    found = f"; the nearest change found: {nearest}" if until else ""
    yield counted(len(rows), "event") + found + (NEAR if is_near else "")


def with_values_below(column: Sequence[str]) -> Iterator[str]:
    """The cells of a column, in which the values of moves stand below one another."""
    moves = [it.partition(":")[0] for it in column if it.startswith("by ")]
    width = 1 + max(map(len, moves), default=0)
    for cell in column:
        move, _, value = cell.partition(":")
        yield f"{move + ':':<{width}}{value}" if cell.startswith("by ") else cell


NEAR = "; moves that double were tried, and halves: a nearer one, or the only one, may be missed"
