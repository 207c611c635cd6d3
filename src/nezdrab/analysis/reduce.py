"""The fewest events that still give a reply: `reduce`."""
import re
from contextlib import closing
from typing import Iterator, Sequence

from ..core.asked import sparse_stride
from ..core.engine import Machine
from ..core.errors import ExploreError
from ..core.in_words import counted, ranges
from ..core.moves import named_events
from ..core.past import Event
from ..core.twins import Reduction
from ..core.values import dataclass
from .command import Arguments, command
from .crew import Progress, stopped_by
from .explorer import Explorer
from .script import event_line
from .sought_reply import is_reply, question_and_reply, reply_of_turn
from .sweep import end_of, in_one_line

FORM = "reduce [E ..]: QUESTION [=|!= REPLY]"
REDUCE = re.compile(r"(?P<events>[0-9]{1,10}([ \t]+[0-9]{1,10})*)?[ \t]*:[ \t]*(?P<asked>.+)")


@dataclass(frozen=True)
class Sought:
    """What is asked, the reply to it, the sign and the REPLY that say which reply is to stay, and
    the events that may go."""

    question: str
    reply: str
    sign: str
    named: str
    events: Sequence[Event]

    @classmethod
    def of(cls, explorer: Explorer, words: str) -> "Sought":
        match = REDUCE.fullmatch(words)
        if match is None:
            raise ExploreError(f"the form is: {FORM}")
        machine = explorer.machine
        question, sign, named = question_and_reply(machine, explorer.symbols, match["asked"])
        if sign and not named:
            raise ExploreError(f"the form is: {FORM}")
        numbers = [int(it) for it in (match["events"] or "").split()]
        may_go = frozenset(named_events(machine, numbers) if numbers else machine.script)
        end = end_of(question)
        events = [it for it in machine.script if it.turn < end and it in may_go]
        found = cls(question, reply_of_turn(machine, question), sign, named, events)
        if not found.is_wanted([found.reply]):
            raise ExploreError(f"{sign} {named} isn't so: the reply is {found.reply}")
        return found

    def is_wanted(self, replies: Sequence[str]) -> bool:
        reply = in_one_line(replies[0])
        if not self.sign:
            return reply == self.reply
        return is_reply(self.named, reply) == (self.sign == "=")

    def reduction(self, machine: Machine) -> Reduction:
        """The work, on a twin of the machine."""
        twin = machine.twin(stride=sparse_stride(end_of(self.question)))
        return Reduction(twin, [self.question], self.is_wanted, list(self.events))


def with_bar(reduction: Reduction) -> Iterator[None]:
    """Leaves out as many events as can be."""
    with Progress(1, "tries") as progress:
        for done, total in reduction.steps():
            progress.total, progress.done = total, done - 1
            progress.what = f"tries; {counted(len(reduction.kept), 'event')} left"
            progress.step()
            yield


@command(FORM, r"(?P<words>.+)", "the fewest events that still give a reply")
def reduce_command(explorer: Explorer, arguments: Arguments) -> Iterator[str]:
    """Leaves out events as long as the reply to QUESTION, a line of the language that names its
    turn, is REPLY still, with != as long as it is another one, and without REPLY as long as it
    stays: all at once, then halves, and so on down to one by one. It ends when no single event that
    is left can go. That is exact; fewer others might do, which no try has met. Numbers E name the
    events that may go, and the others stay; without them all may go. The past stays as it is: each
    try is made by another process. REPLY is as in `matters`, and Ctrl-C shows the fewest that were
    found by then."""
    sought = Sought.of(explorer, arguments.text("words"))
    reduction = sought.reduction(explorer.machine)
    with closing(reduction.twin):
        stopped = stopped_by(with_bar(reduction))
    kept = frozenset(reduction.kept)
    yield f"reduce: {sought.question}    {sought.reply}"
    yield from map(event_line, reduction.kept)
    gone = ranges(sorted(it.number for it in sought.events if it not in kept))
    tries = counted(reduction.tried, "try").replace("trys", "tries")
    yield f"{counted(len(kept), 'event')} of {len(sought.events)} left after {tries}; gone: {gone}"
    if stopped:
        yield f"{stopped}: these are the fewest so far, and fewer may do"
    elif kept:
        yield "without any one of them it isn't so"
