"""What explore's rules of data tell of turns, and of the values of their cycles."""
from typing import Iterator, Optional

from nezdrab.analysis.operands import Flow
from nezdrab.analysis.turn_cycles import NotFollowed
from nezdrab.analysis.turn_flow import Flows
from nezdrab.core.engine import Machine


def each_flow(machine: Machine, turns: range) -> Iterator[tuple[Flows, Flow, str]]:
    """The flow of each of these turns, with what makes it, which is at its turn. One that isn't
    followed is there as far as it is, and why it isn't."""
    while turns:
        flows = Flows(machine, turns)
        try:
            for flow in flows:
                yield flows, flow, ""
            return
        except NotFollowed as error:
            yield flows, flows.flowing, str(error)
            turns = range(flows.flowing.turn + 1, turns.stop)


def word_of(flows: Flows, flow: Flow, number: int) -> Optional[int]:
    """The word of core that this cycle of a turn reads or leaves, while the flows are at the turn;
    None if it is written again in the turn, after which only the last word is known."""
    it = flow.cycles[number]
    before = [other.is_write_of(it.word) for other in flow.cycles[: number + 1]]
    after = any(other.is_write_of(it.word) for other in flow.cycles[number + 1 :])
    if not any(before):
        return flows.space.word(it.word)
    return None if after else flows.machine.word(flow.turn + 1, it.word)
