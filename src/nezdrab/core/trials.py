"""What a machine tries in other pasts, while its own stays as it is."""
from __future__ import annotations

import operator
from contextlib import closing
from typing import TYPE_CHECKING, Any, Callable, Iterable, Iterator, Optional, SupportsIndex
from typing import TypeVar, Union, overload

from . import questions
from .all_words import words_apart
from .asked import last_turn_of, sparse_stride
from .engine import LAST_TURN, Machine as Engine
from .errors import ExploreError
from .past import Event
from .questions import Address, Question
from .replies import Mode

if TYPE_CHECKING:
    from .moves import EventMoves

Answer = TypeVar("Answer")


class Trials:
    """The part of a machine that tries other pasts, each in a process of its own."""

    _engine: Engine

    def _number(self, address: Address, mode: Optional[Mode] = None) -> int:
        raise NotImplementedError

    @overload
    def sweep(
        self,
        event: Union[SupportsIndex, str],
        turns: Iterable[SupportsIndex],
        question: str,
        *,
        processes: int = 1,
    ) -> Iterator[tuple[int, str]]:
        ...

    @overload
    def sweep(
        self,
        event: Union[SupportsIndex, str],
        turns: Iterable[SupportsIndex],
        question: Question[Answer],
        *,
        processes: int = 1,
    ) -> Iterator[tuple[int, Answer]]:
        ...

    def sweep(
        self,
        event: Union[SupportsIndex, str],
        turns: Iterable[SupportsIndex],
        question: Union[str, Question[Any]],
        *,
        processes: int = 1,
    ) -> Iterator[tuple[int, Any]]:
        """Each of the turns with the answer to the question if the event were there: a new event,
        such as "tick", or the one with this number, moved. The past stays as it is. Turns are taken
        as answers are: both may go on for ever."""
        from .twins import Sweep  # which few need

        asked = questions.question_of(question)
        swept = Sweep.of(self._engine, event, asked.lines(self._number))
        yield from swept.answers(turns, asked.read, processes)

    def differing(
        self, other: Trials, turn: SupportsIndex
    ) -> Iterator[tuple[Optional[int], int, int, int]]:
        """The words before a turn that another machine has otherwise: None and the address of core,
        or the drive and the number there; this machine's word, and the other's. Of drives 1 to 7
        none is looked at unless both machines have them."""
        for drive, words in words_apart(self._engine, other._engine, operator.index(turn)):
            for place, ours, theirs in words:
                yield drive, 2 * place if drive is None else place, ours, theirs

    def reduce(
        self,
        question: Union[str, Question[Any]],
        is_wanted: Optional[Callable[[Any], bool]] = None,
        *,
        events: Optional[Iterable[SupportsIndex]] = None,
    ) -> Iterator[list[Event]]:
        """Ever fewer events, at first all, with which the answer to the question is what it is, or
        `is_wanted`. Of the last of these lists no single event can be left out; fewer others might
        do, which no try has met. `events` are the numbers of those that may be left out, if not all
        may. The past stays as it is. A NezdrabError if the answer isn't wanted at first."""
        from .twins import Reduction, replies_to  # which few need

        asked, engine = questions.question_of(question), self._engine
        lines = list(asked.lines(self._number))
        present = asked.read(replies_to(engine, lines))
        wanted = is_wanted or (lambda answer: bool(answer == present))
        if not wanted(present):
            raise ExploreError("the answer isn't wanted with all events")
        named = None if events is None else frozenset(map(operator.index, events))
        kept = [it for it in engine.script if named is None or it.number in named]
        end = max((last_turn_of(it) or 0 for it in lines), default=0)
        with closing(engine.twin(stride=sparse_stride(end))) as twin:
            kept = [it for it in kept if it.turn < LAST_TURN]
            reduction = Reduction(twin, lines, lambda it: bool(wanted(asked.read(it))), kept)
            yield kept
            for _ in reduction.steps():
                if len(reduction.kept) < len(kept):
                    kept = reduction.kept
                    yield kept

    @overload
    def matters(
        self,
        question: str,
        is_wanted: Optional[Callable[[str], bool]] = None,
        *,
        events: Optional[Iterable[SupportsIndex]] = None,
        within: SupportsIndex = 1_024,
        near: bool = False,
        processes: int = 1,
    ) -> Iterator[EventMoves[str]]:
        ...

    @overload
    def matters(
        self,
        question: Question[Answer],
        is_wanted: Optional[Callable[[Answer], bool]] = None,
        *,
        events: Optional[Iterable[SupportsIndex]] = None,
        within: SupportsIndex = 1_024,
        near: bool = False,
        processes: int = 1,
    ) -> Iterator[EventMoves[Answer]]:
        ...

    def matters(
        self,
        question: Union[str, Question[Any]],
        is_wanted: Optional[Callable[[Any], bool]] = None,
        *,
        events: Optional[Iterable[SupportsIndex]] = None,
        within: SupportsIndex = 1_024,
        near: bool = False,
        processes: int = 1,
    ) -> Iterator[EventMoves[Any]]:
        """What becomes of the answer with each event dropped, moved earlier, and moved later: the
        moves by the fewest turns, up to `within`, after which it is another answer, or one that
        `is_wanted`. Each number of turns is tried; with `near` those that double, and then halves,
        which may miss a nearer move, or the only one. A moved event is the last of its new turn.
        `events` are the numbers of those to try, if not all that come before the question's turn or
        can be moved there. They come as they are done, with one process in the order of the script.
        The past stays as it is. A NezdrabError if the question names no turn, or if the answer is
        wanted without a move."""
        from .moves import Asking, Moves, nearest_moves  # which few need
        from .twins import replies_to

        asked, engine, most = questions.question_of(question), self._engine, operator.index(within)
        lines = list(asked.lines(self._number))
        ends = [it for it in map(last_turn_of, lines) if it is not None]
        if not ends or not 1 <= most <= LAST_TURN:
            fault = f"within is 1 to {LAST_TURN}" if ends else "the question names no turn"
            raise ExploreError(fault)
        present = asked.read(replies_to(engine, lines))
        if is_wanted is not None and is_wanted(present):
            raise ExploreError("the answer is wanted without a move")
        sought = is_wanted or (lambda answer: bool(answer != present))
        moves = Moves(min(max(ends), LAST_TURN), most, near)
        asking = Asking(lines, asked.read, sought)
        numbers = None if events is None else list(map(operator.index, events))
        yield from nearest_moves(engine, moves, asking, numbers, processes)
