"""Calls and returns: `calls`, `finish`, `over`, and these backwards."""
from typing import Iterator

from ..core.engine import LAST_TURN, Machine
from ..core.errors import ExploreError
from ..core.in_words import span
from .command import Arguments, command, turns_between
from .explorer import Explorer
from .levels import CHECKED_TURNS, MOST_WORDS_OF_A_STACK, Call, Level, Return, Stacks, call_in
from .levels import loads_pointer, pointer
from .stepping import each_step, shown

HEADING = f"{'turn':>10}  {'mode':<6}  {'PC':<6}  {'call':<24}  to"


def level_line(explorer: Explorer, level: Level) -> str:
    call = level.call
    name = explorer.symbols.near(call.inside, call.routine)
    caller = explorer.symbols.near(call.mode, call.pc)
    what = f"{call.kind}{f' at {caller}' if caller else ''}"
    line = f"{call.turn:>10}  {call.mode.value:<6}  {call.pc:06o}  {what:<24}  {call.routine:06o}"
    doubt = f"  (believed: {level.doubt})" if level.doubt else ""
    return f"{line}  {name}".rstrip() + doubt


@command(
    "calls [N] [whole]",
    r"<turn:decimal>?((^| )(?P<whole>whole))?",
    "the calls, interrupts and traps that turn N stands in",
)
def calls(explorer: Explorer, arguments: Arguments) -> Iterator[str]:
    """Shows which calls the machine stands in before turn N, the innermost first: the turn of each
    JSR, interrupt or trap, its mode and PC, what it was, and the routine. Without N it is the
    current turn. From a call out of another mode it goes on with the stack of that mode.
    A call counts if it pushed a word that is still on the stack, also if the word was changed three
    times since, and if SP hasn't been above that word since. This is looked for in 1000000 turns,
    and with `whole` in all of them, which takes some seconds for 100000000. A level that needs more
    turns is `believed`. So is one that SP has left by MOV or MTPI to SP, up or more than 32 bytes
    down, as when stacks are switched: the level may be one of another stack. Stacks less far from
    each other are taken for one. Of a stack 256 words are looked at, and no more after 64 without a
    call. What a call pushed before a page was mapped elsewhere isn't found."""
    turn = arguments.decimal("turn", explorer.turn)
    stacks = Stacks(explorer.machine, None if arguments.optional("whole") else CHECKED_TURNS)
    registers = explorer.machine.registers(turn)
    name = explorer.symbols.near(registers.mode, registers.pc)
    place = f"{registers.mode.value} {registers.pc:06o}{f' ({name})' if name else ''}"
    levels = list(stacks.levels(turn))
    yield f"before turn {turn}: {place}{'' if levels else ', in no call that is found'}"
    yield from [HEADING] if levels else []
    yield from (level_line(explorer, it) for it in levels)
    if stacks.is_cut:
        yield f"there may be more: {MOST_WORDS_OF_A_STACK} words of a stack were looked at"
    explorer.turn = turn


def innermost(explorer: Explorer) -> Level:
    turn = explorer.turn
    level = next(Stacks(explorer.machine).levels(turn), None)
    if level is None:
        raise ExploreError(f"no call is found that turn {turn} stands in")
    return level


def doubt_lines(level: Level) -> Iterator[str]:
    if level.doubt:
        yield f"that turn {level.call.turn} is the call is believed: {level.doubt}"


def after_return(explorer: Explorer, call: Call, turns: range) -> Iterator[str]:
    sought = Return(explorer.machine, call)
    found = sought.first(turns)
    loaded = f"{pointer(call.inside)} was loaded in turn {(sought.away or 0) - 1}"
    if found is None:
        away = "" if sought.away is None else f"; {loaded}, as when stacks are switched"
        yield f"the call in turn {call.turn} doesn't return in {span(turns)}{away}"
        return
    if sought.away is not None:
        yield f"{loaded}, and the routine was left by that: PC isn't its return address"
    yield from shown(explorer, found)


def turns_ahead(explorer: Explorer, arguments: Arguments) -> range:
    """The turns after the current one, up to `to M` or to the last."""
    last = arguments.decimal("last", LAST_TURN - 1)
    return turns_between(min(explorer.turn + 1, LAST_TURN), last)


@command("finish [to M]", r"{to}", "goes on to where the current routine has returned")
def finish(explorer: Explorer, arguments: Arguments) -> Iterator[str]:
    """Goes on to the first turn before which the routine of the current turn has returned, and
    shows it as `show` does. The routine is that of the innermost level of `calls`, which says
    what is known of it. It has returned once SP is above what its call pushed, or once the other
    coroutine goes on by JSR PC,@(SP)+. So it counts if the routine takes its return address off the
    stack itself. If SP is loaded with an address above, as when tasks are switched, the search goes
    on until it is loaded to come back; if calls push there first, the routine was left by that, and
    a line says so. Without `to` the search goes on to the end of the run: it may take long, and
    Ctrl-C ends it."""
    turns, level = turns_ahead(explorer, arguments), innermost(explorer)
    yield from doubt_lines(level)
    yield from after_return(explorer, level.call, turns)


@command("reverse-finish", r"", "goes back to the call of the current routine")
def reverse_finish(explorer: Explorer, arguments: Arguments) -> Iterator[str]:
    """Goes back to the turn of the call, interrupt or trap that entered the current routine, and
    shows it as `show` does. It is that of the innermost level of `calls`, which says what is
    known of it."""
    level = innermost(explorer)
    yield from doubt_lines(level)
    yield from shown(explorer, level.call.turn)


@command(
    "over [K] [to M]",
    r"<count:decimal>?{to}",
    "steps over a call: to where its routine has returned",
)
def over(explorer: Explorer, arguments: Arguments) -> Iterator[str]:
    """Shows what `step` shows. But if the current turn is a JSR, an interrupt or a trap, it goes on
    to where the routine has returned, as `finish` finds that. With K it does so K times. It isn't
    called `next`, since `next` finds the next write. The search may take long, as that of
    `finish`."""
    yield from each_step(explorer, arguments, lambda: over_once(explorer, arguments))


def over_once(explorer: Explorer, arguments: Arguments) -> Iterator[str]:
    turns = turns_ahead(explorer, arguments)
    call = call_in(explorer.machine, explorer.turn)
    if call is None:
        yield from shown(explorer, turns.start)
    else:
        yield from after_return(explorer, call, turns)


def ended_levels(machine: Machine, turn: int) -> Iterator[Level]:
    """The levels that ended in the turn before this one, the innermost first. None is known to end
    where SP is loaded, as when stacks are switched."""
    before, now = machine.registers(turn - 1), machine.registers(turn)
    is_up = now.words[pointer(before.mode)] > before.words[pointer(before.mode)]
    if is_up and not loads_pointer(machine, turn - 1):
        for level in Stacks(machine).levels(turn - 1):
            if now.words[pointer(level.call.inside)] <= level.call.slot:
                return
            yield level


@command(
    "reverse-over [K]",
    r"<count:decimal>?",
    "steps back over a call: to the call, from where it has returned",
)
def reverse_over(explorer: Explorer, arguments: Arguments) -> Iterator[str]:
    """Shows what `back` shows. But if the turn before the current one returned from a routine, it
    goes back to the turn of the call. Of the levels of `calls` it takes the outermost that ended in
    that turn. With K it does so K times."""
    yield from each_step(explorer, arguments, lambda: reverse_over_once(explorer))


def reverse_over_once(explorer: Explorer) -> Iterator[str]:
    turn = explorer.turn
    if turn == 0:
        raise ExploreError("the current turn is turn 0")
    target = turn - 1
    for level in ended_levels(explorer.machine, turn):
        yield from doubt_lines(level)
        target = level.call.turn
    yield from shown(explorer, target)
