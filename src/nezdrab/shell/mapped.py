"""Virtual addresses in lines that take an address of core: `last N user A`, `next kernel A`."""
import re
from typing import Optional

from ..analysis.command import check_turn
from ..analysis.explorer import Explorer
from ..core.errors import ExploreError
from ..core.hardware import IO_PAGE, IO_PAGE_OF_PROGRAMS, LARGEST_WORD, NAMES_IN_THE_IO_PAGE
from ..core.replies import Mode
from ..core.symbols import ADDRESS

MAPPED_WORDS = (
    *("last", "writes", "writers", "next", "changes", "first", "watch", "why", "readers", "rwatch"),
)
MAPPED_HELP = (
    "In `last N A`, `writes N M A`, `writers A`, `next A`, `changes A`, `readers A`, `first core "
    "A = W`, `watch A`, `rwatch A` and `why A`, A may be `kernel A` or `user A`, an address as a "
    "program of that mode has it. It stands for the address of core that a read before turn N "
    "comes to; without N it is the turn of `from`, in `why` that of `at`, or the current turn. In "
    "other turns it may be another one. A line that takes a word of core from 160000 to 177777 "
    "says so, if the mode of the current turn, or kernel mode, has the I/O page there."
)
WORD_LINE = (
    r"(?P<before>((?P<bare>mem[ \t]+[0-9]{1,10}|reads([ \t]+[0-9]{1,10}){2}|(un)?core|list|dump)"
    r"|last[ \t]+(?P<last>[0-9]{1,10})|writes[ \t]+(?P<writes>[0-9]{1,10})[ \t]+[0-9]{1,10}"
    r"|writers|next|changes|watch|readers|rwatch|(?P<why>why)([ \t]+core)?|first[ \t]+core)[ \t]+)"
    r"((?P<mode>kernel|user)[ \t]+(?!(from|to)[ \t]))?"
    rf"(?P<address>{ADDRESS})(?P<after>(?![^\s=]).*)"
)


def turn_of(explorer: Explorer, found: "re.Match[str]") -> int:
    """The turn before which the address is translated."""
    word = "at" if found["why"] else "from"
    begin = re.search(rf"[ \t]{word}[ \t]+([0-9]{{1,10}})(?![^ \t])", found["after"])
    named = found["last"] or found["writes"] or (begin[1] if begin else None)
    turn = explorer.turn if named is None else int(named)
    check_turn(turn)
    return turn


def in_core(explorer: Explorer, line: str) -> Optional[tuple[str, str]]:
    """For a line with `kernel A` or `user A`: the line with an address of core, and a line that
    says which. An address that can't be read is an error. For a line with an address of core that
    programs have in the I/O page: the line, and that it isn't about a register."""
    found = re.fullmatch(WORD_LINE, line.strip(" \t"))
    if found is None or found["bare"] and found["mode"]:
        return None
    if not found["mode"]:
        said = beside_register(explorer, found["address"])
        return (line, said) if said else None
    mode, turn = found["mode"], turn_of(explorer, found)
    address = explorer.symbols.number(found["address"], Mode(mode))
    if address > LARGEST_WORD:
        raise ExploreError(f"{address:o} is more than a virtual address, {LARGEST_WORD:o}")
    place, *why = explorer.machine.read(f"translate {turn} {mode} {address:o}").split()[1:]
    name = f"{mode} {address:06o}"
    if why:
        raise ExploreError(f"{name} is no address of core before turn {turn}: {' '.join(why)}")
    return f"{found['before']}{place}{found['after']}", f"{name} is {place} before turn {turn}"


def beside_register(explorer: Explorer, text: str) -> str:
    """That a line takes the word of core at this address, where the mode of the current turn, or
    else kernel mode, has the I/O page."""
    try:
        address = explorer.symbols.number(text)
    except ExploreError:
        return ""
    machine, turn = explorer.machine, explorer.turn
    is_near = IO_PAGE_OF_PROGRAMS <= address <= LARGEST_WORD
    if not is_near or address >= machine.setup.core_end:
        return ""
    modes = machine.registers(turn).mode, Mode.KERNEL
    places = machine.places([(turn, it, address & ~1) for it in modes])
    for mode, place in zip(modes, places):
        if place is not None and place >= IO_PAGE:
            name = NAMES_IN_THE_IO_PAGE.get(place, "no register")
            there = f"is {place | address & 1:06o}, {name}, before turn {turn}"
            return f"{address:06o} is the word of core here; {mode.value} {address:06o} {there}"
    return ""
