"""Core and drives as images, `core FILE at N`, `disk FILE at N`; and `core A INSTRUCTION`."""
import re
import struct
from pathlib import Path
from typing import Iterator

from ..analysis.assembler import LABEL, LABEL_OR_NAME, instruction_text, is_mnemonic
from ..analysis.command import Arguments, command
from ..analysis.explorer import Explorer
from ..analysis.listing import VIRTUAL, listed_line
from ..core.all_words import core_words, drive_image
from ..analysis.restart import edit_whole
from ..core.errors import ExploreError
from ..core.interrupts import INTERRUPTS
from ..core.sessions import words_of
from ..core.symbols import ADDRESS, Symbols
from ..core.written_files import OUTPUT

NO_FILE = r"(?!.*\sat\s+\S+$)"  # before an instruction: a FILE may lack its quotes


def written(path: Path, data: bytes, what: str) -> Iterator[str]:
    OUTPUT.write(path, data)
    yield f"{what} in {path}: {len(data)} bytes"


@command(
    "core FILE at N  or  core A INSTRUCTION",
    rf"(<file:file> at <turn:decimal>|<address:address> {NO_FILE}"
    rf"(?P<instruction>{LABEL_OR_NAME}.*))",
    "core before turn N, as an image; an instruction, as patches",
)
def core(explorer: Explorer, arguments: Arguments) -> Iterator[str]:
    """Writes core before turn N as an image, which `--core FILE` reads: words from address 0 on,
    the low byte first. A file that was there before is overwritten by core! FILE alone.
    With an INSTRUCTION such as MOV #5,R0 its words become those of core from address A on as of
    power-up, one patch each. It has the syntax of MACRO-11: numbers are octal, or decimal with a
    point at their end; 'c and "ab are characters; a symbol or . (A itself) may have numbers after +
    and -. A label before it is A too: 1$: SOB R0,1$. Condition codes that are cleared or set
    together have a space between them: CLV CLC. BHIS is BCC, BLO is BCS, %5 is R5, CALL is JSR PC
    and RETURN is RTS PC.
    Addresses count from A modulo 200000, as in `list A C`: pages that move A aren't looked at.
    The words are those of the text that `list` shows then. `undo` takes the patches back as
    one."""
    if arguments.optional("instruction"):
        return patch(explorer, arguments.octal("address"), arguments.text("instruction"))
    path, turn = Path(arguments.text("file")), arguments.decimal("turn")
    OUTPUT.target(path)
    words = core_words(explorer.machine, turn)
    return written(path, struct.pack(f"<{len(words)}H", *words), f"core before turn {turn} is")


@command(
    "disk [D] FILE at N",
    r"((?P<drive>[0-7]) )?<file:file> at <turn:decimal>",
    "a drive before turn N, as an image",
)
def disk(explorer: Explorer, arguments: Arguments) -> Iterator[str]:
    """Writes the drive, or in version 2 drive D, as it is before turn N as an RK05 image, which
    `--disk FILE` and SIMH's `attach` read. Without D it is drive 0. A file that was there before is
    overwritten by disk! FILE alone."""
    path, turn = Path(arguments.text("file")), arguments.decimal("turn")
    drive = arguments.octal("drive")
    OUTPUT.target(path)
    image = drive_image(explorer.machine, turn, drive)
    return written(path, image, f"drive {drive} before turn {turn} is")


def is_instruction(rest: str, symbols: Symbols) -> bool:
    """Whether what follows `core` is an address and then an instruction: not a word, nor a symbol
    alone, which is none."""
    place, word, *more = [*words_of(rest), "", ""]
    if not re.fullmatch(ADDRESS, place) or not re.match(LABEL_OR_NAME, word):
        return False
    is_alone = not any(more) and LABEL.match(word) is None
    return not is_alone or is_mnemonic(word) or not symbols.is_named(word)


def check_place(explorer: Explorer, address: int, count: int) -> None:
    top = explorer.machine.setup.core_end
    if address % 2:
        raise ExploreError(f"the address {address:o} is odd")
    if address + 2 * count > top:
        raise ExploreError(
            f"the instruction goes on to {address + 2 * count - 1:o}, and core ends at {top - 1:o}"
        )


def patch(explorer: Explorer, address: int, text: str) -> Iterator[str]:
    """Makes patches of an instruction, all of them or none."""
    machine, virtual = explorer.machine, address % VIRTUAL
    shown = instruction_text(text, virtual, explorer.symbols.number)
    words = explorer.disassembler.assembled(virtual, shown)
    check_place(explorer, address, len(words))
    lines = [f"core {address + 2 * at:o} {it:06o}" for at, it in enumerate(words)]
    with INTERRUPTS.held():
        if explorer.is_terminal:
            edit_whole(machine, lines, lambda: explorer.fading.make(machine, lines))
        else:
            edit_whole(machine, lines)
    yield listed_line(address, words, shown)
    if explorer.is_terminal:
        yield from explorer.fading.said(machine)
