"""make forth [--words] FOLDER [INTO]: reads forth.mac and forth.fth of a folder, such as
examples/forth, and writes beside them, or into the folder INTO, what they come to: forth.disk, an
image of an RK05 that boots, forth.lst, the listing of the kernel, and kernel.sym, its symbols. A
fault in a source is told with its file and the number of its line.

With --words it runs long/lost-note.session of the folder to its last event, and writes words.sym:
the words that are defined then from blocks of the disk, with the addresses of their code."""
import re
import sys
from contextlib import closing
from pathlib import Path
from typing import Optional

from media.assembly import Line, Program, program_of, source_lines
from nezdrab import Machine
from nezdrab.analysis.disassembly import Disassembler
from nezdrab.core import programs
from nezdrab.core.errors import ExploreError
from nezdrab.core.symbol_files import symbol_file

BLOCK, LINES, WIDTH = 1024, 16, 64
KERNEL_BLOCKS = 8
HEADING = re.compile(r"block ([0-9]+)")
WORDS_IN_LINE = 3


def block_of(lines: list[str], first: int) -> bytes:
    """A block of text. `first` is the number of the file's line with which it begins."""
    while lines and not lines[-1]:
        lines = lines[:-1]
    for number, line in enumerate(lines, first):
        if len(line) > WIDTH or not line.isascii():
            raise ExploreError(f"line {number}: a line has up to {WIDTH} characters of ASCII")
    if len(lines) > LINES:
        raise ExploreError(f"line {first + LINES}: a block has up to {LINES} lines")
    return "".join(it.ljust(WIDTH) for it in lines).ljust(BLOCK).encode()


def blocks_of(text: str) -> dict[int, bytes]:
    """The blocks of a file of text, by their numbers."""
    lines = text.splitlines()
    found = [(at, it) for at, it in enumerate(map(HEADING.fullmatch, lines)) if it]
    ends = [at for at, _ in found[1:]] + [len(lines)]
    blocks: dict[int, bytes] = {}
    for (at, heading), end in zip(found, ends):
        number = int(heading[1])
        if number in blocks or number < KERNEL_BLOCKS:
            raise ExploreError(f"line {at + 1}: block {number} is there already")
        blocks[number] = block_of(lines[at + 1 : end], at + 2)
    return blocks


def disk_of(core: bytes, blocks: dict[int, bytes]) -> bytes:
    """The image: the kernel as it is in core, and the blocks of text."""
    if len(core) > KERNEL_BLOCKS * BLOCK:
        raise ExploreError(f"the kernel has {len(core)} bytes, more than {KERNEL_BLOCKS} blocks")
    image = bytearray(max([KERNEL_BLOCKS - 1, *blocks]) * BLOCK + BLOCK)
    image[: len(core)] = core
    for number, data in blocks.items():
        image[number * BLOCK : number * BLOCK + BLOCK] = data
    return bytes(image)


def listed(number: int, line: Line) -> list[str]:
    """The lines of the listing for a line of the source, with three words in each. Of room that is
    left free there is the address alone."""
    words = [line.data[at : at + 2] for at in range(0, len(line.data), 2)]
    octal = [f"{int.from_bytes(it, 'little'):06o}" for it in words]
    is_room = len(words) > WORDS_IN_LINE and not any(line.data)
    first, *rest = ["" if is_room else " ".join(octal[:WORDS_IN_LINE])] + [
        " ".join(octal[at : at + WORDS_IN_LINE])
        for at in range(WORDS_IN_LINE, 0 if is_room else len(octal), WORDS_IN_LINE)
    ]
    address = "" if line.address is None else f"{line.address:06o}"
    found = [f"{number:>5} {address:<6} {first:<20}  {line.text}".rstrip()]
    for at, row in enumerate(rest, 1):
        found.append(f"{'':>5} {(line.address or 0) + 2 * WORDS_IN_LINE * at:06o} {row}")
    return found


def listing_of(program: Program) -> str:
    """The layout is that of MACRO-11: number, address, words, source; at the end the symbols."""
    lines = ["FORTH   in the layout of MACRO-11, by tools/make forth", "", ""]
    for number, line in enumerate(program.lines, 1):
        lines += listed(number, line)
    table = [f"{name:<6}= {value:06o}   " for name, value in program.constants.items()]
    table += [f"{name:<6}  {value:06o}   " for name, value in program.labels.items()]
    table.sort()
    lines += ["", "", "Symbol table", ""]
    lines += ["   ".join(table[at : at + 4]).rstrip() for at in range(0, len(table), 4)]
    lines += ["", f". ABS.  {len(program.core()):06o}    000", "Errors detected:  0"]
    return "".join(f"{it}\n" for it in lines)


def symbols_of(program: Program) -> str:
    ordered = sorted(program.labels.items(), key=lambda it: it[1])
    return "".join(f"{name} {value:o}\n" for name, value in ordered)


def kernel_of(folder: Path, disassembler: Optional[str] = None) -> Program:
    """The kernel, assembled by this disassemble, or by the one that is found."""
    lines = list(source_lines(folder, "forth.mac"))
    with closing(Disassembler(programs.program_of("disassemble", disassembler))) as asked:
        return program_of(lines, asked.assembled)


def make(folder: Path, into: Path) -> None:
    program = kernel_of(folder)
    text = folder / "forth.fth"
    try:
        blocks = blocks_of(text.read_text(encoding="ascii"))
    except ExploreError as error:
        raise ExploreError(f"{text}: {error}") from error
    (into / "forth.disk").write_bytes(disk_of(program.core(), blocks))
    (into / "forth.lst").write_text(listing_of(program))
    (into / "kernel.sym").write_text(symbols_of(program))


def defined_words(core: bytes, newest: int, end: int) -> list[tuple[str, int]]:
    """The words whose headers are in a chain from the newest one on, as far as it goes down to the
    end: each with its name and the address of its code."""
    found: list[tuple[str, int]] = []
    while newest >= end:
        count = core[newest + 2] & 0o37
        name = core[newest + 3 : newest + 3 + count].decode("ascii")
        found.append((name, (newest + 4 + count) & ~1))
        newest = int.from_bytes(core[newest : newest + 2], "little")
    return found[::-1]


def words_of(machine: Machine, labels: dict[str, int]) -> str:
    """The words defined from blocks before the turn after the last event, as lines of symbols.
    Names that can't be symbols are left out."""
    turn = max(it.turn for it in machine.events()) + 1
    here = machine.mem(turn, labels["NHERE"], 1)[0]
    newest = machine.mem(turn, labels["NEWEST"], 1)[0]
    words = machine.mem(turn, 0, here // 2)
    core = b"".join(word.to_bytes(2, "little") for word in words)
    lines = (f"{name} {at:o}\n" for name, at in defined_words(core, newest, labels["FREE"]))
    return "".join(it for it in lines if symbol_file(it).symbols)


def make_words(folder: Path, into: Path) -> None:
    program = kernel_of(folder)
    with Machine.of_session(folder / "long" / "lost-note.session") as machine:
        (into / "words.sym").write_text(words_of(machine, program.labels))


def main() -> int:
    words = sys.argv[1:]
    if words in (["--help"], ["-h"]):
        print(__doc__)
        return 0
    making = make_words if words[:1] == ["--words"] else make
    folders = words[making is make_words :]
    if len(folders) not in (1, 2) or folders[0].startswith("-"):
        print(__doc__, file=sys.stderr)
        return 2
    try:
        making(Path(folders[0]), Path(folders[-1]))
    except (ExploreError, OSError, UnicodeDecodeError) as error:
        print(f"make forth: {error}", file=sys.stderr)
        return 1
    return 0


if __name__ == "__main__":
    sys.exit(main())
