"""The console's text as a terminal shows it: `screen`."""
import re
from typing import Iterator

from .command import Arguments, command
from .explorer import Explorer

BACKSPACE, TAB, RETURN = b"\b", b"\t", b"\r"
MOVES = re.compile(rb"([\b\t\r])")
TAB_WIDTH, DELETE = 8, 0o177


def in_characters(byte: int) -> str:
    """A byte in characters that can be printed: `^[` is ESC, `^A` Ctrl-A, `\\377` the byte 377."""
    if byte < 0o40 or byte == DELETE:
        return f"^{chr(byte ^ 0o100)}"
    return chr(byte) if byte < DELETE else f"\\{byte:03o}"


SHOWN = [in_characters(it).encode() for it in range(0o400)]
UNSHOWN = re.compile(rb"[^\x20-\x7e]")


def shown(run: bytes) -> bytes:
    return b"".join(map(SHOWN.__getitem__, run)) if UNSHOWN.search(run) else run


def line_of(printed: bytes, column: int) -> tuple[bytes, int]:
    """A line of the terminal, from the bytes up to its LF and the column where they begin; and the
    column where they end. CR, BS and TAB move; another byte is shown where it stands."""
    line = bytearray()
    for part in MOVES.split(printed):
        if part == RETURN:
            column = 0
        elif part == BACKSPACE:
            column = max(0, column - 1)
        elif part == TAB:
            column += TAB_WIDTH - column % TAB_WIDTH
        elif part:
            run = shown(part)
            line.extend(b" " * (column - len(line)))
            line[column : column + len(run)] = run
            column += len(run)
    return bytes(line), column


def lines_of(text: bytes) -> list[str]:
    """The lines of a terminal that has been given this text, without blanks at their ends."""
    lines, column = [], 0
    for printed in text.split(b"\n"):
        line, column = line_of(printed, column)
        lines.append(line.decode().rstrip(" "))
    return lines if lines[-1] else lines[:-1]


@command(
    "screen [N [LAST]]",
    r"(<turn:decimal>( <count:decimal>)?)?",
    "the text before turn N, line by line as a terminal shows it",
)
def screen(explorer: Explorer, arguments: Arguments) -> Iterator[str]:
    """Shows what was printed before turn N with its line ends; with LAST the last LAST lines.
    Without N it is the current turn, as after a console the one where it was left. CR, LF, BS and
    TAB move as on a terminal, so what is printed over a character takes its place. Other control
    bytes are shown: ^[ is ESC, ^G Ctrl-G, ^? DEL, and \\377 the byte 377. An escape sequence is
    shown too, and has no effect. `text N` shows each byte."""
    turn = arguments.decimal("turn", explorer.turn)
    lines = lines_of(explorer.machine.text(turn))
    explorer.turn = turn
    if not lines:
        yield f"nothing is printed before turn {turn}"
    last = arguments.decimal("count", len(lines))
    yield from lines[max(0, len(lines) - last) :]
