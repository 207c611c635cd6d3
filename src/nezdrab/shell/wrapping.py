"""Text for people to read: as wide as the terminal, and a screen at a time."""
import os
import sys
from typing import Iterable, Sequence

from ..analysis.crew import AtWork
from ..core.interrupts import INTERRUPTS
from ..core.visible import visible
from .output import LINES

WIDTH, LEAST_WIDTH, MOST_WIDTH = 80, 20, 100
DEEPER = 2  # further lines of a paragraph that is indented
LINE_OF_SOURCE = 92  # columns of a docstring, without what it is indented by
ENDS_OF_PARAGRAPHS = ("", ".", ":", ";")


def size_of_terminal() -> tuple[int, int]:
    """Columns and rows of the terminal that standard output is, or zeros."""
    try:
        found = os.get_terminal_size(sys.stdout.fileno())
    except OSError:
        return 0, 0
    return found.columns, found.lines


def width() -> int:
    return min(max(size_of_terminal()[0] or WIDTH, LEAST_WIDTH), MOST_WIDTH)


def wrap(text: str, columns: int) -> list[str]:
    """A paragraph in lines of this width. One that is indented goes on a little deeper."""
    import textwrap  # which takes a while to read

    indent = " " * (len(text) - len(text.lstrip(" ")))
    deeper = indent + " " * DEEPER if indent else ""
    found = textwrap.wrap(
        text.strip(" "),
        columns,
        initial_indent=indent,
        subsequent_indent=deeper,
        break_on_hyphens=False,
    )
    return found or [""]


def fit(paragraphs: Iterable[str]) -> list[str]:
    """Paragraphs in lines that fit the terminal."""
    columns = width()
    return [line for it in paragraphs for line in wrap(it, columns)]


def paragraphs_of(detail: str) -> list[str]:
    """The paragraphs of a docstring: one ends with a sentence, or a part of a list, after which the
    next word had room in its line."""
    found: list[str] = []
    before = ""
    for line in detail.splitlines():
        needed = len(f"{before} {line.split(' ')[0]}")
        if before[-1:] in ENDS_OF_PARAGRAPHS and needed <= LINE_OF_SOURCE:
            found.append(line)
        else:
            found[-1] += f" {line}"
        before = line
    return found


def page(lines: Sequence[str]) -> bool:
    """Shows lines by the pager of the system, PAGER or `less`, if they are more than a screen;
    tells whether they are."""
    rows = size_of_terminal()[1]
    if not rows or len(lines) < rows:
        return False
    import pydoc  # which takes a while to read

    for line in lines:
        LINES.note(line)
    with AtWork.hidden():
        pydoc.pager("\n".join(map(visible, lines)))
    INTERRUPTS.again()  # each Ctrl-C was the pager's
    return True
