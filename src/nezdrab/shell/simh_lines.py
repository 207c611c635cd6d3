"""The commands of SIMH that say what to do while the machine runs, as lines of explore."""
import re
from typing import Iterator

from ..core.values import dataclass, field

STRING = r""""(?:[^"\\]|\\.)*"|'(?:[^'\\]|\\.)*'"""
SEND = re.compile(rf"\w+\s+(?P<text>{STRING})")
EXPECT = re.compile(rf"\w+\s+(?P<text>{STRING})(?P<actions>.*)")
BREAK = re.compile(r"\w+\s+(?:-(?P<switch>[eEwW])\s+)?(?P<places>[0-7]{1,6}(?:\s*,\s*[0-7]{1,6})*)")
STEP = re.compile(r"\w+(?:\s+(?P<count>[0-9]{1,9}))?")
# The parts of a list of actions, and of a string.
ACTION = re.compile(rf"(?:{STRING}|[^;\"'])+")
PARTS = re.compile(r"\\([0-7]{1,3})|\\x([0-9a-fA-F]{1,2})|\\(.)|([^\\])", re.DOTALL)
ESCAPES = {"r": 0o15, "n": 0o12, "t": 0o11, "e": 0o33, "b": 0o10, "f": 0o14, "v": 0o13, "a": 7}
AS_TYPED = {0o15: "\\r", 0o12: "\\n", 0o11: "\\t"}
LARGEST_BYTE = 0o377
GOING_ON = frozenset(("c", "co", "cont", "continue", "g", "go", "run", "ru"))
SENDING = frozenset(("sen", "send"))


class Unusable(Exception):
    """Why a command has no meaning here."""


def byte_of(found: "re.Match[str]") -> int:
    octal, hexadecimal, escape, plain = found.groups()
    if octal or hexadecimal:
        byte = int(octal, 8) if octal else int(hexadecimal, 16)
    else:
        byte = ESCAPES.get(escape, ord(escape)) if escape else ord(plain)
    if byte > LARGEST_BYTE:
        raise Unusable(f"'{found[0]}' is no byte")
    return byte


def text_in_line(string: str) -> str:
    """A string of SIMH as a TEXT of explore."""
    found = [byte_of(it) for it in PARTS.finditer(string[1:-1])]
    is_plain = [0o40 <= it < 0o177 and chr(it) not in "\\\"" for it in found]
    parts = (
        chr(it) if plain else AS_TYPED.get(it, f"\\{it:03o}") for it, plain in zip(found, is_plain)
    )
    return f'"{"".join(parts)}"'


@dataclass(frozen=True)
class Line:
    """A line of explore, and the command of SIMH that it stands for, with its place."""

    line: str
    command: str


@dataclass(frozen=True)
class Rule:
    """An `expect`: what is done when its text is printed, and whether the machine then goes on."""

    lines: list[Line]
    goes_on: bool


@dataclass
class Lines:
    """The lines that the commands so far stand for. The rules of `expect` wait until the machine
    runs, and count in their order."""

    lines: list[Line] = field(default_factory=list)
    rules: list[Rule] = field(default_factory=list)
    has_breakpoints: bool = False

    def send(self, text: str, command: str) -> None:
        self.lines.append(Line(self._typed(text), command))

    def _typed(self, text: str) -> str:
        found = SEND.fullmatch(text)
        if found is None:
            raise Unusable('its form here is: send "text"')
        return f"type {text_in_line(found['text'])}"

    def expect(self, text: str, command: str) -> None:
        found = EXPECT.fullmatch(text)
        if found is None:
            raise Unusable('its form here is: expect "text" send "text"; continue')
        lines, goes_on = [Line(f"expect {text_in_line(found['text'])}", command)], False
        for action in (it.strip() for it in ACTION.findall(found["actions"])):
            word = action.split(" ")[0].lower()
            if word in SENDING:
                lines.append(Line(self._typed(action), command))
            elif word in GOING_ON:
                goes_on = True
            elif action:
                raise Unusable(f"'{action}' can't be an action here: send and continue can")
        self.rules.append(Rule(lines, goes_on))

    def set_break(self, text: str, command: str) -> None:
        found = BREAK.fullmatch(text)
        if found is None:
            raise Unusable("its form here is: break A, or break -w A")
        word = "watch" if found["switch"] in ("w", "W") else "break"
        places = re.findall("[0-7]+", found["places"])
        self.lines += [Line(f"{word} {it}", command) for it in places]
        self.has_breakpoints = True

    def step(self, text: str, command: str) -> None:
        found = STEP.fullmatch(text)
        if found is None:
            raise Unusable("its form here is: step N")
        self.lines.append(Line(f"step {found['count'] or 1}", command))

    def run(self, command: str) -> None:
        """The machine runs: the rules are met, up to one that doesn't go on, and then the next
        breakpoint."""
        while self.rules:
            rule = self.rules.pop(0)
            self.lines += rule.lines
            if not rule.goes_on:
                return
        if self.has_breakpoints:
            self.lines.append(Line("continue", command))

    def left(self) -> Iterator[str]:
        """The commands whose rules nothing runs."""
        yield from (it.lines[0].command for it in self.rules)
