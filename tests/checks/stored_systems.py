"""A stored system for lines.py: the edits of a session, what they make of setup and script, and
what each turn is, asked by lines of the session language alone."""
import os
from typing import NamedTuple

from tests import stored_sessions as sessions

# Of a reply that begins with one of these words and a count, so many lines follow.
LISTS = {it.decode() for it in sessions.COUNTED}
LONGEST_TRAIL = 64
WORDS_OF_PAGE = 256
DELAYS = {"printer": 1, "reader": 4, "punch": 4, "disk": 10, "clock": 0}


class NoReplies(Exception):
    """That a program's output isn't one reply for each line."""


class Event(NamedTuple):
    """An event of the script, by its number."""

    number: int
    turn: int
    what: str


class Followed:
    """What the edits that were taken make of setup and script."""

    def __init__(self, arguments: list[str], folder: str) -> None:
        words = " ".join(arguments).replace("=", " ").split()
        self.options = dict(zip(words[::2], words[1::2]))
        self.version = 1
        self.delays = dict(DELAYS)
        self.events: list[Event] = []
        tape = self.options.get("--tape")
        self.tape = os.path.getsize(os.path.join(folder, tape)) if tape else 0

    def follow(self, line: str, reply: str) -> None:
        if reply.startswith("refused"):
            return
        command, *words = line.split()
        if command == "version":
            self.version = 2
        elif command == "tape":
            self.tape = len(words)
        elif command == "delay":
            self.delays[words[0]] = int(words[1])
        elif command == "at":
            self.put(int(reply.split()[1]), words)
        elif command == "alter":
            self.alter(int(words[0]), words[1:])
        elif command == "drop":
            self.events = [it for it in self.events if it.number != int(words[0])]

    def put(self, number: int, words: list[str]) -> None:
        turn, kind, *value = words
        digits = {"key": 3, "switches": 6}.get(kind)
        what = f"{kind} {int(value[0], 8):0{digits}o}" if digits else kind
        self.events.append(Event(number, int(turn), what))

    def alter(self, number: int, words: list[str]) -> None:
        at = next(i for i, it in enumerate(self.events) if it.number == number)
        old = self.events.pop(at)
        self.put(number, words)
        if self.events[-1].turn == old.turn:
            self.events.insert(at, self.events.pop())

    def in_order(self) -> list[Event]:
        """The events as they happen: those of one turn as they were put there."""
        return sorted(self.events, key=lambda it: it.turn)

    def script_from(self, turn: int) -> list[tuple[int, str]]:
        return [(it.turn, it.what) for it in self.in_order() if it.turn >= turn]

    def setup(self) -> str:
        start = int(self.options.get("--start", "1000"), 8)
        of_devices = " ".join(f"{name} {turns}" for name, turns in self.delays.items())
        return (
            f"setup version {self.version} units {int(self.options.get('--units', '31'))} "
            f"start {start:06o} stride {int(self.options.get('--stride', '10000'))} "
            f"{of_devices} tape {self.tape}"
        )


def replies_of(lines: list[str], output: str) -> list[str]:
    """The replies in an output, one for each of these lines, each without its last line feed."""
    left, replies = output.split("\n")[:-1], []
    at = 0
    for line in lines:
        if at == len(left):
            raise NoReplies(f"there is no reply to '{line}'")
        words = left[at].split()
        is_list = len(words) > 1 and words[0] in LISTS and words[1].isdigit()
        after = at + 1 + (int(words[1]) if is_list else 0)
        replies.append("\n".join(left[at:after]))
        at = after
    if at != len(left):
        raise NoReplies(f"there are more replies than lines, the first '{left[at]}'")
    return replies


class System:
    """What a program replies to lines after these own lines, which are a session's edits or all its
    lines. A reply that isn't known is wanted, and words of it are 0 until `ask_wanted`."""

    def __init__(self, program: str, session: sessions.Session, own: list[str]) -> None:
        self.program, self.session, self.own = program, session, own
        self.known: dict[str, str] = {}
        self.wanted: dict[str, None] = {}
        self.is_lacking = False
        self.registers_of: dict[int, dict[str, int]] = {}
        self.pages_of: dict[int, dict[str, list[int]]] = {}
        self.turns: list[int] = []
        self.acts: dict[int, tuple[int, str]] = {}
        self.followed = Followed(session.args, session.folder)
        self.own_replies, _ = self.replies_to([])
        for line, reply in zip(own, self.own_replies):
            self.followed.follow(line, reply)
        self.version = self.followed.version
        self.core_bytes = int(self.followed.options.get("--units", "31")) * 8192

    def replies_to(self, lines: list[str]) -> tuple[list[str], list[str]]:
        """The replies to the own lines and to these, in a new run of the program."""
        every = [*self.own, *lines]
        ended = sessions.run(
            self.program, self.session, "".join(f"{it}\n" for it in every).encode("latin-1")
        )
        if ended.status != 0:
            raise NoReplies(f"status {ended.status}: {ended.error!r}")
        replies = replies_of(every, ended.output.decode("latin-1"))
        return replies[: len(self.own)], replies[len(self.own) :]

    def ask_wanted(self) -> bool:
        """Asks what is wanted; returns whether there was something."""
        lines = list(self.wanted)
        if lines:
            self.known.update(zip(lines, self.replies_to(lines)[1]))
            self.wanted.clear()
        return bool(lines)

    def reply(self, line: str) -> str:
        found = self.known.get(line)
        if found is None:
            self.wanted[line] = None
            self.is_lacking = True
            return ""
        return found

    def word_of(self, line: str, index: int) -> int:
        """A word of a reply to `mem` or `dsk`."""
        reply = self.reply(line)
        return int(reply[4 + 7 * index : 10 + 7 * index], 8) if reply else 0

    def core(self, turn: int, address: int) -> int:
        """The word of core at an even address, of which each turn is asked."""
        return self.word_of(f"mem {turn} {address:o} 1", 0)

    def core_in_page(self, turn: int, address: int) -> int:
        """The same, of a turn of which many words are asked."""
        return self.word_of(f"mem {turn} {address & ~0o777:o} 256", (address & 0o777) // 2)

    def drive(self, turn: int, drive: int, word: int) -> int:
        return self.word_of(f"dsk {turn} {self.drive_word(drive)}{word:o} 1", 0)

    def drive_in_sector(self, turn: int, drive: int, word: int) -> int:
        first = word - word % WORDS_OF_PAGE
        return self.word_of(f"dsk {turn} {self.drive_word(drive)}{first:o} 256", word - first)

    def drive_word(self, drive: int) -> str:
        return f"{drive:o} " if self.version == 2 else ""

    def registers(self, turn: int) -> dict[str, int]:
        """The registers; SP is R6 of the mode, and `halted` is 1 if the processor is."""
        found = self.registers_of.get(turn)
        if found is None:
            *words, state = self.reply(f"regs {turn}").split()
            found = {name: int(word, 8) for name, word in zip(words[::2], words[1::2])}
            found["SP"] = found["USP" if found["PS"] >> 14 else "KSP"]
            found["halted"] = int(state == "halted")
            self.registers_of[turn] = found
        return found

    def page_registers(self, turn: int) -> dict[str, list[int]]:
        """SR0, SR2, KPDR, KPAR, UPDR and UPAR, each with its words."""
        found = self.pages_of.get(turn)
        if found is None:
            name, found = "", {}
            for it in self.reply(f"pages {turn}").split()[1:]:
                if it.isdigit():
                    found.setdefault(name, []).append(int(it, 8))
                name = name if it.isdigit() else it
            self.pages_of[turn] = found
        return found

    def text(self, command: str, turn: int) -> bytes:
        """The bytes of `text` or `punched`."""
        shown = self.reply(f"{command} {turn}").partition(":")[2].encode("latin-1")
        found, at = bytearray(), 0
        while at < len(shown):
            is_octal = shown[at : at + 1] == b"\\"
            found.append(int(shown[at + 1 : at + 4], 8) if is_octal else shown[at])
            at += 4 if is_octal else 1
        return bytes(found)

    def ask_turns(self, first: int, last: int) -> None:
        """Asks what is needed of each turn from the first to the last, whatever is searched."""
        self.turns = list(range(first, last + 1))
        for turn in self.turns:
            for command in ("regs", "devices", "pages", "text", "punched"):
                self.reply(f"{command} {turn}")
        ends = [*range(first + LONGEST_TRAIL, last, LONGEST_TRAIL), last]
        trails = [f"trail {end} {min(end - first, LONGEST_TRAIL)}" for end in ends]
        for line in trails:
            self.reply(line)
        self.ask_wanted()
        for line in trails:
            for it in self.reply(line).split("\n")[1:]:
                at, pc, act = it.split(" ", 2)
                self.acts[int(at)] = int(pc, 8), act
