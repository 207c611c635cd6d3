"""The machine that the program runs, with its edits."""
from contextlib import contextmanager, suppress
from pathlib import Path
from typing import TYPE_CHECKING, Iterator, Optional, Sequence, TypeVar

from .asked import Asked
from .drive_searches import LAST_TURN as LAST_TURN, is_of_drive, reply_to
from .errors import ExploreError
from .interrupts import INTERRUPTS
from .language import explanation, is_edit
from .moves_of_turns import TurnMoves, moves_of
from .options import faults_of, options_of_words
from .past import Event, Setup, without_zeros
from .program import Program, ProgramEnded, TimedOut
from .replies import SPACES, Devices, LastWrite, Mode, Pages, Registers, Turn, TurnAccesses
from .replies import accesses_of, listed, text_of, turns_of, words_of
from .sessions import first_word
from .values import dataclass, field, replace

if TYPE_CHECKING:
    from .journal import Journal

MOST_TURNS_OF_A_TRAIL = 64
MOST_WORDS = 256
# How many lines are sent before their replies are looked at: those with long replies, and others.
SENT_AHEAD, SHORT_SENT_AHEAD = 16, 1000
UNDO, REDO = "undo", "redo"  # the lines that take the last edit back, and make it again
OF_EVENTS = ("at", "alter", "drop")  # the edits that change the events alone
Item = TypeVar("Item")


class Refused(ExploreError):
    """A line that is no line of the user's was refused: `number` and `name` are those of the reply,
    and `sentence` says why, if that is known."""

    def __init__(self, line: str, reply: str, sentence: str = ""):
        super().__init__(line, reply, sentence)
        self.line, self.reply, self.sentence = line, reply, sentence
        _, number, self.name = reply.split()
        self.number = int(number)

    def __str__(self) -> str:
        return ": ".join(filter(None, (self.line, self.reply, self.sentence)))


def in_parts(items: Sequence[Item], size: int) -> Iterator[Sequence[Item]]:
    return (items[at : at + size] for at in range(0, len(items), size))


@dataclass(frozen=True)
class Start:
    """How the program is started: the file, its options, and the folder that their paths are in."""

    program: str
    options: Sequence[str]
    folder: Path

    def with_stride(self, stride: int) -> "Start":
        """The same with this stride. No reply depends on it."""
        before = ["", *self.options]
        others = [
            it
            for option, it in zip(before, self.options)
            if "--stride" not in (option, it.split("=")[0])
        ]
        return replace(self, options=[*others, "--stride", str(stride)])

    def command(self) -> list[str]:
        has_stride = any(it.split("=")[0] == "--stride" for it in self.options)
        # the program doubles the stride as a run grows, so a small one costs long runs nothing
        return [self.program, *([] if has_stride else ["--stride", "64"]), *self.options]


def is_taken(reply: str) -> bool:
    return reply == "ok" or reply.startswith("event ")


def is_refused(reply: str) -> bool:
    return reply.startswith("refused ")


@dataclass
class Machine:
    """A program with the edits that it took. If it ends, or is stopped, the next question starts it
    again, with these edits."""

    start: Start
    journal: list[str] = field(default_factory=list)
    replies: list[str] = field(default_factory=list)
    is_closed: bool = False
    file: "Optional[Journal]" = None
    asked: Asked = field(default_factory=Asked)
    seconds: Optional[float] = None  # that the replies to lines sent together may take

    def __post_init__(self) -> None:
        self._setup: Optional[Setup] = None
        self._script: Optional[list[Event]] = None
        # What the program has to make again, with the replies: the edit that comes first is last.
        self._undone: list[tuple[str, str]] = []
        self._running: Optional[Program] = self._started()

    def begin(self) -> Program:
        """The program, started again if there is none."""
        if self.is_closed:
            raise ProgramEnded("the machine was closed")
        if self._running is None:
            self._running = self._started()
        return self._running

    def _started(self) -> Program:
        program: Optional[Program] = None
        try:
            with INTERRUPTS.held():
                program = Program(self.start.command(), self.start.folder)
            program.replies(["regs 0"])
            parts = in_parts(self.journal, SHORT_SENT_AHEAD)
            replies = (reply for part in parts for reply in program.replies(part))
            for line, before, now in zip(self.journal, self.replies, replies):
                if before != now:
                    raise ExploreError(f"{line}: was answered {before}, and now {now}")
        except BaseException as error:
            if program is not None:
                program.close()
            if isinstance(error, ProgramEnded):
                options = options_of_words(self.start.options, "explore", self.start.folder)
                faults = faults_of(options).values()
                raise ProgramEnded("; ".join([str(error), *faults])) from error
            raise
        return program

    def restart(self) -> None:
        """Ends the program. The next use starts it again, with all edits: only the states that it
        kept are lost."""
        self._setup = self._script = None
        self._undone.clear()
        if self._running is not None:
            running, self._running = self._running, None
            self.asked.turn = 0
            running.close()

    def twin(
        self, edits: Optional[Sequence[str]] = None, stride: Optional[int] = None
    ) -> "Machine":
        """Another program with the same edits, or with these; with a stride of its own, if any."""
        if edits is None:
            start = self.start if stride is None else self.start.with_stride(stride)
            return Machine(start, list(self.journal), list(self.replies), seconds=self.seconds)
        twin = Machine(self.start, seconds=self.seconds)
        try:
            twin.edit_all(edits)
        except BaseException:
            twin.close()
            raise
        return twin

    def close(self) -> None:
        self.is_closed = True
        self.restart()

    # Lines

    def ask(self, line: str) -> str:
        """The reply to a line that has one. An edit that was taken is kept."""
        (reply,) = self.edit_all([line]) if is_edit(line) else self.ask_all([line])
        return reply

    def edit_all(self, lines: Sequence[str]) -> list[str]:
        """The replies to edits, and to questions between them. All edits that were taken are kept,
        or none if the program ends."""
        self.begin()  # here, where Ctrl-C can stop it
        with INTERRUPTS.held():
            replies = list(self.ask_all(lines, SHORT_SENT_AHEAD))
            self._note([pair for pair in zip(lines, replies) if is_taken(pair[1])])
        return replies

    def _note(self, taken: Sequence[tuple[str, str]]) -> None:
        """These edits were made."""
        self.journal += [line for line, _ in taken]
        self.replies += [reply for _, reply in taken]
        if self.file is not None and taken:
            self.file.add(self.journal, len(taken))
        for word in {first_word(line) for line, _ in taken}:
            if word in OF_EVENTS:
                self._script = None
            else:
                self._setup = None

    @contextmanager
    def edits_together(self) -> Iterator[None]:
        """A part in which no edit waits for the journal to be on the disk."""
        if self.file is None:
            yield
            return
        with self.file.together():
            yield

    def take_back(self, count: int) -> None:
        """Takes the last edits back, as if they hadn't been made. The program refuses to take
        `version 2` back: then the next use starts it again, with the edits that are left."""
        with INTERRUPTS.held():
            left = len(self.journal) - count
            taken = list(zip(self.journal[left:], self.replies[left:]))
            del self.journal[left:], self.replies[left:]
            if self.file is not None:
                self.file.take_back(count)
            self._setup = self._script = None
            self.asked.turn = 0  # the last question was about another past
            with suppress(ExploreError):
                undone = self.ask_all([UNDO] * count, SHORT_SENT_AHEAD)
                if self._running and all(map(is_taken, undone)):
                    self._undone += taken[::-1]
                    return
            self.restart()

    def make_again(self, edits: Sequence[str]) -> None:
        """Makes these edits again, which were taken back. If it is long since, the program hasn't
        them any more: then they are sent."""
        self.begin()
        with INTERRUPTS.held():
            first = len(self._undone) - len(edits)
            again = self._undone[max(0, first) :][::-1]
            if [line for line, _ in again] == list(edits):
                if all(map(is_taken, self.ask_all([REDO] * len(edits), SHORT_SENT_AHEAD))):
                    del self._undone[first:]
                    self._note(again)
                    return
                self.restart()
            self.edit_all(edits)

    def ask_all(self, lines: Sequence[str], ahead: int = SENT_AHEAD) -> Iterator[str]:
        """The replies to lines, one by one. Edits among them aren't kept."""
        for part in in_parts(lines, ahead):
            if any(map(is_of_drive, part)):
                for it in part:
                    yield from [reply_to(self, it)] if is_of_drive(it) else self._together([it])
            else:
                yield from self._together(part)

    def _together(self, lines: Sequence[str]) -> Iterator[str]:
        """The replies to lines that are sent together."""
        if self._undone and any(map(is_edit, lines)):
            self._undone.clear()
        with self._started_again():
            replies = self.limited().replies(lines)
            self.asked.note(it for it, reply in zip(lines, replies) if not is_refused(reply))
            yield from replies

    def rows(self, lines: Sequence[bytes]) -> Iterator[bytes]:
        """The replies to many questions, unread, of one line each. The questions are of one kind,
        about turns that ascend, and are sent as they are. None may be refused."""
        with self._started_again():
            for part in in_parts(lines, SHORT_SENT_AHEAD):
                block = self.limited().block(part)
                first, last = part[0].decode(), part[-1].decode()
                refusal = block.find(b"refused ")
                if refusal >= 0:
                    raise Refused(first, block[refusal:].splitlines()[0].decode("ascii"))
                self.asked.note([first, last])
                yield from block.splitlines()

    def of_each_turn(self, word: str, turns: range) -> Iterator[bytes]:
        """The replies to a line, such as `regs 5`, for each of these turns, as `rows` has them."""
        return self.rows([f"{word} {it}".encode() for it in turns])

    def limited(self) -> Program:
        """The program, with the time that its replies may take from here on."""
        program = self.begin()
        program.seconds = self.seconds
        return program

    @contextmanager
    def _started_again(self) -> Iterator[None]:
        """If the program ends, or Ctrl-C or anything else stops what waits for its replies, the
        next use starts it again, with all edits."""
        try:
            yield
        except ProgramEnded as error:
            if self.is_closed:
                raise
            self.restart()
            raise ProgramEnded(f"{error}; the next line starts it again, with all edits") from error
        except BaseException as error:
            is_in_step = isinstance(error, (ExploreError, GeneratorExit))
            if isinstance(error, TimedOut) or not is_in_step:
                self.restart()
            raise

    def read(self, line: str) -> str:
        """The reply to a question, which mustn't be refused."""
        return next(self.read_all([line]))

    def read_all(self, lines: Sequence[str], ahead: int = SENT_AHEAD) -> Iterator[str]:
        """The replies to questions, none of which may be refused."""
        for line, reply in zip(lines, self.ask_all(lines, ahead)):
            if is_refused(reply):
                raise Refused(line, reply)
            yield reply

    def check_taken(self, line: str) -> None:
        """An error that says why, if the program refuses this question."""
        reply = self.ask(line)
        if is_refused(reply):
            why = explanation(line, reply, self.setup.version)
            raise ExploreError(f"{reply}{f': {why}' if why else ''}")

    # The past. What the program tells of it is kept until an edit changes it.

    @property
    def setup(self) -> Setup:
        if self._setup is None:
            self._setup = Setup.of(self.read("setup"))
        return self._setup

    @property
    def script(self) -> list[Event]:
        """All events, in the order in which they happen."""
        if self._script is None:
            self._script = [Event.of(it) for it in self.read("events").splitlines()[1:]]
        return self._script

    def event(self, number: int) -> Optional[Event]:
        return next((it for it in self.script if it.number == number), None)

    def turns_of(self, kind: str) -> list[int]:
        """The turns of the events that begin with this word, such as `key`."""
        return [it.turn for it in self.script if it.text.startswith(kind)]

    def patches(self) -> Iterator[str]:
        """The lines that make the patches."""
        return (without_zeros(it.split()) for it in self.read("patches").splitlines()[1:])

    # Questions

    def registers(self, turn: int) -> Registers:
        return Registers.of(self.read(f"regs {turn}"))

    def devices(self, turn: int) -> Devices:
        return Devices.of(self.read(f"devices {turn}"))

    def pages(self, turn: int) -> Pages:
        return Pages.of(self.read(f"pages {turn}"))

    def places(self, asked: Sequence[tuple[int, Mode, int]]) -> Iterator[Optional[int]]:
        """The physical address of each virtual address, for a read in a mode before a turn, or None
        if memory management aborts it. In a mode without pages, which `translate` lacks, each read
        is aborted while mapping is on, and otherwise is one of kernel mode."""
        bare = sorted({turn for turn, mode, _ in asked if mode not in SPACES})
        replies = zip(bare, self.read_all([f"pages {it}" for it in bare]))
        aborting = {turn for turn, reply in replies if Pages.of(reply).sr0 & 1}
        lines = [
            f"translate {turn} {(mode if mode in SPACES else Mode.KERNEL).value} {address:o}"
            for turn, mode, address in asked
        ]
        for (turn, mode, _), reply in zip(asked, self.read_all(lines, SHORT_SENT_AHEAD)):
            place = reply.split()[1]
            is_aborted = place == "abort" or mode not in SPACES and turn in aborting
            yield None if is_aborted else int(place, 8)

    def words(self, turn: int, address: int, count: int = 1) -> list[int]:
        return words_of(self.read(f"mem {turn} {address:o} {count}"))

    def word(self, turn: int, address: int) -> int:
        return self.words(turn, address)[0]

    def single_words(self, lines: Sequence[str]) -> Iterator[int]:
        """The word of the reply to each of these lines of `mem` or `dsk`, which ask for one."""
        return (int(it[4:], 8) for it in self.rows([it.encode() for it in lines]))

    def named(self, drive: int) -> str:
        """What a line says before the number of a word of this drive."""
        return f"{drive:o} " if self.setup.version == 2 else ""

    def disk_line(self, turn: int, drive: int, index: int, count: int = 1) -> str:
        return f"dsk {turn} {self.named(drive)}{index:o} {count}"

    def disk_word(self, turn: int, drive: int, index: int) -> int:
        return words_of(self.read(self.disk_line(turn, drive, index)))[0]

    def last(self, turn: int, address: int) -> Optional[LastWrite]:
        return LastWrite.of(self.read(f"last {turn} {address:o}"))

    # Searches, of the turns of a range

    def found(self, word: str, turns: range, sought: str) -> Optional[int]:
        """The turn that a search of these turns replies, or None. The search begins with this word,
        such as `first`. The machine is at the turn after the one found, or at the end of them."""
        turn = self.read(f"{word} {turns.start} {turns.stop} {sought}").split()[1]
        found = None if turn == "none" else int(turn)
        self.asked.reach(turns.stop if found is None else found + 1)
        return found

    def printed_in(self, numbers: Sequence[int]) -> Iterator[int]:
        """The turns in which the bytes of these numbers, from 0 on, were printed. They must be of
        the bytes before a turn that was asked about: the machine would run on to another one."""
        for reply in self.read_all([f"when {it}" for it in numbers], SHORT_SENT_AHEAD):
            yield int(reply.split()[1])

    def writes(self, turns: range, address: int) -> tuple[list[str], range]:
        """A line for each of the first writes to a core word in these turns, and the turns that are
        left."""
        return self.listed(f"writes {turns.start} {turns.stop} {address:o}", turns)

    def reads(self, turns: range, address: int) -> tuple[list[str], range]:
        """The same of the first reads. The program runs these turns apart: the machine is at the
        first of them then."""
        found = self.listed(f"reads {turns.start} {turns.stop} {address:o}", turns)
        self.asked.turn = turns.start
        return found

    def transfers(self, turns: range) -> tuple[list[str], range]:
        """A line for each of the first functions of the disk that were done in these turns, and the
        turns that are left."""
        return self.listed(f"transfers {turns.start} {turns.stop}", turns)

    def accesses(self, turns: range) -> tuple[list[TurnAccesses], range]:
        """What the first of these turns, at most 64, have in them, and the turns that are left. The
        program runs these turns apart, as for `reads`."""
        found, is_all = accesses_of(self.read(f"accesses {turns.stop} {len(turns)}"))
        self.asked.reach(turns.stop)
        self.asked.turn = turns.start
        return found, range(turns.stop if is_all else found[-1].turn.turn + 1, turns.stop)

    def accesses_of(self, turns: range) -> Iterator[TurnAccesses]:
        """The same of all these turns."""
        for part in in_parts(turns, MOST_TURNS_OF_A_TRAIL):
            left = range(part[0], part[-1] + 1)
            while left:
                found, left = self.accesses(left)
                yield from found

    def moves_of(self, turns: range) -> Iterator[TurnMoves]:
        """What these turns make of what. The program runs them apart, as for `reads`."""
        for part in in_parts(turns, MOST_TURNS_OF_A_TRAIL):
            found = moves_of(self.read(f"moves {part[-1] + 1} {len(part)}"))
            self.asked.reach(part[-1] + 1)
            self.asked.turn = part[0]
            yield from found

    def listed(self, line: str, turns: range) -> tuple[list[str], range]:
        """The lines that a search of these turns lists, which begin with a turn each, and the turns
        that are left."""
        lines, is_all = listed(self.read(line))
        left = range(turns.stop if is_all else int(lines[-1].split()[0]) + 1, turns.stop)
        self.asked.reach(left.start)
        return lines, left

    def text(self, turn: int) -> bytes:
        return text_of(self.read(f"text {turn}"))

    def text_from(self, turn: int, byte: int) -> bytes:
        """What was printed before the turn, from this byte on."""
        return text_of(self.read(f"text {turn} from {byte}"))

    def text_length(self, turn: int) -> int:
        """How many bytes were printed before the turn."""
        return int(self.read(f"text {turn}").partition(":")[0].split()[1])

    @staticmethod
    def trail_lines(first: int, count: int) -> list[str]:
        """The questions that list these turns."""
        ends = range(first, first + count, MOST_TURNS_OF_A_TRAIL)
        parts = [(at, min(MOST_TURNS_OF_A_TRAIL, first + count - at)) for at in ends]
        return [f"trail {at + part} {part}" for at, part in parts]

    def turns(self, first: int, count: int) -> Iterator[Turn]:
        """These turns, by as many trails as it takes. A reply of a trail has some 1,300 bytes."""
        for reply in self.read_all(self.trail_lines(first, count)):
            yield from turns_of(reply)
