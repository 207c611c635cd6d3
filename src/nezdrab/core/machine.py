"""A recorded machine: each turn can be asked about, and each edit changes the past."""
from __future__ import annotations

import copy
import operator
import os
import re
import weakref
from contextlib import contextmanager
from functools import partial
from heapq import merge
from pathlib import Path
from typing import Any, Iterable, Iterator, NoReturn, Optional, Sequence, SupportsIndex
from typing import TypeVar, Union, overload

from . import questions
from .all_words import written
from .arguments import Key, Option, StrPath, asks, event_text, options_in_words
from .engine import MOST_TURNS_OF_A_TRAIL, SHORT_SENT_AHEAD, Machine as Engine, Refused, Start
from .engine import is_refused
from .errors import ExploreError
from .found import Found, Transfer, going_on
from .in_words import counted
from .language import explanation, is_edit
from .moves_of_turns import TurnMoves
from .options import Options, check_session, faults_of, option_lines, options_of_session
from .options import options_of_words, words_of_options
from .past import Event
from .places import REGISTERS, is_register, place_of, register_of
from .programs import found_program
from .questions import Address, ModeName, Question, decimal, octal
from .register_search import items_at, reads_at, writes_at
from .replies import LastWrite, Mode, TurnAccesses, WordRead
from .session_file import made_edits
from .struck import StruckKey, struck_keys
from .symbols import ADDRESS, OCTAL, Symbols
from .trials import Trials
from .walks import Walks
from .words import Core, Drive
from .written_files import Output

Answer = TypeVar("Answer")


class Machine(Trials, Walks):
    """A recorded PDP-11/40: what it starts from, the script of its events, and any turn of its run.

    `Machine(core="core.image", disk="rk05.disk", start=0o1000)` starts with these images; without
    them all words are 0. Options are those of docs/LANGUAGE.md: `core`, `disk`, `disk1` to `disk7`
    and `tape` are paths of files, which are read and never written; `units` of core are 1 to 31,
    of 4,096 words each; `start` is an address; `stride` is the number of turns between kept states.
    A file or a number that the program would refuse is a NezdrabError.

    An answer is that of the handbook machine run from power-up, with the past as it is now. What
    can't be taken is refused: Refused has `number`, `name` and `sentence`, and nothing has changed.
    If the program ends, the question raises ProgramEnded; if its replies take longer than `seconds`
    (None: as long as it takes), TimedOut. Ctrl-C stops a question too. After each of these the
    machine goes on with all its edits: the next question runs its turns again.

    A machine is for one thread. `close`, the end of a `with`, or that nobody has the machine any
    more ends its program."""

    symbols: Symbols

    def __init__(
        self,
        *,
        program: Optional[StrPath] = None,
        seconds: Optional[float] = None,
        **options: Option,
    ):
        self._begin(options_in_words(options), program, seconds)

    def _begin(
        self, options: Options, program: Optional[StrPath], seconds: Optional[float]
    ) -> None:
        faults = faults_of(options)
        if faults:
            raise ExploreError("; ".join(faults.values()))
        path = found_program("search") if program is None else os.path.abspath(program)
        start = Start(path, words_of_options(options), Path.cwd())
        self._take(Engine(start, seconds=seconds), Symbols())

    def _take(self, engine: Engine, symbols: Symbols) -> None:
        self._engine, self.symbols = engine, symbols
        weakref.finalize(self, end_of_its_process, engine, os.getpid())

    @classmethod
    def of_session(
        cls,
        path: StrPath,
        *,
        program: Optional[StrPath] = None,
        seconds: Optional[float] = None,
        skips_refused: bool = False,
        **options: Option,
    ) -> Machine:
        """The machine of a session: its edits are made, and its questions aren't asked. Options
        stand in its comment lines `#! OPTIONS`, or in a file beside it with the ending .args; one
        that is given here takes the place of the one there. A NezdrabError if the session can't be
        read. The first line that is refused raises Refused, unless `skips_refused`: then such
        lines change nothing, as in a run of the session."""
        session = Path(path)
        check_session(session)
        machine = cls.__new__(cls)
        given = options_in_words(options)
        machine._begin({**options_of_session(session), **given}, program, seconds)
        try:
            refused = list(made_edits(machine._engine, session))
            if refused and not skips_refused:
                it = refused[0]
                raise Refused(f"{path}:{it.number}: {it.line}", it.reply, it.why)
        except BaseException:
            machine.close()
            raise
        return machine

    def __repr__(self) -> str:
        options = " ".join(self._engine.start.options)
        return f"<Machine {options}: {counted(len(self._engine.journal), 'edit')}>"

    def __enter__(self) -> Machine:
        return self

    def __exit__(self, *what: object) -> None:
        self.close()

    def __copy__(self, memo: object = None) -> Machine:
        return self.fork()

    __deepcopy__ = __copy__

    def __reduce__(self) -> NoReturn:
        raise TypeError(
            "a machine can't be pickled, since its program runs: fork() gives another one, and "
            "save() writes a session"
        )

    def close(self) -> None:
        """Ends the program, as the end of the machine does. A question or an edit after that raises
        ProgramEnded."""
        self._engine.close()

    def save(self, path: StrPath, *, overwrite: bool = False) -> None:
        """Writes options and edits as a session: `of_session` gives the same machine of it, with
        the same numbers of events, and the programs run it, with these options. A NezdrabError if
        the file is there already, unless `overwrite`, or if it can't be written."""
        start = self._engine.start
        options = options_of_words(start.options, "Machine", start.folder)
        lines = [*option_lines(options), *self._engine.journal]
        text = "".join(f"{it}\n" for it in lines)
        Output("overwrite=True", overwrite).write(Path(path), text.encode(errors="surrogateescape"))

    @property
    def seconds(self) -> Optional[float]:
        """How long the replies to lines that are sent together may take, or None."""
        return self._engine.seconds

    @seconds.setter
    def seconds(self, seconds: Optional[float]) -> None:
        self._engine.seconds = seconds

    # Addresses by their names

    def read_symbols(self, path: StrPath, *modes: ModeName, base: int = 0) -> int:
        """Takes the names in a file beside those that are there, as names of addresses of these
        modes, kernel and user without any; returns how many there are. Files are those of explore's
        command `symbols`. Those that are relocatable count from `base`. A NezdrabError if the file
        can't be read, or has no name."""
        from .aout import names_of  # which reads all of explore

        found = [it.moved(base) for it in names_of(Path(path)).symbols]
        self.symbols.add(found, [Mode(it) for it in modes] or [Mode.KERNEL, Mode.USER])
        return len(found)

    def _number(self, address: Address, mode: Optional[Mode] = None) -> int:
        if not isinstance(address, str):
            return operator.index(address)
        if re.fullmatch(ADDRESS, address) is None:
            raise ExploreError(f"{address!r} is no address: a symbol or an octal number, +n or -n")
        name = re.split("[+-]", address)[0]
        if not re.fullmatch(OCTAL, name) and not self.symbols.named(name, mode):
            raise ExploreError(f"there is no symbol {name!r}; Machine.read_symbols takes a file's")
        return self.symbols.number(address, mode)

    def _place(self, address: Address) -> int:
        """The address of a word of core, or the place of a register on the bus."""
        if isinstance(address, str) and address.upper() in REGISTERS:
            return place_of(self._engine, self.symbols, address)
        return register_of(self._engine, self._number(address))

    # Edits

    def edit(self, line: str) -> str:
        """Makes the edit of a line of the language, and returns its reply: `ok` or `event E`."""
        if not is_edit(line):
            raise ExploreError(f"{line}: this is no edit; Machine.ask asks questions")
        (reply,) = self._edit([line])
        return reply

    def _edit(self, lines: Sequence[str]) -> Sequence[str]:
        """Makes edits, all of them or none. Those that something stops aren't made."""
        engine, before = self._engine, len(self._engine.journal)
        try:
            replies = engine.edit_all(lines)
        except BaseException:
            del engine.journal[before:], engine.replies[before:]
            engine.restart()
            raise
        for line, reply in zip(lines, replies):
            if is_refused(reply):
                if len(engine.journal) > before:
                    engine.take_back(len(engine.journal) - before)
                raise self._refusal(line, reply)
        return replies

    @property
    def core(self) -> Core:
        """The words of core at power-up."""
        return Core(self._edit, self._number, lambda it: self.mem(0, it)[0])

    @property
    def disk(self) -> Drive:
        """The words of the one drive of version 1 at power-up."""
        return self.drive(None)

    def drive(self, drive: Optional[SupportsIndex]) -> Drive:
        """The words of a drive, 0 to 7, at power-up, from version 2 on."""
        return Drive(self._edit, lambda it: self.dsk(0, it, drive=drive)[0], drive)

    def put_tape(self, tape: bytes) -> None:
        """Puts a paper tape into the reader as of power-up: 98 bytes at most."""
        self._edit([" ".join(["tape", *map(octal, tape)])])

    def delay(self, **turns: SupportsIndex) -> None:
        """How many turns an operation of the printer, reader, punch or disk takes as of power-up,
        and the period of the clock. With 0 it ends, or ticks, by events alone."""
        self._edit([f"delay {name} {decimal(it)}" for name, it in turns.items()])

    def use_eight_drives(self) -> None:
        """Version 2 from here on: eight drives, each named by its number."""
        self._edit(["version 2"])

    def at(
        self,
        turn: SupportsIndex,
        event: str = "",
        *,
        key: Optional[Key] = None,
        switches: Optional[SupportsIndex] = None,
    ) -> int:
        """Puts an event at a turn, as the last one of the turn; returns the event's number. It is
        `key=`, a byte or a character, `switches=`, a word, or one of "continue", "tick", "printer",
        "reader", "punch" and "disk"."""
        return int(self.edit(f"at {decimal(turn)} {event_text(event, key, switches)}").split()[1])

    def alter(
        self,
        number: SupportsIndex,
        event: str = "",
        *,
        turn: Optional[SupportsIndex] = None,
        key: Optional[Key] = None,
        switches: Optional[SupportsIndex] = None,
    ) -> None:
        """Gives the event with this number another turn, or another event, or both."""
        text = event_text(event, key, switches)
        there = self._engine.event(operator.index(number)) or Event(0, 0, "tick")
        at = there.turn if turn is None else operator.index(turn)
        self._edit([f"alter {decimal(number)} {at} {text or there.text}"])

    def drop(self, number: SupportsIndex) -> None:
        """Takes the event with this number out."""
        self._edit([f"drop {decimal(number)}"])

    def fork(self) -> Machine:
        """Another machine with the same past and names, in a program of its own; a copy is one."""
        other = type(self).__new__(type(self))
        other._take(self._engine.twin(), copy.deepcopy(self.symbols))
        return other

    @contextmanager
    def altered(
        self,
        number: SupportsIndex,
        event: str = "",
        *,
        turn: Optional[SupportsIndex] = None,
        key: Optional[Key] = None,
        switches: Optional[SupportsIndex] = None,
    ) -> Iterator[Machine]:
        """Another machine for as long as a `with` takes, in which an event is as `alter` makes it.
        This machine stays as it is."""
        with self.fork() as other:
            other.alter(number, event, turn=turn, key=key, switches=switches)
            yield other

    # Questions

    @overload
    def ask(self, question: str) -> str:
        ...

    @overload
    def ask(self, question: Question[Answer]) -> Answer:
        ...

    def ask(self, question: Union[str, Question[Any]]) -> Any:
        """The answer to a question, or the reply to a line of the language that asks."""
        asked = questions.question_of(question)
        return asked.read(list(self._replies(asked.lines(self._number))))

    @overload
    def ask_all(self, asked: Iterable[str]) -> list[str]:
        ...

    @overload
    def ask_all(self, asked: Iterable[Question[Answer]]) -> list[Answer]:
        ...

    def ask_all(self, asked: Iterable[Any]) -> list[Any]:
        """The answers to questions, whose lines are sent ahead: for many this is some five times as
        quick as one by one. The first that is refused raises Refused."""
        them = [questions.question_of(it) for it in asked]
        lines = [it.lines(self._number) for it in them]
        replies = self._replies([line for part in lines for line in part])
        return [it.read([next(replies) for _ in part]) for it, part in zip(them, lines)]

    def _replies(self, lines: Sequence[str]) -> Iterator[str]:
        for line, reply in zip(lines, self._engine.ask_all(lines, SHORT_SENT_AHEAD)):
            if is_refused(reply):
                raise self._refusal(line, reply)
            yield reply

    def _refusal(self, line: str, reply: str) -> Refused:
        why = questions.count_fault(line, reply)
        return Refused(line, reply, why or explanation(line, reply, self._engine.setup.version))

    regs = asks(questions.regs)
    mem = asks(questions.mem)
    dsk = asks(questions.dsk)
    text = asks(questions.text)
    punched = asks(questions.punched)
    last = asks(questions.last)
    devices = asks(questions.devices)
    pages = asks(questions.pages)
    trail = asks(questions.trail)
    first = asks(questions.first)
    latest = asks(questions.latest)
    counts = asks(questions.counts)
    change = asks(questions.change)
    when = asks(questions.when)
    translate = asks(questions.translate)
    virtual = asks(questions.virtual)
    fades = asks(questions.fades)
    events = asks(questions.events)
    setup = asks(questions.setup)
    patches = asks(questions.patches)

    # Searches that go on after what they have found

    def writes(
        self, address: Address, *, until: SupportsIndex, since: SupportsIndex = 0
    ) -> Iterator[LastWrite]:
        """The turns of the range that write a word of core, in their order: `.turn`, the `.writer`,
        cpu or disk, and the `.word`; of a turn that writes it more than once the last write. The
        address may be a register on the bus, as "TPB" or 0o777566."""
        place = self._place(address)
        if is_register(place):
            return items_at(writes_at, self._engine, since, until, place)
        found = partial(questions.writes, address, until=until)
        return going_on(lambda it: self.ask(found(since=it)), operator.index(since), behind)

    def writes_in(
        self, begin: Address, end: Address, *, until: SupportsIndex, since: SupportsIndex = 0
    ) -> Iterator[tuple[int, LastWrite]]:
        """The same for the words of core from `begin` to `end`, that one too: each write with the
        address of its word. Words that aren't written take hardly any time."""
        first, turns = self._number(begin), range(operator.index(since), operator.index(until))
        words = written(self._engine, turns, range(first, self._number(end) + 1, 2))

        def of_word(address: int, part: range) -> Iterator[tuple[int, LastWrite]]:
            found = self.writes(address, since=part.start, until=part.stop)
            return ((address, it) for it in found)

        yield from merge(*map(of_word, words, words.values()), key=lambda it: (it[1].turn, it[0]))

    def reads(
        self, address: Address, *, until: SupportsIndex, since: SupportsIndex = 0
    ) -> Iterator[WordRead]:
        """The turns of the range that read a word of core, in their order: `.turn`, the `.reader`,
        cpu or disk, and the `.word`; of a turn that reads it more than once the first read. The
        address may be a register on the bus, as "TKB" or 0o777562."""
        place = self._place(address)
        if is_register(place):
            return items_at(reads_at, self._engine, since, until, place)
        found = partial(questions.reads, address, until=until)
        return going_on(lambda it: self.ask(found(since=it)), operator.index(since), behind)

    def accesses(
        self, turn: SupportsIndex, count: SupportsIndex = 1
    ) -> Iterator[TurnAccesses]:
        """What the last `count` turns before this one have in them, in their order: the `.turn` as
        `trail` gives it, the `.mode` before it, its `.events`, the bytes that are `.printed` and
        `.punched`, the function of the disk that is `.done`, and the `.cycles` of the processor on
        the bus, each with its `.kind`, `.address`, and `.value`, None if nothing replies."""
        end, turns = operator.index(turn), operator.index(count)

        def found(begin: int) -> Found[TurnAccesses]:
            until = min(begin + MOST_TURNS_OF_A_TRAIL, end) if 0 < turns <= end else end
            it = self.ask(questions.accesses(until, until - begin))
            return Found(it.items, it.is_all and until == end)

        return going_on(found, end - turns, lambda it: it.turn.turn + 1)

    def moves(
        self, turn: SupportsIndex, count: SupportsIndex = 1
    ) -> Iterator[TurnMoves]:
        """What the last `count` turns before this one make of what, in their order. In the
        beginning of the `.turn` TKB becomes the byte of a `.key`, and the `.switches` the word of
        an event, each by its number among the turn's events, from 0 on; PRB becomes a byte of the
        `.tape`; and the `.disk` moves words. Then the act makes each cell of `.made` of these
        cells, or of none, of constants. A cell that isn't there is made of itself alone: it stays,
        or changes as by INC. Addresses, branches and PC are no data."""
        end, turns = operator.index(turn), operator.index(count)

        def found(begin: int) -> Found[TurnMoves]:
            until = min(begin + MOST_TURNS_OF_A_TRAIL, end) if 0 < turns <= end else end
            return Found(self.ask(questions.moves(until, until - begin)), until == end)

        return going_on(found, end - turns, lambda it: it.turn + 1)

    def struck(
        self, *, until: SupportsIndex, since: SupportsIndex = 0
    ) -> Iterator[StruckKey]:
        """What became of each key of the range: its `.event`, and its `.fate`, a Fate, in the
        `.turn` that is so many turns later as `.delay`. OVERWRITTEN `.by` another key, and DROPPED
        by RESET, it is lost; READ by the program it isn't; or it WAITS before `until`."""
        return struck_keys(self._engine, range(operator.index(since), operator.index(until)))

    def transfers(
        self, *, until: SupportsIndex, since: SupportsIndex = 0
    ) -> Iterator[Transfer]:
        """The functions of the disk that are done in the range, in their order."""
        found = partial(questions.transfers, until=until)
        return going_on(lambda it: self.ask(found(since=it)), operator.index(since), behind)

    def changes(
        self,
        index: SupportsIndex,
        *,
        until: SupportsIndex,
        drive: Optional[SupportsIndex] = None,
        since: SupportsIndex = 0,
    ) -> Iterator[int]:
        """The turns of the range that change a word of the drive, in their order."""
        turn = self.change(index, drive=drive, since=since, until=until)
        while turn is not None:
            yield turn
            turn = self.change(index, drive=drive, since=turn + 1, until=until)

    def find(
        self,
        turn: SupportsIndex,
        begin: Address,
        end: Address,
        word: SupportsIndex,
        *,
        mask: Optional[SupportsIndex] = None,
    ) -> Iterator[int]:
        """The addresses of the words of core from `begin` to `end`, that one too, that are this
        word before the turn, or agree with it in the bits of the mask."""
        found = partial(questions.find, turn, end=end, word=word, mask=mask)
        return going_on(lambda it: self.ask(found(it)), self._number(begin), lambda it: it + 2)

    def finddsk(
        self,
        turn: SupportsIndex,
        begin: SupportsIndex,
        end: SupportsIndex,
        word: SupportsIndex,
        *,
        mask: Optional[SupportsIndex] = None,
        drive: Optional[SupportsIndex] = None,
    ) -> Iterator[int]:
        """As `find`, the numbers of the words of the drive."""
        found = partial(questions.finddsk, turn, end=end, word=word, mask=mask, drive=drive)
        return going_on(lambda it: self.ask(found(it)), operator.index(begin), lambda it: it + 1)


def behind(it: Union[LastWrite, WordRead, Transfer]) -> int:
    """The turn after that of something found."""
    return it.turn + 1


def end_of_its_process(engine: Engine, process: int) -> None:
    """Closes a machine that nobody has any more; not in a process that os.fork has made since."""
    if os.getpid() == process:
        engine.close()
