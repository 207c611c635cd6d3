"""Which turns read a word of core, against runs in which the word is another one: up to the first
read nothing else may change, and after it something must. And against the rules of what a turn
does, and programs of a few words whose reads are known."""
import random
from unittest import mock

from nezdrab.analysis.explorer import Explorer
from nezdrab.analysis.finder import Finder
from nezdrab.analysis.transfers import functions_done, with_stays, words_of_core
from nezdrab.core.engine import MOST_WORDS, Machine, Start
from nezdrab.core.errors import ExploreError
from nezdrab.core.hardware import IO_PAGE
from nezdrab.core.replies import WordRead
from nezdrab.shell.command_table import COMMANDS
from tests.checks.flows import each_flow
from tests.checks.word_reads import READING, first_reads_in

from .explore_case import BUILT
from .machines import OnMachine
from .systems import KEYS, LEDGER, OfSystems
from .terminal import AtTerminal
from .test_turn_flow import BEGIN, TOP, TURNS, program

PROGRAMS, WORDS_OF_EACH, PROGRAMS_AT_ONCE = 12, 4, 40


def before(machine: Machine, turn: int, address: int, top: int) -> bytes:
    """The state before a turn, except this word of core."""
    lines = [f"{it} {turn}" for it in ("regs", "devices", "pages", "text", "punched")]
    state = "\n".join(machine.read_all(lines)).encode()
    places = range(0, top, 2 * MOST_WORDS)
    asked = [b"mem %d %o %d" % (turn, it, MOST_WORDS) for it in places]
    core = bytearray(b"".join(machine.rows(asked)))
    part, word = divmod(address // 2, MOST_WORDS)
    at = part * (len(core) // len(places)) + len(b"mem") + 7 * word
    core[at : at + 7] = b""
    return state + core


def reads_in(machine: Machine, turns: range, address: int) -> list[WordRead]:
    return [it for found, _ in Finder(machine).reads(turns, address) for it in found]


class Patched(OfSystems):
    """A word that is another one from power-up on."""

    def setUp(self) -> None:
        super().setUp()
        self.read = self.told = 0

    def read_by_processor(self, machine: Machine, turns: range) -> set[int]:
        """The words that the processor reads in these turns, up to one that can't be followed:
        `end`."""
        found: set[int] = set()
        self.end = turns.stop
        for _, flow, fault in each_flow(machine, turns):
            if fault:
                self.end = flow.turn
                break
            found |= {it.word for it in flow.cycles if it.is_read_of(it.word)}
        return {it for it in found if it < IO_PAGE}

    def check_word(
        self, machine: Machine, chance: random.Random, address: int, turns: range, top: int
    ) -> None:
        """The first read of a word, if nothing writes it before."""
        read = next(iter(reads_in(machine, turns, address)), None)
        written = next((int(it.split()[0]) for it in machine.writes(turns, address)[0]), None)
        if written is not None and (read is None or written < read.turn):
            read, turns = None, range(written)
        end = turns.stop if read is None else read.turn
        if not end and read is None:
            return
        was = machine.word(0, address)
        last = None if read is None else before(machine, read.turn + 1, address, top)
        same = before(machine, end, address, top)
        changes = 0
        for word in (was ^ 0o177777, was ^ 1, was ^ chance.randrange(1, 0o200000)):
            list(machine.ask_all([f"core {address:o} {word:o}"]))
            self.assertEqual(before(machine, end, address, top), same, f"{address:o} {end}")
            if read is not None:
                changes += before(machine, read.turn + 1, address, top) != last
        list(machine.ask_all([f"core {address:o} {was:o}"]))
        self.read += read is not None
        self.told += changes > 0

    def all_reads(self, machine: Machine, turns: range) -> set[int]:
        """The words that the turns read, up to `end`."""
        found = self.read_by_processor(machine, turns)
        done = functions_done(machine, range(turns.start, self.end))
        for it, stays in with_stays(machine, [it for it in done if it.function in READING]):
            found.update(words_of_core(it.address & ~1, it.count, stays))
        return found

    def course(self, machine: Machine, turns: range, words: set[int]) -> list[bytes]:
        """The registers before each turn, and after the last one the devices and these words."""
        lines = [b"regs %d" % it for it in range(turns.start, turns.stop + 1)]
        found = list(machine.rows(lines))
        end = turns.stop
        lines = [b"%b %d" % (it, end) for it in (b"devices", b"pages", b"text", b"punched")]
        lines += [b"mem %d %o 1" % (end, it) for it in sorted(words)]
        return found + [it.encode() for it in machine.read_all([it.decode() for it in lines], 100)]

    def check_all(self, machine: Machine, turns: range, top: int, chance: random.Random) -> None:
        """All words that the turns don't read are others at once, and the turns stay the same."""
        words = self.all_reads(machine, turns)
        turns = range(turns.start, self.end)
        course = self.course(machine, turns, words)
        others = sorted(set(range(0, top, 2)) - words)
        edits = [f"core {it:o} {chance.randrange(0o200000):o}" for it in others]
        self.assertEqual(set(machine.ask_all(edits, 1000)), {"ok"})
        for now, before in zip(self.course(machine, turns, words), course):
            self.assertEqual(now, before)

    def machine_of(self, seed: int) -> Machine:
        machine = Machine(Start(BUILT.program, ["--units", "4"], self.folder))
        self.addCleanup(machine.close)
        list(machine.ask_all(list(program(random.Random(seed))), 1000))
        return machine

    def test_words_that_nothing_reads_change_nothing(self) -> None:
        for seed in range(PROGRAMS_AT_ONCE):
            with self.subTest(seed=seed):
                self.check_all(self.machine_of(seed), range(TURNS), TOP, random.Random(seed))
        for words, turns in ((LEDGER, range(20_000)), (KEYS, range(3_000))):
            self.check_all(self.machine(words), turns, 0o60000, random.Random(1))

    def test_words_that_are_read_change_something(self) -> None:
        for seed in range(PROGRAMS):
            chance, machine = random.Random(seed), self.machine_of(seed)
            words = self.read_by_processor(machine, range(TURNS))
            low = [it for it in sorted(words) if it < BEGIN]
            for address in chance.sample(low, min(len(low), WORDS_OF_EACH)):
                with self.subTest(seed=seed, address=f"{address:o}"):
                    self.check_word(machine, chance, address, range(self.end), TOP)
        self.assertGreater(self.read, 30)
        self.assertGreater(self.told, 0.9 * self.read)


class AsTheRulesTell(OfSystems):
    """The reads that the program finds are those of the rules of what a turn does."""

    def compare(self, machine: Machine, turns: range, address: int) -> int:
        """How many turns have a read."""
        found = [f"{it.turn} {it.reader} {it.word:06o}" for it in reads_in(machine, turns, address)]
        told = first_reads_in(machine, turns, address)
        self.assertEqual(found, list(told.values()), f"{address:o}")
        return len(found)

    def compare_some(self, machine: Machine, turns: range, chance: random.Random) -> None:
        """Compares the reads of some words that the turns read, up to one that can't be
        followed."""
        words: set[int] = set()
        for _, flow, fault in each_flow(machine, turns):
            if fault:
                turns = range(turns.start, flow.turn)
                break
            words |= {it.word for it in flow.cycles if it.is_read_of(it.word)}
        read = sorted(it for it in words if it < IO_PAGE)
        for address in chance.sample(read, min(len(read), WORDS_OF_EACH)):
            with self.subTest(address=f"{address:o}"):
                self.assertTrue(self.compare(machine, turns, address))

    def test_words_of_stored_systems(self) -> None:
        ledger, turns = self.machine(LEDGER), range(126_900, 129_000)
        words = (0o30000, 0o40000, 0o20000, 0o766, 0o770, 0o772, 0o776, 0o100, 0o62, 0o1110)
        self.assertGreater(sum(self.compare(ledger, turns, it) for it in words), 200)
        self.compare_some(self.machine(KEYS), range(1_000), random.Random(7))

    def test_words_of_random_programs(self) -> None:
        for seed in range(PROGRAMS):
            machine = Machine(Start(BUILT.program, ["--units", "4"], self.folder))
            self.addCleanup(machine.close)
            list(machine.ask_all(list(program(random.Random(seed))), 1000))
            with self.subTest(seed=seed):
                self.compare_some(machine, range(TURNS), random.Random(seed))


class Found(OfSystems):
    """What is found in many turns, and in programs of a few words."""

    def test_the_first_word_of_an_instruction_is_read_as_often_as_it_runs(self) -> None:
        """By the line `counts`: each of these words is read by its fetch alone."""
        machine, turns, count = self.machine(LEDGER), range(0, 15_000), 0
        for address in (0o1110, 0o1270, 0o1472):
            line = f"counts {turns.start} {turns.stop} kernel {address:o} 1"
            found = reads_in(machine, turns, address)
            self.assertEqual(len(found), int(machine.read(line).split()[1]))
            count += len(found)
        self.assertGreater(count, 400)

    def machine_of(self, *lines: str) -> Machine:
        machine = Machine(Start(BUILT.program, ["--units", "1"], self.folder))
        self.addCleanup(machine.close)
        self.assertFalse([it for it in machine.edit_all(lines) if it.startswith("refused")])
        return machine

    def program(self, *words: int) -> Machine:
        lines = [f"core {0o1000 + 2 * at:o} {word:o}" for at, word in enumerate(words)]
        return self.machine_of(*lines)

    def test_code_that_changes_itself(self) -> None:
        """MOV @#2000,R0; ADD #2,@#1002; BR 1000: each time it reads the next word."""
        machine = self.program(0o13700, 0o2000, 0o62737, 2, 0o1002, 0o772)
        for number in (0, 1, 7):
            found = reads_in(machine, range(50), 0o2000 + 2 * number)
            self.assertEqual([it.turn for it in found], [3 * number])

    def test_what_the_disk_reads_of_core(self) -> None:
        """It writes 3 words, compares 2, and writes 4 times one word whose address stays."""
        words: list[int] = []
        for count, core, function in ((3, 0o2000, 0o3), (2, 0o2006, 0o7), (4, 0o2012, 0o4003)):
            words += [0o12737, 0o200000 - count, 0o177406, 0o12737, core, 0o177410]
            words += [0o5037, 0o177412, 0o12737, function, 0o177404]
            words += [0o105737, 0o177404, 0o100375]  # TSTB @#RKCS; BPL .-4
        machine, turns, found = self.program(*words, 0), range(0, 100), list[tuple[int, int]]()
        done = [int(it.split()[0]) for it in machine.transfers(turns)[0]]
        for address in range(0o1776, 0o2020, 2):
            for it in reads_in(machine, turns, address):
                self.assertEqual(it.reader, "disk")
                found.append((address, done.index(it.turn)))
        read = [(it, 0) for it in (0o2000, 0o2002, 0o2004)] + [(0o2006, 1), (0o2010, 1)]
        self.assertEqual(found, [*read, (0o2012, 2)])

    def test_of_a_turn_that_the_disk_and_the_processor_read_in_the_disk_counts(self) -> None:
        """The disk writes the word while INC @#2000; BR .-4 counts there in each even turn."""
        begin = (0o12737, 0o177777, 0o177406, 0o12737, 0o2000, 0o177410, 0o12737, 3, 0o177404)
        machine, turns = self.program(*begin, 0o240, 0o5237, 0o2000, 0o775), range(0, 40)
        (done,) = [int(it.split()[0]) for it in machine.transfers(turns)[0]]
        counted = range(4, turns.stop, 2)
        self.assertIn(done, counted)
        wanted = [
            WordRead(turn, "disk" if turn == done else "cpu", number)
            for number, turn in enumerate(counted)
        ]
        self.assertEqual(reads_in(machine, turns, 0o2000), wanted)

    def test_while_it_waits_or_polls(self) -> None:
        """A key's interrupt reads the two words of its vector, and nothing else does."""
        vector = ["core 60 1100", "core 62 340", "core 1100 5737", "core 1102 177562"]
        vector += ["core 1104 2"]
        begin = ["core 1000 12706", "core 1002 700", "core 1004 12737", "core 1006 100"]
        begin += ["core 1010 177560"]
        keys = [f"at {turn} key 101" for turn in (70_000, 70_001, 400_000, 790_000)]
        polling = ["core 1012 105737", "core 1014 177564", "core 1016 100775", "core 1020 774"]
        for loop in (["core 1012 1", "core 1014 776"], polling):
            machine, turns = self.machine_of(*vector, *begin, *loop, *keys), range(0, 800_000)
            interrupts, left = list[int](), turns
            while left:
                turn = machine.found("first", left, "vector 60")
                interrupts += [] if turn is None else [turn]
                left = range(0) if turn is None else range(turn + 1, turns.stop)
            self.assertGreater(len(interrupts), 2)
            for address in (0o60, 0o62):
                found = [it.turn for it in reads_in(machine, turns, address)]
                self.assertEqual(found, interrupts)

    def test_a_word_that_each_turn_reads(self) -> None:
        """BR .: the search goes on after each 256 reads."""
        found = reads_in(self.program(0o777), range(600), 0o1000)
        self.assertEqual(found, [WordRead(turn, "cpu", 0o777) for turn in range(600)])

    def test_a_search_leaves_the_machine_at_its_first_turn(self) -> None:
        machine = self.program(0o777)
        self.assertEqual(machine.reads(range(5, 40), 0o2000), ([], range(40, 40)))
        self.assertEqual((machine.asked.turn, machine.asked.greatest), (5, 40))
        lines, left = machine.reads(range(400), 0o1000)
        self.assertEqual((len(lines), left), (256, range(256, 400)))
        self.assertEqual((machine.asked.turn, machine.asked.greatest), (0, 256))

    def test_the_last_read_of_many(self) -> None:
        """MOV #3000,R0; TST @#2000; SOB R0,.-4; BR .: it is read in each odd turn up to 3071."""
        machine = self.program(0o12700, 0o3000, 0o5737, 0o2000, 0o77003, 0o777)
        finder, chance = Finder(machine), random.Random(2)
        stops = [0, 1, 2, 512, 513, 514, 3072, 3073, 50_000, *chance.sample(range(3_000), 20)]
        for stop in stops:
            for begin in (0, chance.randint(0, stop), stop):
                last = max((it for it in range(1, 3072, 2) if begin <= it < stop), default=None)
                wanted = None if last is None else WordRead(last, "cpu", 0)
                with self.subTest(begin=begin, stop=stop):
                    self.assertEqual(finder.last_read(range(begin, stop), 0o2000), wanted)


class Shown(OnMachine):
    """The lines that are shown."""

    def lines(self, explorer: Explorer, line: str) -> list[str]:
        word, _, rest = line.partition(" ")
        return list(COMMANDS[word].lines(explorer, rest))

    def test_a_list_that_is_cut_goes_on(self) -> None:
        explorer = self.explorer("ledger/ledger.session")
        turns, line = list[str](), "readers 1110 from 0 to 14000"
        while line:
            *shown, last = self.lines(explorer, line)
            turns += [it.split()[1] for it in shown]
            line = last.partition("; on: ")[2]
        found = first_reads_in(explorer.machine, range(14_001), 0o1110)
        self.assertGreater(len(found), 256)
        self.assertEqual(turns, [f"{it}:" for it in found])

    def test_what_was_found_is_shown_when_the_search_fails(self) -> None:
        explorer = self.explorer("ledger/ledger.session")
        first = explorer.machine.reads(range(100_000), 0o40000)
        self.assertEqual(len(first[0]), 4)
        parts = [(first[0], range(100_000, 200_000)), ExploreError("the program ended")]
        with mock.patch.object(explorer.machine, "reads", side_effect=parts):
            *shown, last = self.lines(explorer, "readers 40000 to 199999")
        self.assertEqual([it.split()[1] for it in shown], [f"{it.split()[0]}:" for it in first[0]])
        said = "4 reads before turn 100000; the turns from there on: the program ended"
        self.assertEqual(last, said)

    def test_a_breakpoint_of_reads_forwards_and_backwards(self) -> None:
        explorer = self.explorer("ledger/ledger.session")
        begin = 105_000
        turns = list(first_reads_in(explorer.machine, range(begin, 130_000), 0o30000))
        self.assertGreater(len(turns), 3)
        explorer.turn = begin
        self.lines(explorer, "rwatch 30000")
        for turn in turns:
            first, seen = self.lines(explorer, "continue to 130000")
            self.assertEqual(explorer.turn, turn)
            self.assertTrue(first.startswith("breakpoint 1: rwatch 30000: "), first)
            self.assertIn(f"{turn}  ", seen)
        self.lines(explorer, "watch 30000")
        written, _ = explorer.machine.writes(range(begin, turns[-1]), 0o30000)
        for turn in sorted({*turns[:-1], *(int(it.split()[0]) for it in written)})[::-1]:
            self.lines(explorer, "reverse-continue")
            self.assertEqual(explorer.turn, turn)


class AtPrompt(AtTerminal):
    """Typed at a terminal."""

    def test_ctrl_c_shows_what_was_found(self) -> None:
        self.begin("examples/ledger/ledger.session")
        self.type("readers 40000 to 999999999\n")
        self.wait_for(b" turns, ")
        self.interrupt()
        self.wait_for(b"turn 84671: cpu 000115, by user 000012 ADD R2,@#20000")
        self.wait_for(b" reads before turn ")
        self.wait_for(b"0000; the turns from there on: stopped")
        self.type("rwatch 40\n")
        self.wait_for(b"breakpoint 1: rwatch 40")
        self.type("continue\n")
        self.wait_for(b" turns, ")
        self.interrupt()
        self.wait_for(b"continue: stopped; the edits are all there")
        self.type("regs 0\n")
        self.wait_for(b"R0 000000")
        self.end()
