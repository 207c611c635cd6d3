"""`export FILE.callgrind` and `.folded` against a stack that is kept turn by turn."""
import re
import shutil
import subprocess
import unittest
from collections import Counter
from dataclasses import dataclass, field
from typing import Iterator, Sequence
from unittest import mock

from nezdrab.analysis import call_tree
from nezdrab.analysis.call_tree import CallTree
from nezdrab.analysis.counting import Place
from nezdrab.analysis.explorer import Explorer
from nezdrab.analysis.profile import begin_of
from nezdrab.analysis.routines import NOWHERE
from nezdrab.core.errors import ExploreError
from nezdrab.core.replies import INSTRUCTION, INTERRUPT, Mode
from nezdrab.core.symbol_files import Symbol
from nezdrab.core.symbols import Symbols
from nezdrab.export.callgrind import remarks, stacks_of
from nezdrab.shell.command_table import COMMANDS

from .explore_case import ROOT, SECONDS
from .machines import LEDGER, OnMachine
from .test_calls import BEGIN, HANOI, IN_USER_MODE, VECTORS, Shadow, core

ANNOTATE = shutil.which("callgrind_annotate")
NAMES = {
    "START": 0o1000,
    "LOOP": 0o1012,
    "HANOI": 0o1072,
    "DONE": 0o1160,
    "MOVE": 0o1164,
    "SUM": 0o1212,
    "CALL": 0o1226,
    "TICK": 0o1240,
    "COUNT": 0o1254,
}
COST = re.compile(r"(0x[0-9a-f]+) (\d+) (\d+)")


def routine(symbols: Symbols, mode: Mode, address: int) -> str:
    begin = begin_of(symbols.values, Place(mode, address))
    name = "(before the first routine)" if begin is None else symbols.near(mode, begin)
    return f"{mode.value} {name}"


class Brute:
    """The stack of each turn, by all turns before it: the names of the routines from the outermost
    call on, and at its end what the turn is if it begins no instruction."""

    def __init__(self, explorer: Explorer, turns: range):
        self.explorer, self.shadow = explorer, Shadow(explorer, range(turns.stop))
        machine = explorer.machine
        self.turns = turns
        self.acts = {it.turn: it for it in machine.turns(0, turns.stop)}
        self.paths = {it: self.path(it) for it in turns}

    def name(self, turn: int) -> str:
        """The routine of PC before a turn."""
        registers = self.shadow.registers[turn]
        return routine(self.explorer.symbols, registers.mode, registers.pc)

    def path(self, turn: int) -> list[str]:
        found: list[str] = []
        for call in reversed(self.shadow.levels(turn)):
            found += [*self.unless_last(found, self.name(call)), *self.other(call)]
            found.append(self.name(call + 1))
        return [*found, *self.unless_last(found, self.name(turn)), *self.other(turn)]

    def unless_last(self, found: list[str], name: str) -> list[str]:
        return [] if found[-1:] == [name] else [name]

    def other(self, turn: int) -> list[str]:
        act = self.acts[turn]
        if act.act == INSTRUCTION:
            return []
        waits = "halted" if self.shadow.registers[turn].state == "halted" else "waits"
        others = {"idle": waits, INTERRUPT: act.interrupt()}
        return [f"({others.get(act.act, f'{act.act} trap')})"]

    def stacks(self) -> Counter[str]:
        return Counter(";".join(it) for it in self.paths.values())

    def within(self, name: str) -> int:
        """How many of the turns have this routine in their stack."""
        return sum(name in it for it in self.paths.values())


@dataclass
class Read:
    """A file for callgrind's viewers: the turns of each routine by address, the calls, and the
    turns in them."""

    own: dict[str, Counter[int]] = field(default_factory=dict)
    calls: Counter[tuple[str, str]] = field(default_factory=Counter)
    inside: Counter[tuple[str, str]] = field(default_factory=Counter)
    lines: dict[int, int] = field(default_factory=dict)
    heads: dict[str, str] = field(default_factory=dict)

    @classmethod
    def of(cls, text: str) -> "Read":
        read, now, count = cls(), {"ob": "", "fn": "", "cob": "", "cfn": ""}, -1
        for line in text.splitlines():
            key, is_named, value = line.partition("=")
            cost = COST.fullmatch(line)
            if key == "calls":
                count = int(value.split()[0])
            elif is_named:
                now[key] = value
            elif cost:
                read.take(now, [int(cost[1], 16), int(cost[2]), int(cost[3])], count)
                count = -1
            elif ": " in line:
                name, _, text = line.partition(": ")
                read.heads[name] = text
        return read

    def take(self, now: dict[str, str], cost: Sequence[int], count: int) -> None:
        address, line, turns = cost
        caller = named(now["ob"], now["fn"])
        if count < 0:
            self.own.setdefault(caller, Counter())[address] += turns
            self.lines.update({address: line} if now["ob"] != "machine" else {})
            return
        edge = caller, named(now["cob"], now["cfn"])
        self.calls[edge] += count
        self.inside[edge] += turns

    def total(self, is_instruction: bool) -> int:
        """The turns of all that has this kind."""
        of_kind = (it for name, it in self.own.items() if name.startswith("(") != is_instruction)
        return sum(sum(it.values()) for it in of_kind)

    def inclusive(self, name: str) -> int:
        below = sum(turns for (caller, _), turns in self.inside.items() if caller == name)
        return sum(self.own.get(name, Counter()).values()) + below


def named(mode: str, name: str) -> str:
    return name if mode == "machine" else f"{mode} {name}"


class CallTrees(OnMachine):
    """Turns of systems without other stacks than those of the two modes."""

    def towers(self, in_user_mode: bool = False) -> Explorer:
        words = [*core(IN_USER_MODE), *core(BEGIN, 0o2000)] if in_user_mode else []
        explorer = self.explorer("", [*VECTORS, *core(HANOI), *words])
        symbols = [Symbol(*it) for it in NAMES.items()]
        explorer.symbols.take(symbols, [Mode.KERNEL, Mode.USER])
        return explorer

    def systems(self) -> Iterator[tuple[Explorer, range]]:
        """Ranges that begin in no call, and within some."""
        for in_user_mode in (False, True):
            explorer = self.towers(in_user_mode)
            yield explorer, range(0, 3_000)
            yield explorer, range(1_777, 2_500)
        explorer = self.explorer(LEDGER)
        explorer.symbols.take([Symbol("TAKE", 0o1346), Symbol("SAVE", 0o1110)], [Mode.KERNEL])
        explorer.symbols.take([Symbol("CLERK", 0), Symbol("TELLER", 0o44)], [Mode.USER])
        yield explorer, range(2_000, 4_500)

    def test_stacks_are_those_of_each_turn(self) -> None:
        for explorer, turns in self.systems():
            tree = CallTree.of(explorer, turns)
            self.assertEqual(stacks_of(tree), Brute(explorer, turns).stacks())
            self.assertEqual(list(remarks(tree)), [])
            self.assertEqual(sum(it.turns for it in tree.nodes), len(turns))

    def test_traps_and_pages(self) -> None:
        """Also with words that the disk brings, and without symbols."""
        names = ("copy-of-a-pack", "page-somewhere-else", "tape-to-console", "read-only-page")
        for name in (*names, "disk-over-the-program"):
            explorer, turns = self.explorer(f"{name}.session"), range(0, 60)
            symbols = [Symbol(f"AT{it:o}", it) for it in range(0, 0o200000, 0o1000)]
            explorer.symbols.take(symbols, [Mode.KERNEL, Mode.USER])
            found = stacks_of(CallTree.of(explorer, turns))
            self.assertEqual(found, Brute(explorer, turns).stacks())
            explorer.symbols.take([], [Mode.KERNEL, Mode.USER])
            nameless = stacks_of(CallTree.of(explorer, turns))
            self.assertEqual(sum(nameless.values()), len(turns))

    def test_an_odd_address(self) -> None:
        """JMP @#1001, whose trap leads to 2000: that turn is an instruction of no routine."""
        edits = [*core("12706 700 137 1001"), *core("2000 340", 4), *core("240 776", 0o2000)]
        explorer, turns = self.explorer("", edits), range(0, 9)
        explorer.symbols.take([Symbol("IT", 0o1000), Symbol("TRAP", 0o2000)], [Mode.KERNEL])
        found = stacks_of(CallTree.of(explorer, turns))
        self.assertEqual(found, {"kernel IT": 2, NOWHERE: 1, f"{NOWHERE};kernel TRAP": 6})
        read = Read.of(self.exported(explorer, turns))
        self.assertEqual((read.total(True), read.total(False)), (8, 1))

    def test_the_red_sequence(self) -> None:
        """EMT with SP 0, by which SP is 0 again."""
        edits = [*core("104000 777"), *core("240 2", 0o2000), *core("2000 0", 4)]
        explorer, turns = self.explorer("", edits), range(0, 12)
        symbols = [Symbol("MAIN", 0o1000), Symbol("TRAP", 0o2000)]
        explorer.symbols.take(symbols, [Mode.KERNEL])
        found = stacks_of(CallTree.of(explorer, turns))
        self.assertEqual(found, Brute(explorer, turns).stacks())
        self.assertGreater(found["kernel MAIN;kernel TRAP"], 1)

    def test_a_call_that_the_disk_brings(self) -> None:
        """JSR PC,@#2000 comes over BR to itself in the turn in which it runs."""
        words = "12706 700 12737 177777 177406 12737 1026 177410 12737 5 177404 777 2000"
        edits = [*core(words), *core("240 207", 0o2000), "disk 0 4737"]
        explorer, turns = self.explorer("", edits), range(0, 40)
        explorer.symbols.take([Symbol("MAIN", 0o1000), Symbol("SUB", 0o2000)], [Mode.KERNEL])
        found = stacks_of(CallTree.of(explorer, turns))
        self.assertEqual(found, Brute(explorer, turns).stacks())
        self.assertGreater(found["kernel MAIN;kernel SUB"], 1)

    def test_routines_without_symbols_are_where_calls_led(self) -> None:
        explorer, turns = self.towers(), range(0, 2_000)
        wanted = Brute(explorer, turns).within("kernel MOVE")
        explorer.symbols.take([], [Mode.KERNEL, Mode.USER])
        read = Read.of(self.exported(explorer, turns))
        self.assertEqual(read.inclusive("kernel 001164"), wanted)
        self.assertIn("kernel (before the first routine)", read.own)

    def test_names_of_other_characters(self) -> None:
        """What would end a name in a file is _ there."""
        explorer = self.explorer("", core("12706 1000 777"))
        explorer.symbols.take([Symbol("a;b c\nd\udcff", 0o1000)], [Mode.KERNEL])
        self.assertEqual(stacks_of(CallTree.of(explorer, range(5))), {"kernel a_b_c_d_": 5})
        self.assertIn("\nfn=a_b_c_d_\n", self.exported(explorer, range(5)))

    def exported(self, explorer: Explorer, turns: range, more: str = "") -> str:
        path = self.folder / "it.callgrind"
        line = f"'{path}' from {turns.start} to {turns.stop - 1}{more}"
        path.unlink(missing_ok=True)
        self.said = list(COMMANDS["export"].lines(explorer, line))
        return path.read_text()

    def test_a_file_has_the_turns_of_each_routine_and_call(self) -> None:
        for explorer, turns in self.systems():
            brute, read = Brute(explorer, turns), Read.of(self.exported(explorer, turns))
            instructions = sum(brute.acts[it].act == INSTRUCTION for it in turns)
            self.assertEqual(read.total(True), instructions)
            self.assertEqual(read.total(False), len(turns) - instructions)
            self.assertEqual(read.heads["summary"], str(len(turns)))
            places = Counter(
                (brute.name(it), brute.acts[it].pc)
                for it in turns
                if brute.acts[it].act == INSTRUCTION
            )
            own = {(name, at): n for name, by in read.own.items() for at, n in by.items() if n}
            others = {it: n for it, n in own.items() if it[0].startswith("(")}
            self.assertEqual(Counter({it: own[it] for it in own.keys() - others}), places)
            for name in {it for path in brute.paths.values() for it in path}:
                self.assertEqual(read.inclusive(name), brute.within(name), name)

    def test_calls_are_counted(self) -> None:
        """Those that begin in the turns, by who calls and who is called."""
        explorer, turns = self.towers(), range(1_777, 3_000)
        brute, read = Brute(explorer, turns), Read.of(self.exported(explorer, turns))
        wanted = Counter(
            (brute.paths[it][-1], brute.name(it + 1)) for it in turns if it in brute.shadow.calls
        )
        for edge, count in wanted.items():
            self.assertEqual(read.calls[edge], count, edge)
        others = {it for it, count in read.calls.items() if count and not it[1].startswith("(")}
        jumps = others - wanted.keys()
        self.assertEqual(jumps, {("kernel HANOI", "kernel DONE")})

    def test_lines_are_those_of_a_listing(self) -> None:
        explorer, turns = self.explorer(LEDGER), range(0, 3_000)
        listing = ROOT / "examples" / "ledger" / "ledger.lst"
        both = f" with {listing} and {listing} at 160000 user"
        read = Read.of(self.exported(explorer, turns, both))
        lines = listing.read_text().splitlines()
        self.assertGreater(len(read.lines), 60)
        for address, line in read.lines.items():
            at = address if address >= 0o1000 else address + 0o20000
            self.assertTrue(lines[line - 1].startswith(f"{at:06o}  "), (address, line))

    def test_stacks_that_sp_is_loaded_away_from(self) -> None:
        """Two tasks with a stack each: once both were left, the calls of each go on."""
        explorer = self.explorer("two-tasks.session", ["at 26 key 102"])
        tree = CallTree.of(explorer, range(0, 60))
        self.assertIn("SP was loaded", " ".join(remarks(tree)))
        self.assertEqual(sum(it.turns for it in tree.nodes), 60)
        tree = CallTree.of(explorer, range(25, 60))
        self.assertIn("stands in: 1 level; see calls", " ".join(remarks(tree)))

    def test_calls_without_an_end(self) -> None:
        """JSR PC,1004 over and over, until the stack traps; deeper calls are side by side."""
        explorer = self.explorer("", core("12706 40000 5200 4767 177772"))
        tree = CallTree.of(explorer, range(0, 3_000))
        self.assertTrue(any("500 levels" in it for it in remarks(tree)))
        self.assertEqual(sum(it.turns for it in tree.nodes), 3_000)
        with mock.patch.object(call_tree, "MOST_NODES", 100):
            with self.assertRaisesRegex(ExploreError, "more than 100 stacks; take fewer"):
                CallTree.of(explorer, range(0, 3_000))

    @unittest.skipUnless(ANNOTATE, "valgrind's callgrind_annotate isn't installed")
    def test_callgrind_annotate_reads_it(self) -> None:
        explorer, turns = self.towers(), range(0, 3_000)
        self.exported(explorer, turns)
        brute = Brute(explorer, turns)
        ended = subprocess.run(
            [str(ANNOTATE), "--inclusive=yes", "--threshold=100", "it.callgrind"],
            cwd=self.folder,
            capture_output=True,
            text=True,
            timeout=SECONDS,
        )
        self.assertEqual((ended.returncode, ended.stderr), (0, ""))
        rows = re.findall(r"(?m)^ *([\d,]+) \( *[\d.]+%\)  \?\?\?:(.*) \[(\w+)\]$", ended.stdout)
        shown = {named(mode, name): int(turns.replace(",", "")) for turns, name, mode in rows}
        names = {it for path in brute.paths.values() for it in path}
        self.assertEqual(shown, {it: brute.within(it) for it in names})
        self.assertIn("3,000 (100.0%)  PROGRAM TOTALS", ended.stdout)
