"""The calls that a turn stands in, and what steps over them, against a list of calls that is kept
turn by turn."""
import random
from dataclasses import dataclass
from typing import Iterator, Optional, Sequence

from nezdrab.analysis.explorer import Explorer
from nezdrab.analysis.levels import LOADED, NOT_CHECKED, Return, Stacks, call_in, pointer
from nezdrab.analysis.listing import seen
from nezdrab.core.engine import SHORT_SENT_AHEAD
from nezdrab.core.errors import ExploreError
from nezdrab.core.replies import Mode, Registers
from nezdrab.shell.command_table import COMMANDS

from .machines import LEDGER, OnMachine

# The towers of Hanoi by JSR PC, a routine with a table in line by JSR R5, EMT, and the clock, whose
# routine makes room on the stack that it doesn't write.
HANOI = (
    "12706 1000 12737 100 177546 12700 5 12701 1 12702 2 4767 40 5267 236 4567 150 3 1304 10067"
    " 230 26727 216 3 1354 104007 5067 204 750 5300 100431 10146 10246 12703 6 160103 160203 10302"
    " 4767 177752 11602 16601 2 4767 32 10203 12701 6 160201 166601 2 10302 4767 177716 12602"
    " 12601 5200 207 6301 5361 1302 6201 6302 5262 1302 6202 5267 66 207 12503 12504 5000 62400"
    " 77302 205 10046 4767 20 12600 2 4767 10 12737 100 177546 2 5267 20 162706 6 5716 62706 6 207"
    " 0 0 0 0 5 0 0"
)
VECTORS = ["core 30 1226", "core 32 340", "core 100 1240", "core 102 300", "delay clock 97"]
# The same in user mode: kernel mode begins at 2000, and goes there by RTI.
IN_USER_MODE = "137 2000 12706 1000 240"
BEGIN = "12706 700 12737 100 177546 12746 140000 12746 1004 2"
# Two coroutines, a routine that changes its return address, and one that returns by MARK.
COROUTINES = (
    "12706 1000 4767 50 5200 4736 5200 4736 4767 50 0 10546 12746 6 12746 6401 10605 4767 36 756"
    " 0 0 0 0 5201 4736 5201 4736 5201 207 62716 2 207 0 5202 205"
)
TRAPS = (0o4, 0o10, 0o14, 0o20, 0o30, 0o34, 0o250)


def core(words: str, first: int = 0o1000) -> list[str]:
    return [f"core {first + 2 * at:o} {word}" for at, word in enumerate(words.split())]


@dataclass(frozen=True)
class Pushed:
    """A call, and the ones that the same stack had before it. It is left once SP is above it."""

    turn: int
    mode: Mode
    slot: int
    below: "Optional[Pushed]"


Stack = Optional[Pushed]


class Shadow:
    """Both stacks before each of these turns, by what the turns were and where SP was. Before the
    first of them they have no call."""

    def __init__(self, explorer: Explorer, turns: range):
        machine, self.turns = explorer.machine, turns
        asked = range(turns.start, turns.stop + 1)
        replies = machine.read_all([f"regs {it}" for it in asked], SHORT_SENT_AHEAD)
        self.registers = dict(zip(asked, map(Registers.of, replies)))
        trapping = set(self.trapping(explorer))
        listed = list(machine.turns(turns.start, len(turns)))
        self.calls = {
            it.turn.turn
            for it in seen(explorer, listed)
            if it.turn.turn in trapping
            or it.turn.act in ("irq", "trace", "stack")
            or it.turn.act == "instr" and it.text.startswith("JSR ")
        }
        self.stacks: dict[int, dict[str, Stack]] = {turns.start: {"KSP": None, "USP": None}}
        for turn in turns:
            self.stacks[turn + 1] = self.after(turn)

    def trapping(self, explorer: Explorer) -> Iterator[int]:
        for vector in TRAPS:
            turn: Optional[int] = self.turns.start - 1
            while turn is not None:
                left = range(turn + 1, self.turns.stop)
                turn = explorer.machine.found("first", left, f"trap {vector:o}")
                if turn is not None:
                    yield turn

    def after(self, turn: int) -> dict[str, Stack]:
        now, is_call = self.registers[turn + 1], turn in self.calls
        inside = pointer(now.mode)
        stacks = dict(self.stacks[turn])
        for name, stack in stacks.items():
            top = now.words[name] + (2 if is_call and name == inside else 0)
            while stack is not None and stack.slot < top:
                stack = stack.below
            stacks[name] = stack
        if is_call:
            mode = self.registers[turn].mode
            stacks[inside] = Pushed(turn, mode, now.words[inside], stacks[inside])
        return stacks

    def levels(self, turn: int) -> list[int]:
        """The turns of the calls, through the modes."""
        found: list[int] = []
        mode = self.registers[turn].mode
        stack = self.stacks[turn][pointer(mode)]
        while stack is not None:
            found.append(stack.turn)
            if stack.mode != mode:
                mode = stack.mode
                stack = self.stacks[stack.turn][pointer(mode)]
            else:
                stack = stack.below
        return found

    def stands(self, call: int, turn: int) -> bool:
        """Whether the call's words are on a stack before the turn."""
        for stack in self.stacks[turn].values():
            while stack is not None:
                if stack.turn == call:
                    return True
                stack = stack.below
        return False

    def returned(self, call: int, turns: Sequence[int]) -> Optional[int]:
        return next((it for it in turns if not self.stands(call, it)), None)

    def stepped_back(self, turn: int) -> int:
        """What `reverse-over` goes to: the outermost call that turn - 1 left, or turn - 1."""
        name = pointer(self.registers[turn - 1].mode)
        target, stack = turn - 1, self.stacks[turn - 1][name]
        if self.registers[turn].words[name] <= self.registers[turn - 1].words[name]:
            return target
        while stack is not None and not self.stands(stack.turn, turn):
            target, stack = stack.turn, stack.below
        return target


class Calls(OnMachine):
    """Each on a sample of turns with a fixed seed."""

    def goes_to(self, explorer: Explorer, turn: int, line: str) -> Optional[int]:
        """Where the line goes from this turn, or None if it stays there."""
        explorer.turn = turn
        word, _, rest = line.partition(" ")
        list(COMMANDS[word].lines(explorer, rest))
        return None if explorer.turn == turn else explorer.turn

    def compare(self, explorer: Explorer, turns: range, count: int, deepest: int) -> None:
        """Compares on this number of turns, of which one stands in as many calls."""
        shadow, last = Shadow(explorer, turns), turns[-1]
        chosen = random.Random(7).sample(turns[1:-1], count)
        for turn in chosen:
            levels, wanted = list(Stacks(explorer.machine).levels(turn)), shadow.levels(turn)
            got = [(it.call.turn, it.doubt) for it in levels]
            self.assertEqual(got, [(it, "") for it in wanted], f"calls {turn}")
            after = range(turn + 1, last + 1)
            over = shadow.returned(turn, after) if turn in shadow.calls else turn + 1
            self.assertEqual(self.goes_to(explorer, turn, f"over to {last}"), over, turn)
            back = self.goes_to(explorer, turn, "reverse-over")
            self.assertEqual(back, shadow.stepped_back(turn), turn)
            if wanted:
                end = shadow.returned(wanted[0], after)
                self.assertEqual(self.goes_to(explorer, turn, f"finish to {last}"), end, turn)
                self.assertEqual(self.goes_to(explorer, turn, "reverse-finish"), wanted[0])
        self.assertEqual(max(len(shadow.levels(it)) for it in chosen), deepest)

    def test_recursion_and_interrupts(self) -> None:
        explorer = self.explorer("", [*VECTORS, *core(HANOI)])
        self.compare(explorer, range(4_000), 100, 8)

    def test_routines_of_two_modes(self) -> None:
        words = [*core(HANOI), *core(IN_USER_MODE), *core(BEGIN, 0o2000)]
        explorer = self.explorer("", [*VECTORS, *words])
        self.compare(explorer, range(4_000), 100, 8)
        shadow = Shadow(explorer, range(3_000))
        levels = map(shadow.levels, shadow.turns)
        modes = {len({shadow.registers[call].mode for call in calls}) for calls in levels}
        self.assertEqual(modes, {0, 1, 2})

    def test_coroutines_and_mark(self) -> None:
        self.compare(self.explorer("", core(COROUTINES)), range(150), 60, 1)

    def test_processes_of_two_modes(self) -> None:
        self.compare(self.explorer(LEDGER), range(18_000, 22_000), 100, 1)

    def test_traps_and_pages(self) -> None:
        for name in ("copy-of-a-pack", "page-somewhere-else", "tape-to-console"):
            self.compare(self.explorer(f"{name}.session"), range(60), 40, 1)

    def calls(self, explorer: Explorer, words: str) -> list[str]:
        return list(COMMANDS["calls"].lines(explorer, words))

    def test_exchanged_stacks(self) -> None:
        """A key comes in turn 16, and turns 17 to 20 exchange the stacks, and another in turn 26.
        Of two stacks the first is the one above. The second task stands in no call."""
        explorer = self.explorer("two-tasks.session", ["at 26 key 102"])
        for turns, doubt in ((range(17, 20), ""), (range(20, 30), LOADED), (range(30, 32), "")):
            for turn in turns:
                level = list(Stacks(explorer.machine).levels(turn))[-1]
                self.assertEqual((level.call.turn, level.doubt), (16, doubt), turn)
        self.assertEqual(list(Stacks(explorer.machine).levels(32)), [])
        self.assertIn("(believed: SP was loaded since)", self.calls(explorer, "20")[-1])

    def two_tasks(self) -> Explorer:
        """Two tasks call the same routines, by JSR PC and JSR R5, and the clock exchanges their
        stacks, of which the second is above the first."""
        words = "12706 600 12737 100 177546 4767 2 775 5202 4767 2 207 5203 4567 2 207 205"
        exchange = "10546 10637 3000 13706 3002 13737 3000 3002 12605 2"
        edits = [*core(words), *core(exchange, 0o1100), *core("0 1012 0", 0o672)]
        vector = ["core 100 1100", "core 102 300", "core 3002 672", "delay clock 23"]
        return self.explorer("", [*edits, *vector])

    def test_a_return_in_the_same_task(self) -> None:
        explorer = self.two_tasks()
        machine, turns = explorer.machine, range(1_000)
        shadow = Shadow(explorer, turns)
        registers, loads = shadow.registers, 0
        for turn in sorted(it for it in shadow.calls if it < 800):
            before, call = registers[turn], call_in(machine, turn)
            assert call is not None
            pc, sp = before.pc + 4 * (call.kind == "JSR"), before.words["KSP"]
            place = {it: (registers[it].pc, registers[it].words["KSP"]) for it in turns}
            wanted = next(it for it in turns[turn + 1 :] if place[it] == (pc, sp))
            self.assertEqual(self.goes_to(explorer, turn, "over to 999"), wanted, turn)
            explorer.turn = turn + 1
            list(COMMANDS["finish"].lines(explorer, "to 999"))
            self.assertEqual(explorer.turn, wanted, turn)
            parts = (turns[it : it + 7] for it in range(turn + 1, 999, 7))
            found = filter(None, map(Return(machine, call).first, parts))
            self.assertEqual(next(found), wanted, turn)
            loads += shadow.returned(turn, turns[turn + 1 :]) != wanted
        self.assertGreater(loads, 10)
        loaded = [it + 1 for it in range(100, 800) if registers[it].pc == 0o1106]
        for turn in loaded:  # neither task returned from anything
            self.assertEqual(self.goes_to(explorer, turn, "reverse-over"), turn - 1)
        self.assertGreater(len(loaded), 10)

    def test_a_routine_that_is_left_by_a_load(self) -> None:
        """JSR PC,1010; there MOV #1000,SP; JSR PC,1020; there a branch to itself."""
        explorer = self.explorer("", core("12706 1000 4767 0 12706 1000 4767 0 777"))
        explorer.turn = 1
        lines = list(COMMANDS["over"].lines(explorer, "to 90"))
        said = "KSP was loaded in turn 2, and the routine was left by that"
        self.assertEqual(lines[0], f"{said}: PC isn't its return address")
        self.assertEqual(explorer.turn, 3)
        explorer = self.explorer("", core("12706 1000 4767 0 12706 1000 777"))
        explorer.turn = 1
        (line,) = COMMANDS["over"].lines(explorer, "to 90")
        end = "; KSP was loaded in turn 2, as when stacks are switched"
        self.assertEqual(line, f"the call in turn 1 doesn't return in the turns 2 to 90{end}")

    def test_what_is_not_checked(self) -> None:
        """JSR PC,1010, which goes on there for ever."""
        explorer = self.explorer("", core("12706 1000 4767 0 777"))
        for words, doubt in (
            ("1000000", ""),
            ("1500000", f"  (believed: {NOT_CHECKED})"),
            ("1500000 whole", ""),
        ):
            line = f"         1  kernel  001004  JSR                       001010{doubt}"
            self.assertEqual(self.calls(explorer, words)[2:], [line])
        with self.assertRaisesRegex(ExploreError, "turn 1 stands in"):
            explorer.turn = 1
            list(COMMANDS["finish"].lines(explorer, ""))

    def test_a_word_changed_too_often_is_not_found(self) -> None:
        """INC (SP) and DEC (SP), over and over: three changes are looked through."""
        explorer = self.explorer("", core("12706 1000 4767 0 5216 5316 775"))
        for turn, count in ((2, 1), (4, 1), (5, 1), (7, 0)):
            self.assertEqual(len(list(Stacks(explorer.machine).levels(turn))), count, turn)
