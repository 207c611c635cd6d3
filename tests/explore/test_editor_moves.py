"""Where an editor goes on and back by `explore dap`, against what explore itself finds."""
import random
from typing import Iterator, Optional

from nezdrab.analysis.explorer import Explorer
from nezdrab.analysis.levels import Stacks
from nezdrab.core.drive_searches import FIRST_PART
from nezdrab.core.engine import SHORT_SENT_AHEAD
from nezdrab.core.replies import Registers, Turn
from nezdrab.dap.running import ahead
from nezdrab.shell.command_table import COMMANDS
from tests.checks.word_reads import first_reads_in

from .editor import Editor, Object
from .explore_case import ROOT
from .test_calls import core
from .test_editors import LISTING, OF_LEDGER, OfEditors

MOVES, ROUNDS, TICKS = 0o1276, 0o1274, 0o1300  # words that the towers of Hanoi change


def line_with(text: str) -> int:
    lines = LISTING.read_text().splitlines()
    return next(at for at, line in enumerate(lines, 1) if text in line)


class Going(OfEditors):
    """Where the requests go that go on and back."""

    def goes_to(self, explorer: Explorer, turn: int, line: str) -> int:
        """Where a line of explore goes from a turn."""
        explorer.turn = turn
        word, _, rest = line.partition(" ")
        list(COMMANDS[word].lines(explorer, rest))
        return explorer.turn

    def test_steps_are_those_of_explore(self) -> None:
        explorer, launch = self.hanoi()
        editor, last = self.editor(), 6_000
        editor.enter(**launch, end=last)
        for turn in random.Random(7).sample(range(2, last), 25):
            stands = next(Stacks(explorer.machine).levels(turn), None)
            for command, line in (
                ("stepIn", "step"),
                ("next", f"over to {last}"),
                ("stepBack", "reverse-over"),
                ("stepOut", f"finish to {last}"),
            ):
                self.to(editor, turn)
                if command == "stepOut" and stands is None:
                    self.stays(editor, turn, "no call is found", command)
                    continue
                wanted = self.goes_to(explorer, turn, line)
                ends = wanted == turn and command != "stepBack"  # it doesn't return up to the end
                found = (last, "pause") if ends else (wanted, "step")
                self.assertEqual(editor.go(command), found, (turn, command))
            self.to(editor, turn)
            self.assertEqual(editor.go("stepBack", granularity="instruction"), (turn - 1, "step"))
        self.to(editor, last)
        for command in ("stepIn", "next"):
            self.stays(editor, last, f"turn {last} is the end", command)
        editor.ask("disconnect")

    def test_what_is_believed_says_so(self) -> None:
        """The stacks of two tasks are exchanged: see `test_exchanged_stacks`."""
        path = self.folder / "two-tasks.session"
        path.write_text((ROOT / "examples" / "two-tasks.session").read_text() + "at 26 key 102\n")
        editor = self.editor()
        editor.enter(session=str(path), turn=20, end=2_000)
        doubt = "(believed: SP was loaded since)"
        self.assertEqual([doubt in it for it in editor.names()], [False, True])
        editor.go("stepOut")
        said = "that turn 16 is the call is believed: SP was loaded since\n"
        told = [it["body"]["output"] for it in editor.events if it["event"] == "output"]
        self.assertIn(said, told)
        editor.ask("disconnect")

    def test_restart_of_a_frame(self) -> None:
        explorer, launch = self.hanoi()
        editor = self.editor()
        editor.enter(**launch)
        self.to(editor, 2_000)
        calls = [it.call.turn for it in Stacks(explorer.machine).levels(2_000)]
        self.assertGreater(len(calls), 2)
        for at, call in enumerate(calls):
            self.to(editor, 2_000)
            frames = editor.ask("stackTrace", threadId=1)["stackFrames"]
            self.assertEqual(
                editor.go("restartFrame", frameId=frames[at]["id"]), (call + 1, "restart")
            )
        self.to(editor, 2_000)
        frames = editor.ask("stackTrace", threadId=1)["stackFrames"]
        self.stays(editor, 2_000, "no call", "restartFrame", frameId=frames[-1]["id"])
        editor.ask("disconnect")

    def walk(self, editor: Editor, turns: list[int], reason: str, end: int) -> None:
        """Goes on over all stops, and back over all. A write stops behind its turn going on."""
        self.assertGreater(len(turns), 0)
        behind = int(reason == "data breakpoint")
        for turn in turns:
            self.assertEqual(editor.go("continue"), (turn + behind, reason))
        self.assertEqual(editor.go("continue"), (end, "pause"))
        for turn in reversed(turns):
            self.assertEqual(editor.go("reverseContinue"), (turn, reason))
        self.assertEqual(editor.go("reverseContinue"), (0, "entry"))

    def test_writes(self) -> None:
        """A write stops behind its turn going on, and before it going back."""
        explorer, launch = self.hanoi()
        editor, end = self.editor(), 4_000
        editor.enter(**launch, end=end)
        for address in (MOVES, TICKS):
            info = editor.ask("dataBreakpointInfo", name=f"{address:o}")
            self.assertEqual(info["accessTypes"], ["write", "read", "readWrite"])
            points = [{"dataId": info["dataId"]}]
            editor.ask("setDataBreakpoints", breakpoints=points)
            lines, _ = explorer.machine.writes(range(end), address)
            turns = [int(it.split()[0]) for it in lines]
            self.assertGreater(len(turns), 20)
            self.walk(editor, turns, "data breakpoint", end)
            last = explorer.machine.last(end, address)
            self.assertEqual(last and last.turn, turns[-1])
            self.to(editor, turns[5])  # before the write
            self.assertEqual(editor.go("continue"), (turns[5] + 1, "data breakpoint"))
            self.assertEqual(editor.text.split()[-2:], lines[5].split()[1:])  # by whom, and what
            self.to(editor, 0)
        editor.ask("disconnect")

    def test_reads(self) -> None:
        """A read stops as a write does, and of reads and writes the next one of either."""
        explorer, launch = self.hanoi()
        editor, end = self.editor(), 4_000
        editor.enter(**launch, end=end)
        reads = list(first_reads_in(explorer.machine, range(end), ROUNDS))
        lines, _ = explorer.machine.writes(range(end), ROUNDS)
        both = sorted({*reads, *(int(it.split()[0]) for it in lines)})
        self.assertGreater(len(both), max(len(reads), len(lines)))
        for access, turns in (("read", reads), ("readWrite", both)):
            point = {"dataId": f"core {ROUNDS:o}", "accessType": access}
            (shown,) = editor.ask("setDataBreakpoints", breakpoints=[point])["breakpoints"]
            self.assertTrue(shown["verified"])
            self.assertNotIn("message", shown)
            self.walk(editor, turns, "data breakpoint", end)
        editor.ask("setDataBreakpoints", breakpoints=[])
        self.assertIn("no breakpoint", editor.type("breakpoints"))
        editor.ask("disconnect")

    def test_reads_that_cannot_be_had(self) -> None:
        _, launch = self.hanoi()
        editor = self.editor()
        editor.enter(**launch)
        for wrong, why in (
            ({"accessType": "execute"}, "no accessType"),
            ({"accessType": "read", "condition": "nothing"}, "no CONDITION"),
            ({"accessType": "readWrite", "hitCondition": "5"}, "several places or accesses"),
        ):
            point = {"dataId": f"core {MOVES:o}", **wrong}
            (shown,) = editor.ask("setDataBreakpoints", breakpoints=[point])["breakpoints"]
            self.assertFalse(shown["verified"])
            self.assertIn(why, shown["message"])
        self.assertIn("no breakpoint", editor.type("breakpoints"))
        editor.ask("disconnect")

    def test_hits_that_count(self) -> None:
        """Against all turns at the instruction, on the way there and back."""
        explorer, launch = self.hanoi()
        editor, end = self.editor(), 4_000
        editor.enter(**launch, end=end)
        turns = [it.turn for it in explorer.machine.turns(0, end) if it.pc == 0o1254]
        self.assertGreater(len(turns), 6)
        for hit, wanted in (("3", turns[2:3]), (">= 4", turns[3:]), ("% 2", turns[1::2])):
            self.set(editor, "setFunctionBreakpoints", [{"name": "1254", "hitCondition": hit}])
            self.walk(editor, wanted, "function breakpoint", end)
        for wrong in ("x", "%0", "> -1"):
            point = {"name": "1254", "hitCondition": wrong}
            (shown,) = editor.ask("setFunctionBreakpoints", breakpoints=[point])["breakpoints"]
            self.assertFalse(shown["verified"])
            self.assertIn("hitCondition: ", shown["message"])
        editor.ask("disconnect")

    def test_messages_that_do_not_stop(self) -> None:
        explorer, launch = self.hanoi()
        editor, end = self.editor(), 4_000
        editor.enter(**launch, end=end)
        turns = [it.turn for it in explorer.machine.turns(0, end) if it.pc == 0o1254]
        message = {"name": "1254", "logMessage": "{turn} has {R1} {{}}"}
        self.set(editor, "setFunctionBreakpoints", [message])
        self.assertEqual(editor.go("continue")[0], end)
        said = "".join(it["body"]["output"] for it in editor.events if it["event"] == "output")
        registers = explorer.machine.registers
        wanted = "".join(f"{it} has {registers(it)['R1']:06o} {{}}\n" for it in turns)
        self.assertEqual(said, wanted)
        wrong = {"name": "1254", "logMessage": "{nothing}"}
        (shown,) = editor.ask("setFunctionBreakpoints", breakpoints=[wrong])["breakpoints"]
        self.assertIn("'nothing' is no register", shown["message"])
        self.assertEqual(editor.go("reverseContinue"), (0, "entry"))
        editor.ask("disconnect")

    def test_a_register_on_the_bus_with_a_condition(self) -> None:
        """The kernel's MOV #100,@#LKS at 1102 alone writes LKS."""
        explorer, editor, end = self.ledger(), self.editor(), 12_000
        editor.enter(**OF_LEDGER, end=end)
        self.assertIsNone(editor.ask("dataBreakpointInfo", name="R0")["dataId"])
        point = {"dataId": editor.ask("dataBreakpointInfo", name="lks")["dataId"]}
        self.assertEqual(point["dataId"], "core 777546")
        machine = explorer.machine
        acts = (it for it in machine.turns(0, end) if (it.pc, it.act) == (0o1102, "instr"))
        after = {it.turn: machine.registers(it.turn + 1).words for it in acts}
        values = {it: {of[it] for of in after.values()} for it in ("R0", "R1", "R2", "R3", "USP")}
        name = next(it for it in values if len(values[it]) > 1)
        value = max(values[name])
        wanted = [it for it, of in after.items() if of[name] == value]
        self.set(editor, "setDataBreakpoints", [{**point, "condition": f"{name} = {value:o}"}])
        for turn in wanted:
            self.assertEqual(editor.go("continue"), (turn + 1, "data breakpoint"))
        for turn in wanted[::-1]:
            self.assertEqual(editor.go("reverseContinue"), (turn, "data breakpoint"))
        editor.ask("disconnect")

    def test_pause_is_heard_while_reads_are_looked_for(self) -> None:
        _, launch = self.hanoi()
        editor = self.editor()
        editor.enter(**launch)
        editor.ask("setDataBreakpoints", breakpoints=[{"dataId": "core 0", "accessType": "read"}])
        editor.ask("continue", threadId=1)
        self.assertEqual(editor.go("pause")[1], "pause")
        editor.ask("disconnect")

    def run_of(
        self, explorer: Explorer, end: int
    ) -> Iterator[tuple[Turn, Registers, Registers]]:
        """Each turn, and the registers before it and after it."""
        machine = explorer.machine
        replies = machine.read_all([f"regs {it}" for it in range(end + 1)], SHORT_SENT_AHEAD)
        registers = list(map(Registers.of, replies))
        yield from zip(machine.turns(0, end), registers, registers[1:])

    def at_each(
        self, kinds: list[tuple[str, list[object], list[int], str]], launch: Object, end: int
    ) -> None:
        """Sets each of these breakpoints by itself, and walks over where it is to stop."""
        editor = self.editor()
        editor.enter(**launch, end=end)
        for request, items, wanted, reason in kinds:
            self.set(editor, request, items)
            self.walk(editor, wanted, reason, end)
            self.set(editor, request, [])
        editor.ask("disconnect")

    def test_breakpoints_at_instructions(self) -> None:
        """Against what each turn runs and finds."""
        explorer, launch = self.hanoi()
        end, of_functions = 4_000, "setFunctionBreakpoints"
        turns = [it for it in self.run_of(explorer, end) if it[0].act == "instr"]
        at = [it.turn for it, _, _ in turns if it.pc == 0o1254]
        deep = [it.turn for it, before, _ in turns if it.pc == 0o1072 and before.words["R0"] == 2]
        by_reference = {"instructionReference": "0x238", "offset": 2, "condition": "R0 = 2"}
        kinds: list[tuple[str, list[object], list[int], str]] = [
            (of_functions, [{"name": "1254"}], at, "function breakpoint"),
            (
                of_functions,
                [{"name": "kernel 1072", "condition": "R0==2"}],
                deep,
                "function breakpoint",
            ),
            ("setInstructionBreakpoints", [by_reference], deep, "instruction breakpoint"),
        ]
        self.at_each(kinds, launch, end)

    def test_writes_with_conditions(self) -> None:
        """The condition holds after the write, of this word and of another one."""
        explorer, launch = self.hanoi()
        end, data = 4_000, f"core {MOVES:o}"
        lines = explorer.machine.writes(range(end), MOVES)[0]
        writes = {int(it.split()[0]): int(it.split()[2], 8) for it in lines}
        rounds = explorer.machine.single_words([f"mem {it + 1} {ROUNDS:o} 1" for it in writes])
        late = [turn for turn, word in zip(writes, rounds) if word > 1]
        kinds: list[tuple[str, list[object], list[int], str]] = [
            ("setDataBreakpoints", [{"dataId": data, "condition": it}], wanted, "data breakpoint")
            for it, wanted in (
                (f"core {ROUNDS:o} > 1", late),
                (f"{data}&3 == 1", [it for it, word in writes.items() if word & 3 == 1]),
            )
        ]
        self.at_each(kinds, launch, end)

    def test_vectors_with_conditions(self) -> None:
        """Of interrupts and of traps."""
        explorer, launch = self.hanoi()
        end = 4_000
        turns = list(self.run_of(explorer, end))
        ticks = [(it.turn, before.words["KSP"]) for it, before, _ in turns if it.vector == 0o100]
        ways = [(it.turn, before.pc, after.pc) for it, before, after in turns]
        of_ticks = {"filterId": "vector 100", "condition": "KSP < 750"}
        found: list[tuple[object, list[int]]] = [
            ("vector 100", [turn for turn, _ in ticks]),
            ("trap 30", [turn for turn, *way in ways if way == [0o1062, 0o1226]]),
            (of_ticks, [turn for turn, sp in ticks if sp < 0o750]),
        ]
        kinds = [("setExceptionBreakpoints", [it], wanted, "exception") for it, wanted in found]
        self.at_each(kinds, launch, end)

    def set(self, editor: Editor, request: str, items: list[object]) -> None:
        """Sets these breakpoints, which are verified."""
        if request == "setExceptionBreakpoints":
            filters = [it for it in items if isinstance(it, str)]
            options = [it for it in items if isinstance(it, dict)]
            shown = editor.ask(request, filters=filters, filterOptions=options)
        else:
            shown = editor.ask(request, breakpoints=items)
        self.assertEqual([it["verified"] for it in shown["breakpoints"]], [True] * len(items))

    def test_lines(self) -> None:
        """A breakpoint at a line of user programs, in each process that comes there."""
        explorer, editor = self.ledger(), self.editor()
        editor.enter(**OF_LEDGER, end=60_000)
        line = line_with("ADD R2,@#BALANCE")
        source = {"path": str(LISTING)}
        comment = line_with("; A tick: the process is saved")
        shown = editor.ask(
            "setBreakpoints", source=source, breakpoints=[{"line": line}, {"line": comment}]
        )["breakpoints"]
        self.assertEqual([it["line"] for it in shown], [line, comment + 1])
        found: Optional[int] = -1
        wanted: list[int] = []
        places = ("at 12 user", "at 1102 kernel")
        while found is not None:
            wanted += [found]
            left = range(found + 1, 60_000)
            hits = [explorer.machine.found("first", left, it) for it in places]
            found = min((it for it in hits if it is not None), default=None)
        self.assertGreater(len(wanted), 20)
        for turn in wanted[1:20]:
            self.assertEqual(editor.go("continue"), (turn, "breakpoint"))
        ids = {it["id"] for it in shown}
        self.assertTrue(set(editor.hit) <= ids)
        lines = editor.ask("breakpointLocations", source=source, line=comment, endLine=comment + 2)
        self.assertEqual(lines["breakpoints"], [{"line": comment + 1}, {"line": comment + 2}])
        editor.ask("setBreakpoints", source=source, breakpoints=[])
        self.assertEqual(editor.go("continue"), (60_000, "pause"))
        targets = editor.ask("gotoTargets", source=source, line=line)["targets"]
        self.assertEqual(len(targets), 1)
        at = explorer.machine.found("latest", range(60_000), "at 12 user")
        self.assertEqual(editor.go("goto", targetId=targets[0]["id"]), (at, "goto"))
        editor.ask("disconnect")

    def test_where_it_is_between_two_parts(self) -> None:
        """The current turn is the last one that was looked at, so none is passed over."""
        explorer = self.explorer("", core("5200 776"))
        run = ahead(explorer, 100_000)
        next(run)
        next(run)
        self.assertEqual(explorer.turn, FIRST_PART - 1)
        half = FIRST_PART // 2
        list(COMMANDS["break"].lines(explorer, f"1000 if R0 = {half:o}"))
        run = ahead(explorer, 100_000)
        with self.assertRaises(StopIteration) as end:
            while True:
                next(run)
        self.assertEqual(end.exception.value.turn, FIRST_PART)

    def test_two_that_stop_before_one_turn(self) -> None:
        """A write, and the instruction behind it."""
        explorer, launch = self.hanoi()
        editor = self.editor()
        editor.enter(**launch)
        turn = int(explorer.machine.writes(range(4_000), MOVES)[0][3].split()[0])
        self.to(editor, turn - 1)
        behind = explorer.machine.registers(turn + 1).pc
        self.set(editor, "setDataBreakpoints", [{"dataId": f"core {MOVES:o}"}])
        self.set(editor, "setFunctionBreakpoints", [{"name": f"{behind:o}"}])
        self.assertEqual(editor.go("continue"), (turn + 1, "data breakpoint"))
        self.assertEqual(editor.hit, [1, 2])
        self.assertEqual(editor.go("reverseContinue"), (turn, "data breakpoint"))
        self.assertEqual(editor.hit, [1])
        editor.ask("disconnect")

    def test_a_breakpoint_in_a_routine_stops_what_steps_over_it(self) -> None:
        explorer, launch = self.hanoi()
        editor = self.editor()
        editor.enter(**launch)
        call = explorer.machine.found("first", range(100), "at 1026")
        assert call is not None
        inside = explorer.machine.found("first", range(call, 5_000), "at 1164")
        self.to(editor, call)
        self.set(editor, "setFunctionBreakpoints", [{"name": "1164"}])
        self.assertEqual(editor.go("next"), (inside, "function breakpoint"))
        self.set(editor, "setFunctionBreakpoints", [])
        end = self.goes_to(explorer, call, "over")
        self.to(editor, call)
        self.assertEqual(editor.go("next"), (end, "step"))
        last = explorer.machine.found("latest", range(call, end), "at 1164")
        self.set(editor, "setFunctionBreakpoints", [{"name": "1164"}])
        self.assertEqual(editor.go("stepBack"), (last, "function breakpoint"))
        editor.ask("disconnect")
