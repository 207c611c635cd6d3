"""Searches ask upwards: how often a command asks about an earlier turn than just before."""
from pathlib import Path
from unittest import mock

from nezdrab.analysis.disassembly import Disassembler
from nezdrab.analysis.explorer import Explorer
from nezdrab.analysis.sweep import LineSweep
from nezdrab.core.engine import Machine
from nezdrab.core.program import Program
from nezdrab.main import read_session
from nezdrab.shell.command_table import COMMANDS

from .machines import LEDGER, OnMachine

# MOV #1000,R0; INC @#2000; SOB R0,.-4; HALT: the word at 2000 is written 512 times, up to 001000
COUNTING = ("1000 12700", "1002 1000", "1004 5237", "1006 2000", "1010 77003", "1012 0")


class Depth(OnMachine):
    """How often the machine goes back."""

    def done(self, explorer: Explorer, line: str, most: int) -> list[str]:
        """What the command writes. It may go back so often."""
        word, _, rest = line.partition(" ")
        before = explorer.machine.asked.went_back
        written = list(COMMANDS[word].lines(explorer, rest))
        self.assertLessEqual(explorer.machine.asked.went_back - before, most, line)
        return written

    def test_a_question_about_an_earlier_turn_goes_back(self) -> None:
        machine = self.explorer().machine
        lines = "regs 5,mem 5 0 1,regs 3,trail 9 6,regs 9,trail 9 1,last 9 0"
        for line in lines.split(","):
            machine.read(line)
        self.assertEqual((machine.asked.went_back, machine.asked.greatest), (2, 9))
        # a question that is refused was not asked
        for line in ("regs 9999999999", "mem 900 1 1"):
            self.assertTrue(machine.ask(line).startswith("refused"))
        self.assertEqual(machine.asked.greatest, 9)
        machine.read("latest 2 40 at 1000")
        self.assertEqual((machine.asked.turn, machine.asked.greatest), (40, 40))
        machine.read("counts 3 50 kernel 1000 1")
        self.assertEqual((machine.asked.turn, machine.asked.greatest), (50, 50))
        for line in ("translate 7 user 0", "virtual 7 user 0 1", "find 7 0 6 1", "finddsk 7 0 6 1"):
            machine.read(line)
            self.assertEqual((machine.asked.turn, machine.asked.greatest), (7, 50), line)

    def test_see(self) -> None:
        explorer = self.explorer(LEDGER)
        self.assertEqual(len(self.done(explorer, "see 131000 5000", 7)), 5001)
        # a word of an instruction that the turn itself changes
        explorer = self.explorer("", ("core 1000 5267", "core 1002 177776"))
        self.assertEqual(self.done(explorer, "see 1 1", 3)[1].split()[4:], ["INC", "1002"])

    def test_until(self) -> None:
        explorer = self.explorer(LEDGER)
        self.done(explorer, "until PC 7776 to 60000", 0)
        self.assertIn("turn 138127: kernel", self.done(explorer, "until PC 1454 from 128000", 2)[0])
        self.assertIn("user 000002", self.done(explorer, "until mode user from 1000", 3)[0])
        self.done(explorer, "until text =000110", 1)

    def test_page(self) -> None:
        explorer = self.explorer(LEDGER)
        machine, path = explorer.machine, self.folder / "it.html"
        machine.read("regs 5000")
        asked = machine.asked.questions
        for line in (f"page {path}", f"page {path} to 200000000"):
            self.done(explorer, line, 0)
        self.assertEqual(machine.asked.questions, asked, "no turn is run")

    def test_first_core(self) -> None:
        explorer = self.explorer(LEDGER)
        found = self.done(explorer, "first core 30000 = 132", 3)
        self.assertEqual(found, ["turn 127850: cpu 000132, by user 000012 ADD R2,@#20000"])
        counting = self.explorer("", [f"core {it}" for it in COUNTING])
        self.assertIn("turn 1023: cpu 001000", self.done(counting, "first core 2000 = 1000", 3)[0])
        found = self.done(counting, "first core 2000 = 1001 to 5000", 1)
        self.assertEqual(found, ["not in the turns 0 to 5000"])
        writes = list(counting.finder.writes(range(3000), 0o2000))
        self.assertEqual([it.turn for it in writes], list(range(1, 1024, 2)))
        self.assertEqual([it.word for it in writes], list(range(1, 513)))

    def test_disk_words_of_very_many_looks(self) -> None:
        """The disk takes three turns, so a million looks would be needed."""
        explorer = self.explorer(LEDGER, ["delay disk 3"])
        words = list(explorer.machine.single_words([f"dsk {it} 0 1" for it in range(240_000)]))
        self.assertGreater(len(set(words)), 10)
        for word in sorted(set(words) - {words[0]}):
            found = self.done(explorer, f"first disk 0 = {word:o} to 3000000", 12)[0]
            self.assertTrue(found.startswith(f"turn {words.index(word) - 1}: "), found)
        changes = [at for at, pair in enumerate(zip(words, words[1:])) if pair[0] != pair[1]]
        for first, turn in zip([0, *(it + 1 for it in changes)], changes):
            found = self.done(explorer, f"next disk 0 from {first}", 12)[0]
            self.assertTrue(found.startswith(f"turn {turn}: disk 0000000 goes from "), found)

    def exchanges(self) -> "mock._patch[mock.Mock]":
        """Counts how often explore waits for the program."""
        return mock.patch.object(
            Program, "exchange", autospec=True, side_effect=Program.exchange
        )

    def test_a_session_is_sent_ahead(self) -> None:
        machine = self.explorer().machine
        path = Path(self.folder / "my.session")
        lines = [f"at {it} tick" for it in range(30_000)]
        path.write_text("".join(f"{it}\n" for it in (*lines, "at 5 x", "version 2", "disk 9 5 5")))
        with self.exchanges() as exchange, mock.patch("nezdrab.main.complain") as complain:
            read_session(machine, path)
            self.assertLess(exchange.call_count, 50)
        said = [it.args[0].split(" BadLine ")[1] for it in complain.call_args_list]
        self.assertTrue(said[0].startswith("at T event: there is no event 'x'"), said)
        self.assertTrue(said[1].startswith("disk D I W: D, a drive, is octal, and '9'"), said)
        self.assertEqual(len(machine.script), 30_000)
        shown = list(COMMANDS["events"].lines(Explorer(machine, Disassembler(None)), ""))
        self.assertEqual(sum(it.count("\n") + 1 for it in shown), 30_001)
        self.assertLess(len(shown), 50)  # each is written at once

    def test_the_past_is_asked_for_once_after_an_edit_of_it(self) -> None:
        explorer = self.explorer()
        machine = explorer.machine
        machine.edit_all(["at 9 key 0101", "at 5 tick", "at 9 switches 7", "alter 1 5 key 7"])
        wanted = ["event     2  at          5  tick", "event     1  at          5  key 7  Ctrl-G"]
        wanted.append("event     3  at          9  switches 7")
        steps: list[tuple[list[str], int, list[str]]] = [
            ([], 2, wanted),
            (["core 1000 5", "delay disk 3"], 1, wanted),
            (["drop 2"], 1, wanted[1:]),
            (["version 2", "at 9 x"], 1, wanted[1:]),
        ]
        for edits, count, shown in steps:
            machine.edit_all(edits)
            with self.exchanges() as exchange:
                for _ in range(3):
                    found = list(COMMANDS["events"].lines(explorer, ""))
                    version, delay = machine.setup.version, machine.setup.delays["disk"]
                self.assertEqual(exchange.call_count, count)
            self.assertEqual("\n".join(found[1:]).splitlines(), shown)
        self.assertEqual((version, delay), (2, 3))
        machine.take_back(2)
        self.assertEqual((machine.setup.version, len(machine.script)), (1, 3))

    def test_keys_are_typed_where_they_are_free(self) -> None:
        """Those of a program that waits for a while after each key. The program is asked twice a
        key at most, but for the first ones."""
        program = ("12700", "400", "77001", "105737", "177560", "100375", "113701", "177562", "767")
        core = [f"core {0o1000 + 2 * at:o} {word}" for at, word in enumerate(program)]
        explorer = self.explorer("", core)
        explorer.machine.edit_all(["at 600 key 1", "at 2000 key 3"])
        with self.exchanges() as exchange:
            self.done(explorer, f"type {'a' * 100} from 5", 10_000)
            self.assertLess(exchange.call_count, 2 * 100 + 20)
        turns = explorer.machine.turns_of("key")
        waits = [explorer.machine.devices(it).key_waits for it in range(turns[-1] + 1)]
        typed = [it for it in turns if it not in (600, 2000)]
        for before, turn in zip(typed, typed[1:]):
            free = next(it for it in range(before + 1, turn + 1) if not waits[it])
            self.assertEqual(turn, free if free not in (600, 2000) else turn)

    def test_a_sweep_runs_no_program_but_those_that_work(self) -> None:
        explorer = self.explorer()
        explorer.machine.edit_all(["at 3 tick", "drop 1"])  # so the swept event is event 2
        with mock.patch.object(Machine, "twin", autospec=True, side_effect=Machine.twin) as twin:
            written = self.done(explorer, "sweep -j 2 key 101 from 5 to 9: regs 20", 0)
            self.assertEqual(twin.call_count, 2)
        self.assertEqual(written[-1], "5 turns, 1 run of equal replies")

    def test_a_sweep_keeps_a_state_shortly_before_its_first_turn(self) -> None:
        machine = self.explorer().machine
        for first, asked in ((99_997_000, 100_000_000), (126_400, 131_000), (70_000, 10_000_000)):
            text = f"key 101 from {first} to {first + 999}: mem {asked} 1000 1"
            sweep = LineSweep.of_line(machine, text)
            stride = sweep.stride(sweep.turns[0]) or 0
            self.assertLess(first % stride, 256)
            self.assertGreaterEqual(stride * 256, asked)
        sweep = LineSweep.of_line(machine, "tick from 0 to 9: regs 20")
        self.assertIsNone(sweep.stride(sweep.turns[0]))
        twin = machine.twin(stride=12_345)
        self.addCleanup(twin.close)
        self.assertEqual(twin.start.options, ["--stride", "12345"])
