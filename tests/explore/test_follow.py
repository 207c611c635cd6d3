"""What became of an event, against runs in which the event brings another byte: what isn't made of
it must stay, as long as the turns are the same ones."""
import random
from unittest import mock

from nezdrab.analysis.cells import ALL_CODES, CODES, NAMES, drive_cell, register_cells, word_cells
from nezdrab.analysis.explorer import Explorer
from nezdrab.analysis.follow import Followed
from nezdrab.analysis.labels import Labels
from nezdrab.analysis.made_of import TWO_OPERANDS, MadeRow, plan_of
from nezdrab.analysis.turn_flow import Flows
from nezdrab.core.engine import Machine
from nezdrab.core.errors import ExploreError
from nezdrab.shell.command_table import COMMANDS

from .machines import LEDGER, OnMachine
from .terminal import AtTerminal

# The words of the ledger that its programs write.
PARTS = ((0o700, 64), (0o1520, 200), (0o30000, 4), (0o40000, 4), (0o50000, 4))
WORDS_OF_DISK = 4
DIGITS = range(0o61, 0o70)

# Two bytes for the printer, one after the other, at each key; @#177566 is TPB.
TWO_BYTES = (
    "105737 177560 100375 113700 177562 110037 177566 112737 101 177566 105737 177564 100375 762"
)


def cells_before(machine: Machine, turn: int) -> dict[int, int]:
    registers = machine.registers(turn)
    words = {register_cells(at): registers.words[name] for at, name in enumerate(NAMES)}
    for first, count in PARTS:
        found = machine.words(turn, first, count)
        words.update((word_cells(first + 2 * at), word) for at, word in enumerate(found))
    for at in range(WORDS_OF_DISK):
        words[drive_cell(0, at), drive_cell(0, at, 1)] = machine.disk_word(turn, 0, at)
    codes = {it: registers.ps >> it - CODES & 1 for it in ALL_CODES}
    bytes_of = {
        cell: byte
        for cells, word in words.items()
        for cell, byte in zip(cells, (word & 0o377, word >> 8))
    }
    return {**bytes_of, **codes}


def held_before(machine: Machine, number: int, end: int) -> set[int]:
    event = machine.event(number)
    assert event is not None
    followed = Followed(machine, event, Labels())
    for flow in Flows(machine, range(event.turn, end)):
        followed.turn(flow)
    return set(followed.labels.bits)


class AnotherByte(OnMachine):
    def differences(self, count: int) -> tuple[int, list[str]]:
        """How many cells differ in runs of the same turns, and which of them aren't made of the
        event."""
        machine = self.explorer(LEDGER).machine
        twin = machine.twin()
        self.addCleanup(twin.close)
        chance, differ, wrong = random.Random(5), 0, []
        deposits = [it for it in machine.script if it.text != "key 75"]
        while count:
            event = chance.choice(deposits)
            turn, end = event.turn, event.turn + chance.randrange(20, 3000)
            byte = chance.choice([it for it in DIGITS if event.text != f"key {it:o}"])
            twin.ask(f"alter {event.number} {turn} key {byte:o}")
            if list(machine.turns(turn, end - turn)) == list(twin.turns(turn, end - turn)):
                count -= 1
                before, after = cells_before(machine, end), cells_before(twin, end)
                held = held_before(machine, event.number, end)
                others = {it for it in before if before[it] != after[it]}
                differ += len(others)
                wrong += [f"event {event.number} at {end}: cell {it:o}" for it in others - held]
            twin.ask(f"alter {event.number} {turn} {event.text}")
        return differ, wrong

    def test_what_differs_is_made_of_the_event(self) -> None:
        differ, wrong = self.differences(20)
        self.assertEqual(wrong, [])
        self.assertGreater(differ, 40)

    def test_a_row_that_lacks_the_event_is_found(self) -> None:
        self.addCleanup(plan_of.cache_clear)
        plan_of.cache_clear()
        with mock.patch.dict(TWO_OPERANDS, {6: ("ADD", MadeRow("d", "dD", "D", "D", "D", "D"))}):
            _, wrong = self.differences(5)
        self.assertTrue(wrong)


class Printed(OnMachine):
    """Whether a byte that went to the printer was printed."""

    def followed(self, *edits: str) -> list[str]:
        words = enumerate(TWO_BYTES.split())
        program = [f"core {0o1000 + 2 * at:o} {word}" for at, word in words]
        explorer = self.explorer("", [*program, *edits, "at 5 key 102"])
        return lines_of(explorer, "1 to 200")

    def test_a_byte_that_another_one_replaces(self) -> None:
        (line,) = (it for it in self.followed("delay printer 9") if "printer" in it)
        self.assertTrue(line.startswith("turn 9: given to the printer, but not printed: "), line)

    def test_a_byte_that_comes_out_before_the_next_one(self) -> None:
        (line,) = (it for it in self.followed() if "printed" in it)
        self.assertTrue(line.startswith("turn 9: printed: "), line)

    def test_a_byte_that_does_not_come_out(self) -> None:
        lines = self.followed("delay printer 0", "core 1016 777")
        said = "turn 9: given to the printer, not printed before turn 200: "
        self.assertTrue(any(it.startswith(said) for it in lines), lines)


def lines_of(explorer: Explorer, words: str) -> list[str]:
    return list(COMMANDS["follow"].lines(explorer, words))


class Refused(OnMachine):
    def test_what_cannot_be_followed(self) -> None:
        explorer = self.explorer("", ["at 4 tick", "at 7 key 101"])
        for words, said in (
            ("3", "no event has the number 3; events lists them"),
            ("1", "event 1 is tick: it brings no data"),
            ("2 to 7", "event 2 is in turn 7; N is later"),
            ("2 to 1000000001", "turn 1000000001 is above 1000000000"),
            ("x", "the form is: follow E [to N] [places]"),
        ):
            with self.assertRaises(ExploreError) as raised:
                lines_of(explorer, words)
            self.assertEqual(str(raised.exception), said)

    def test_code_in_a_register_ends_it(self) -> None:
        edits = ["core 1000 137", "core 1002 177570", "at 0 switches 240"]
        *_, held, last = lines_of(self.explorer("", edits), "1 to 9")
        said = "before turn 1 something of it is in: switches; core none; disk none"
        self.assertEqual(held, said)
        why = "turn 1 takes its code or a pointer from a register at 777570: that isn't followed"
        self.assertEqual(last, f"the turns from 1 on weren't looked at: {why}")

    def test_another_event_takes_its_place(self) -> None:
        explorer = self.explorer("", ["core 1000 777", "at 7 key 101", "at 7 key 102"])
        held = "before turn 9 something of it is in: "
        self.assertEqual(lines_of(explorer, "1 to 9")[-1], f"{held}core none; disk none")
        self.assertEqual(lines_of(explorer, "2 to 9")[-1], f"{held}TKB; core none; disk none")


class AtPrompt(AtTerminal):
    def shows(self, line: str, *wanted: str) -> None:
        self.type(f"{line}\n")
        for it in wanted:
            self.wait_for(it.encode())

    def test_a_lost_deposit(self) -> None:
        self.begin("examples/ledger/ledger.session")
        overwritten = "turn 128066: disk 0000000 is overwritten: 000132 from core 030000"
        self.shows("follow 15", "turn 127636: the disk writes it", overwritten, "branches looked")
        self.end()

    def test_runs_that_left_nothing(self) -> None:
        self.begin("examples/ledger/ledger.session")
        lost = "user 000012 ADD R2,@#20000: nothing of it is left"
        place = "user 000012 in the turns 120000 to 140000"
        counts = f"3 runs of {place}: 2 on the disk, 1 left nothing"
        self.shows("lost PC 12 user from 120000 to 140000", f"turn 127420: {lost}", counts)
        self.type("lost PC 12 user from 18000 to 900000000\n")
        self.wait_for(b"turns,")  # the bar
        self.interrupt()
        self.wait_for(b" on weren't looked at: stopped")
        self.end()

    def test_ctrl_c_ends_it(self) -> None:
        self.begin("examples/ledger/ledger.session")
        self.type("follow 15 to 999999999\n")
        self.wait_for(b"turn 126967: event 15")
        self.wait_for(b" turns, 2 s")  # the bar, beyond the turns that have lines
        self.interrupt()
        self.wait_for(b"turn 128066: disk 0000000 is overwritten")
        self.wait_for(b" on weren't looked at: stopped")
        self.end()
