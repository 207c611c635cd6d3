"""What a value is made of, backwards, against labels that are carried forwards through all turns,
and against runs in which an event brings another byte."""
import random
import re
from typing import Sequence

from nezdrab.analysis.cells import ALL_CODES, drive_cell, is_on_bus, register_cells
from nezdrab.analysis.explorer import Explorer
from nezdrab.analysis.labels import Labels, events_with_data
from nezdrab.analysis.last_writes import LastWrites
from nezdrab.analysis.origins import Origins
from nezdrab.core.in_words import ranges
from nezdrab.analysis.turn_flow import Flows
from nezdrab.core.engine import Machine
from nezdrab.core.errors import ExploreError
from nezdrab.shell.command_table import COMMANDS

from .machines import LEDGER, OnMachine
from .terminal import AtTerminal

TURNS, PAIRS, STEPS = 31_000, 20, 300
END = 238_614


def lines_of(explorer: Explorer, line: str) -> list[str]:
    word, _, rest = line.partition(" ")
    return list(COMMANDS[word].lines(explorer, rest))


def forwards(machine: Machine, asked: dict[int, list[int]]) -> dict[tuple[int, int], set[int]]:
    """The events that cells are made of before turns, where labels are carried through all of them.
    At a turn without cells some that have labels are taken."""
    labels, found = Labels(), dict[tuple[int, int], set[int]]()
    brought: dict[int, list[tuple[Sequence[int], int]]] = {}
    for it in events_with_data(machine):
        brought.setdefault(it.turn, []).append((it.cells, 1 << it.number))
    for flow in Flows(machine, range(0, TURNS)):
        for cell in asked.get(flow.turn, ()):
            found[cell, flow.turn] = numbers(labels.of([cell]))
        if flow.turn in asked:
            chance = random.Random(flow.turn)
            labelled = sorted(it for it in labels.bits if not is_on_bus(it))
            for cell in chance.sample(labelled, min(2, len(labelled))):
                found[cell, flow.turn] = numbers(labels.bits[cell])
        for cells, bit in brought.get(flow.turn, ()):
            for cell in cells:
                labels.put(cell, bit)
        if flow.transfer is not None:
            labels.transfer(flow.transfer)
        labels.turn(flow.moves)
    return found


def numbers(bits: int) -> set[int]:
    return {it for it in range(bits.bit_length()) if bits >> it & 1}


class Backwards(OnMachine):
    def test_the_events_are_those_whose_labels_come_there(self) -> None:
        machine, chance = self.explorer(LEDGER).machine, random.Random(3)
        cells = [register_cells(it)[0] for it in (0, 1, 2, 5)] + [*ALL_CODES, drive_cell(0, 0)]
        cells += [0o1522, 0o1524, 0o1526, 0o30000, 0o40000, 0o776, *range(0o1530, 0o1624, 2)]
        turns = [*range(18_263, 18_300, 5), *chance.sample(range(1, TURNS), PAIRS)]
        asked = {turn: [chance.choice(cells)] for turn in turns}
        truth, made, origins = forwards(machine, asked), 0, Origins(machine, TURNS)
        for (cell, turn), wanted in truth.items():
            graph = origins.graph([origins.before(cell, turn)], STEPS)
            if graph.is_whole:
                self.assertEqual(set(graph.events()), wanted, (f"{cell:o}", turn))
                made += bool(wanted)
            else:  # it goes on too far back
                self.assertLessEqual(set(graph.events()), wanted)
        self.assertGreater(made, 15)

    def test_what_it_is_made_of_changes_it(self) -> None:
        """Each deposit that the balance is made of changes it, no other event does, and the run of
        the ADD that left nothing is that of the deposit which changes nothing."""
        explorer = self.explorer(LEDGER)
        machine = explorer.machine
        twin = machine.twin()
        self.addCleanup(twin.close)
        balance, changing = machine.disk_word(END, 0, 0), []
        for it in machine.script:
            byte = 0o61 if it.text != "key 61" else 0o62
            other = f"key {byte:o}" if it.text != "key 75" else "key 74"
            twin.ask(f"alter {it.number} {it.turn} {other}")
            is_same = it.text == "key 75" or twin.disk_word(END, 0, 0) == balance
            twin.ask(f"alter {it.number} {it.turn} {it.text}")
            changing += [] if is_same else [it.number]
        made = next(it for it in lines_of(explorer, f"why disk 0 at {END}") if "made of" in it)
        self.assertTrue(made.startswith(f"made of events {ranges(changing)}, not of "), made)
        gone = lines_of(explorer, f"lost PC 12 user from 120000 to {END - 90_000}")
        self.assertEqual([it.split(":")[0] for it in gone[:-1]], ["turn 127420"])

    def test_text_and_registers(self) -> None:
        explorer = self.explorer(LEDGER)
        lines = lines_of(explorer, "why text 2 at 127800")
        (receipt,) = (it for it in lines if it.startswith("made of"))
        self.assertEqual(receipt, "made of event 15, not of 1-14")
        self.assertEqual(explorer.turn, 127_800)
        self.assertIn("made of event 15, not of 1-14", lines_of(explorer, "why R2 at 127500"))
        lines = lines_of(explorer, "why 1524 at 127500")
        self.assertTrue(any("22 operations on it (MOVB BIC)" in it for it in lines))
        self.assertIn("made of no event, not of 1-15", lines)
        lines = lines_of(explorer, "why R2 at 127500")
        self.assertGreater(len(lines_of(explorer, "why R2 at 127500 places")), len(lines))

    def test_a_limit_is_said(self) -> None:
        lines = lines_of(self.explorer(LEDGER), f"why disk 0 at {END} steps 20")
        (made,) = (it for it in lines if it.startswith("made of"))
        self.assertTrue(made.endswith(", as far as it was followed"), made)
        self.assertIn("weren't followed: the limit is 20 steps, which `steps C` sets", lines[-1])

    def test_words_that_cannot_be_asked(self) -> None:
        explorer = self.explorer("", ["core 1000 777"])
        for words, said in (
            ("text at 3", "the text has 0 bytes before turn 3"),
            ("1001 at 3", "mem 3 1001 1: refused 3 OddAddress"),
            ("760000 at 3", "mem 3 760000 1: refused 2 OutsideCore"),
            ("disk 4604000", "dsk 0 4604000 1: refused 4 OutsideDisk"),
            ("disk 1 0", "version 1 has one drive, which isn't named; see version 2"),
            ("R1 at 9999999999", "turn 9999999999 is above 1000000000"),
            ("R1 steps 0", "C of steps is 1 or more"),
        ):
            with self.assertRaises(ExploreError) as raised:
                lines_of(explorer, f"why {words}")
            self.assertEqual(str(raised.exception), said)

    def test_at_power_up(self) -> None:
        explorer = self.explorer("", ["core 1000 777", "core 2000 5", "disk 3 7"])
        said = "  core 002000 <- core 002000, 000005 since power-up (a patch)"
        self.assertEqual(lines_of(explorer, "why 2000")[1], said)
        said = "  core 002002 <- core 002002, 000000 since power-up"
        self.assertEqual(lines_of(explorer, "why 2002 at 9")[1], said)
        self.assertIn("(a patch)", lines_of(explorer, "why disk 3 at 1000")[1])
        said = "  R4 <- R4, 000000 since power-up"
        self.assertEqual(lines_of(explorer, "why R4 at 1000")[1], said)


class Counters(OnMachine):
    """A clock's handler counts ticks: INC @#2000, a byte in INCB @#2003, and RTI."""

    PROGRAM = {
        0o1000: "12706 1000 12737 100 177546 5200 776",
        0o100: "1100 340",
        0o1100: "5237 2000 105237 2003 2",
    }
    STEPS, END = 400, 30_000

    def counting(self) -> Explorer:
        words = [
            f"core {first + 2 * at:o} {it}"
            for first, text in self.PROGRAM.items()
            for at, it in enumerate(text.split())
        ]
        return self.explorer("", [*words, "delay clock 53"])

    def test_the_last_writes_are_those_that_are_asked_one_by_one(self) -> None:
        machine = self.counting().machine
        writes, chance = LastWrites(machine), random.Random(5)
        for address in (0o2000, 0o2002, 0o774):
            turn = self.END
            for _ in range(200):
                last = machine.last(turn, address)
                self.assertEqual(writes.before(turn, address), last)
                turn = last.turn if last and chance.random() < 0.95 else chance.randrange(self.END)
        self.assertTrue(any(it.writes for it in writes.chains.values()))

    def test_a_counter_is_followed_without_going_back_for_each_step(self) -> None:
        explorer = self.counting()
        asked = explorer.machine.asked
        lines = lines_of(explorer, f"why 2000 at {self.END} steps {self.STEPS}")
        self.assertIn("operations on it (the last 40: INC)", "".join(lines))
        self.assertIn(f"the limit is {self.STEPS} steps", lines[-1])
        self.assertLess(asked.went_back, self.STEPS // 4)


class Places(OnMachine):
    """A key that chooses a word of a table: MOVB @#177562,R1 and MOVB 2000(R1),R2."""

    PROGRAM = "105737 177560 100375 113701 177562 116102 2000 777"

    def table(self, key: int) -> Explorer:
        words = enumerate(self.PROGRAM.split())
        program = [f"core {0o1000 + 2 * at:o} {word}" for at, word in words]
        return self.explorer("", [*program, "core 2100 1000", "core 2102 1", f"at 1 key {key:o}"])

    def test_an_address_is_made_of_a_key(self) -> None:
        explorer = self.table(0o101)
        _, line, held = lines_of(explorer, "follow 1 to 100")
        said = "an address is made of it: kernel 001012 MOVB 2000(R1),R2"
        self.assertRegex(line, rf"^turn \d+: {re.escape(said)}$")
        self.assertIn("in: TKB R1; core none", held)
        held = lines_of(explorer, "follow 1 to 100 places")[-1]
        self.assertIn("in: TKB R1 R2 code Z code N; core none", held)
        self.assertIn("made of no event, not of 1", lines_of(explorer, "why R2 at 100"))
        self.assertIn("made of event 1", lines_of(explorer, "why R2 at 100 places"))

    def test_the_value_is_another_one(self) -> None:
        values = [self.table(it).machine.registers(100).words["R2"] for it in (0o101, 0o102)]
        self.assertEqual(values, [2, 1])


class Transfers(OnMachine):
    """The way through the disk: a word is read from the drive, changed, and written with zeros."""

    PROGRAM = (
        "12737 2000 177410 12737 177777 177406 12737 5 177404 105737 177404 100375 5237 2000"
        " 12737 2000 177410 12737 177777 177406 12737 0 177412 12737 3 177404 105737 177404"
        " 100375 777"
    )

    def machine_with(self, *edits: str) -> Explorer:
        words = enumerate(self.PROGRAM.split())
        program = [f"core {0o1000 + 2 * at:o} {word}" for at, word in words]
        return self.explorer("", [*program, "disk 0 41", "disk 1 77", *edits])

    def test_a_word_through_the_disk(self) -> None:
        for delay in ("delay disk 1", "delay disk 7", "delay disk 200"):
            lines = lines_of(self.machine_with(delay), "why disk 0 at 2000")
            self.assertIn("copied by the disk in turn", lines[1])
            self.assertIn("INC @#2000: 000042", lines[1])
            self.assertIn("disk 0000000, 000041 since power-up (a patch)", lines[2])

    def test_zeros_that_fill_a_sector(self) -> None:
        explorer = self.machine_with()
        lines = lines_of(explorer, "why disk 1 at 2000")
        self.assertIn("the zeros that fill the sector of disk 0000001: 000000", lines[1])
        lines = lines_of(explorer, "why disk 400 at 2000")
        self.assertIn("disk 0000400, 000000 since power-up", lines[1])

    def test_a_word_of_which_one_byte_was_written(self) -> None:
        program = (
            "12737 2000 177410 12737 177776 177406 113737 177562 2000 12737 3 177404 777"
        )
        words = [f"core {0o1000 + 2 * at:o} {it}" for at, it in enumerate(program.split())]
        explorer = self.explorer("", ["version 2", *words, "core 2000 400", "at 1 key 101"])
        lines = lines_of(explorer, "why disk 0 0 at 50")
        self.assertIn("a write of the disk to disk 0 0000000: 000501", lines[1])
        self.assertIn("event 1: key 101", lines[2] + lines[3])
        self.assertIn("core 002000, 000400 since power-up (a patch)", lines[2] + lines[3])

    def test_a_transfer_that_an_event_ends(self) -> None:
        edits = ("delay disk 0", "at 9 disk", "at 30 disk")
        lines = lines_of(self.machine_with(*edits), "why disk 0 at 2000")
        self.assertIn("copied by the disk in turn 30,", lines[1])
        self.assertIn("copied by the disk in turn 9,", lines[2])


class Stopped(AtTerminal):
    def test_ctrl_c_ends_it(self) -> None:
        self.begin("examples/ledger/ledger.session")
        self.type("why R4 at 900000000 steps 100000\n")
        self.wait_for(b"why: at work")
        self.interrupt()
        self.wait_for(b"stopped")
        self.type("regs 1\n")
        self.wait_for(b"run\r\n")
        self.end()


class Lost(OnMachine):
    def test_runs(self) -> None:
        explorer = self.explorer(LEDGER)
        (early, count) = lines_of(explorer, "lost PC 12 user from 120000 to 128599")
        place = "user 000012 ADD R2,@#20000"
        self.assertEqual(early, f"turn 127420: {place}: in core or a register, not on the disk")
        said = "1 on the disk, 1 in core or a register alone, 0 left nothing"
        self.assertEqual(count, f"2 runs of user 000012 in the turns 120000 to 128599: {said}")
        (none,) = lines_of(explorer, "lost PC 7776 from 0 to 5000")
        self.assertEqual(none, "0 runs of kernel 007776 in the turns 0 to 5000: 0 left nothing")
        (polled,) = lines_of(explorer, "lost PC 1472 from 18300 to 18400")
        self.assertIn("wrote no word and no register", polled)
