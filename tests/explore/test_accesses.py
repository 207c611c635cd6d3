"""The cycles on the bus: the writes of explore's rules against the stamps of core in stored
sessions, and what `accesses` shows of programs of a few words."""
from pathlib import Path

from nezdrab.core.engine import MOST_WORDS, Machine, Start
from nezdrab.core.errors import ExploreError
from nezdrab.core.hardware import IO_PAGE
from nezdrab.shell.command_table import COMMANDS
from tests import stored_sessions as sessions
from tests.checks.flows import each_flow

from .explore_case import BUILT, ROOT
from .machines import OnMachine
from .systems import OfSystems

RULES = (f"{sessions.RULES}/{it}" for it in ("memory-management", "hostile", "traps", "disk"))
FOLDERS = (*RULES, "examples")
TURNS, LOOKED_AT = range(0, 60), 0o20000
EDITS = {it.decode() for it in sessions.EDITS}


class Stamps(OfSystems):
    """The words that stored sessions write."""

    def machine_of(self, session: sessions.Session) -> Machine:
        machine = Machine(Start(BUILT.program, session.args, Path(session.folder)))
        self.addCleanup(machine.close)
        lines = [it.decode("latin-1").strip() for it in session.lines.split(b"\n")]
        machine.edit_all([it for it in lines if sessions.first_word(it) in EDITS and is_plain(it)])
        return machine

    def stamps(self, machine: Machine, address: int) -> dict[int, str]:
        lines, left = machine.writes(TURNS, address)
        self.assertFalse(left)
        return {int(turn): who for turn, who, _ in (it.split() for it in lines)}

    def changed(self, machine: Machine) -> set[int]:
        found: set[int] = set()
        for first in range(0, LOOKED_AT, 2 * MOST_WORDS):
            both = (machine.words(it, first, MOST_WORDS) for it in (TURNS.start, TURNS.stop))
            words = enumerate(zip(*both))
            found |= {first + 2 * at for at, (before, after) in words if before != after}
        return found

    def check(self, machine: Machine) -> int:
        """How many stamps were compared."""
        foretold: dict[int, dict[int, str]] = {}
        for _, flow, fault in each_flow(machine, TURNS):
            self.assertEqual(fault, "")
            if flow.transfer is not None and flow.transfer.is_read:
                for address in flow.transfer.in_core:
                    foretold.setdefault(address, {})[flow.turn] = "disk"
            for it in flow.cycles:
                if it.is_write_of(it.word) and it.word < IO_PAGE:
                    foretold.setdefault(it.word, {})[flow.turn] = "cpu"
        for address in self.changed(machine) | foretold.keys():
            self.assertEqual(foretold.get(address, {}), self.stamps(machine, address))
        return sum(map(len, foretold.values()))

    def test_stored_sessions(self) -> None:
        stamps = 0
        for folder in FOLDERS:
            for session in sessions.sessions_of(str(ROOT / folder)):
                if session.expected.status == 0 and "--help" not in session.args:
                    with self.subTest(session.name):
                        machine = self.machine_of(session)
                        stamps += self.check(machine)
                        machine.close()
        self.assertGreater(stamps, 4000)


def is_plain(line: str) -> bool:
    return line.isprintable() and len(line) <= sessions.LONGEST_LINE


class Shown(OnMachine):
    """The lines that are shown."""

    def cycles(self, words: str, turn: int, *edits: str) -> list[str]:
        """Those of a turn of the program with these words from 1000 on."""
        lines = [f"core {0o1000 + 2 * at:o} {it}" for at, it in enumerate(words.split())]
        explorer = self.explorer("", [*lines, *edits])
        _, _, *shown = COMMANDS["accesses"].lines(explorer, f"{turn + 1}")
        return [it.strip() for it in shown]

    def test_bytes_and_words_that_are_read_and_then_written(self) -> None:
        self.assertEqual(
            self.cycles("105237 2001", 0, "core 2000 401"),  # INCB @#2001
            ["read core 001000 105237", "read core 001002 002001"]
            + ["read core 002000 000401", "byte core 002001 000002"],
        )
        self.assertEqual(
            self.cycles("12700 2000 62730 5", 1, "core 2000 3000", "core 3000 7"),  # ADD #5,@(R0)+
            ["read core 001004 062730", "read core 001006 000005", "read core 002000 003000"]
            + ["read core 003000 000007", "write core 003000 000014"],
        )

    def test_registers_timeouts_and_the_vectors_of_traps(self) -> None:
        self.assertEqual(
            self.cycles("12706 700 13737 177562 170000", 1, "core 4 2000", "core 6 340"),
            ["read core 001004 013737", "read core 001006 177562", "read 777562 000000 TKB"]
            + ["read core 001010 170000", "write 770000 timeout"]
            + ["read core 000004 002000", "read core 000006 000340"]
            + ["write core 000676 000000", "write core 000674 001012"],
        )
        # KSP is below the limit: the red sequence
        self.assertEqual(
            self.cycles("12706 300 5046", 1, "core 4 2000"),
            ["read core 001004 005046", "read core 000004 002000", "read core 000006 000000"]
            + ["write core 000002 000000", "write core 000000 001006"],
        )

    def test_what_the_disk_does_comes_first(self) -> None:
        words = "12737 177776 177406 12737 2000 177410 12737 5 177404 240 240 240 240 240 240 240"
        self.assertEqual(
            self.cycles(f"{words} 240 240 13700 2000", 12, "disk 0 123"),
            ["disk: read of 2 words from word 0000000 of drive 0 to core 002000"]
            + ["read core 001044 013700", "read core 001046 002000", "read core 002000 000123"],
        )

    def test_events_and_what_comes_out(self) -> None:
        words = "112737 101 177566 777"  # MOVB #101,@#177566; BR to itself
        edits = ["at 1 switches 5", "at 1 key 102", "delay punch 3"]
        self.assertEqual(
            self.cycles(words, 1, *edits),
            ["event switches 000005", "event key 102", "printed 101", "read core 001006 000777"],
        )

    def test_more_turns_than_have_256_cycles(self) -> None:
        words = "63737 2000 2002 63737 2000 2002 771"  # ADD @#2000,@#2002 twice, and BR back
        lines = [f"core {0o1000 + 2 * at:o} {it}" for at, it in enumerate(words.split())]
        explorer = self.explorer("", lines)
        _, *shown = COMMANDS["accesses"].lines(explorer, "64 64")
        turns = [it for it in shown if not it.startswith(" " * 20)]
        self.assertEqual([int(it.split()[0]) for it in turns], list(range(64)))
        self.assertEqual(len(shown) - len(turns), 21 * 13 + 6)

    def test_what_is_refused(self) -> None:
        explorer = self.explorer()
        for line in ("0", "5 0", "9 65", "1000000001", "x"):
            with self.assertRaises(ExploreError):
                list(COMMANDS["accesses"].lines(explorer, line))
