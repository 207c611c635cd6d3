"""What turns make of what: the answers are the replies of the program, and a long count is asked in
parts."""
from pathlib import Path
from typing import Iterator

from nezdrab import Cell, CellKind, DiskMoved, Refused, TapeByte, TurnMoves, questions
from nezdrab.core.moves_of_turns import in_words, moves_of

from .machine_case import EXAMPLES, Case, replies

# Sessions with the turn that is asked about: keys, the disk, eight drives, mapping and traps, the
# tape.
ASKED = {
    "who-wrote-this-word": 40,
    "copy-of-a-pack": 900,
    "read-only-page": 60,
    "what-was-punched": 400,
    "tape-to-console": 300,
    "two-tasks": 200,
    "ledger/ledger": 128_067,
}
REPLY = """\
moves 14
turn 5
TKB of event 1
switches of event 0
PRB of tape 3 PRB
disk read 1 0000017 001000 12 in place
core 001000.0 of disk 1 0000017.0
core 001000.1 of nothing
KSP.1 of KSP.0
KSP.1 of KSP.1
code N of TKB
code N of tape 3
turn 6
switches of event 2
R5.0 of saved V"""


def lines_of(turn: TurnMoves) -> Iterator[str]:
    """The lines of a turn."""
    yield f"turn {turn.turn}"
    for name, number in (("TKB", turn.key), ("switches", turn.switches)):
        yield from [] if number is None else [f"{name} of event {number}"]
    if turn.tape is not None:
        yield f"PRB of tape {turn.tape.number}{' PRB' * turn.tape.is_at_end}"
    if turn.disk is not None:
        it = turn.disk
        words = f"{it.drive:o} {it.index:07o} {it.address:06o} {it.count}"
        yield f"disk {it.function} {words}{' in place' * it.stays}"
    for cell, sources in turn.made.items():
        yield from (f"{cell} of {source}" for source in sources or ["nothing"])


class Moves(Case):
    def test_each_line(self) -> None:
        for name, turn in ASKED.items():
            machine, path = self.of_session(f"{name}.session"), EXAMPLES / f"{name}.session"
            count = min(turn, 150)
            ends = range(turn, turn - count, -64)
            asked = [f"moves {it} {min(64, it - turn + count)}" for it in ends]
            parts = [it.splitlines()[1:] for it in replies(Path(path), asked)]
            wanted = [line for part in reversed(parts) for line in part]
            found = [line for it in machine.moves(turn, count) for line in lines_of(it)]
            self.assertEqual(found, wanted, name)

    def test_parts_of_a_reply(self) -> None:
        first, second = moves_of(REPLY)
        self.assertEqual([*lines_of(first), *lines_of(second)], REPLY.splitlines()[1:])
        self.assertEqual((first.key, first.switches, second.key), (1, 0, None))
        self.assertEqual(first.tape, TapeByte(3, True))
        self.assertEqual(first.disk, DiskMoved("read", 1, 0o17, 0o1000, 12, True))
        low, high, pointer, code = first.made
        self.assertEqual(low, Cell(CellKind.CORE, number=0o1000, half=0))
        self.assertEqual(first.made[low], (Cell(CellKind.DISK, number=0o17, half=0, drive=1),))
        self.assertEqual(first.made[high], ())
        self.assertEqual((pointer.kind, pointer.name, pointer.half), (CellKind.REGISTER, "KSP", 1))
        key, byte = first.made[code]
        self.assertEqual((code, key), (Cell(CellKind.CODE, "N"), Cell(CellKind.DEVICE, "TKB")))
        self.assertEqual(byte, Cell(CellKind.TAPE, number=3))
        (saved,) = second.made[Cell.of("R5.0")]
        self.assertEqual((saved.kind, str(saved)), (CellKind.STEP, "saved V"))

    def test_cells_in_words(self) -> None:
        cells = [Cell.of(it) for it in ("code C", "R1.1", "core 000002.0", "R1.0", "code Z")]
        self.assertEqual(in_words(cells), "R1, core 000002.0, codes Z C")
        self.assertEqual((in_words(cells[:1]), in_words([])), ("code C", "nothing"))

    def test_a_cell_that_is_written_twice_has_its_sources_once(self) -> None:
        (it,) = moves_of("moves 4\nturn 1\nR0.0 of R1.0\nR0.0 of R1.0\nR0.0 of R2.0")
        self.assertEqual([str(cell) for cell in it.made[Cell.of("R0.0")]], ["R1.0", "R2.0"])

    def test_counts(self) -> None:
        machine = self.machine()
        machine.core[0o1000] = [0o5237, 0o2000, 0o775]  # INC @#2000; BR .-4
        turns = list(machine.moves(1001, 1001))
        self.assertEqual([it.turn for it in turns], list(range(1001)))
        high, both = Cell.of("core 002000.1"), "core 002000"
        self.assertEqual(in_words(turns[6].made[high]), both)
        self.assertNotIn(high._replace(half=0), turns[6].made)  # it is made of itself alone
        self.assertEqual([it.made for it in turns[1::2]], [{}] * 500)
        self.assertEqual([it.turn for it in machine.moves(3, 2)], [1, 2])
        self.assertEqual(machine.ask(questions.moves(3, 2)), turns[1:3])
        self.assertEqual(len({hash(it) for it in (*machine.moves(3, 2), turns[1])}), 2)
        for count in (-1, 0, 4):
            with self.assertRaises(Refused) as refused:
                list(machine.moves(3, count))
        self.assertIn("1 or more, and no more than the turn", str(refused.exception))
