"""What the cursor's turn does: its cycles beside the program's `accesses`, its moves of data beside
its `moves`; what its links ask; and the way to it by keys."""
import re
from typing import ClassVar

from nezdrab.core.moves_of_turns import CODES, Cell

from .explored import Explored
from .page_case import OpenCase, ledger_lines, replies_of
from .test_made import SESSION

PAST = ledger_lines()[:-2]
# a key, an interrupt, an instruction of each kind, the end of a transfer, a printed byte
TURNS = (126_967, 127_131, 127_163, 127_164, 127_299, 127_162, 127_415, 127_420, 127_636, 127_704)
ROWS = """(name => [...document.querySelectorAll(`#${name} tbody tr`)].map(row =>
  [...row.cells].map(it => it.textContent)))"""
VALUE = re.compile(r" ([0-7]{6}|[01])$")
# What the beginnings of turns move.
BEGUN = {
    126_967: [["TKB", "key 66 '6'"]],
    127_636: [["word 0000000 of drive 0, 256 words", "core 040000"]],
}


def word_of(cell: Cell) -> str:
    """The name of the word that a cell is in, or of a code."""
    return str(cell._replace(half=None)).removeprefix("code ")


class Turn(OpenCase):
    turn_at_first = 127_500
    explored: ClassVar[Explored]

    @classmethod
    def setUpClass(cls) -> None:
        super().setUpClass()
        cls.explored = Explored(SESSION)
        cls.addClassCleanup(cls.explored.close)

    def go(self, turn: int) -> None:
        self.browser.look_at("#turn-panel")
        self.fill("#turn", str(turn))
        self.browser.key("Enter")
        said = "document.querySelector('#turn-said').textContent"
        self.browser.wait(f"{said} === 'turn {turn}'")
        self.wait_still()

    def rows(self, name: str) -> list[list[str]]:
        return [list(it) for it in self.browser.value(f"{ROWS}('{name}')")]

    def test_cycles_are_those_of_the_program(self) -> None:
        lines = [f"accesses {turn + 1} 1" for turn in TURNS]
        text = "\n".join(replies_of([*PAST, *lines]))
        for told in re.split(r"^accesses \d+\n", text, flags=re.M)[1:]:
            head, *cycles = told.splitlines()
            turn, act = int(head.split()[0]), head.split()[3]
            self.go(turn)
            rows = self.rows("cycles")
            self.assertEqual(len(rows), len(cycles), (turn, rows, cycles))
            reads = [it for it in cycles if it.startswith("read ")]
            for (what, place, word), cycle in zip(rows, cycles):
                kind, *fields = cycle.split()
                if kind in ("read", "write"):
                    self.assertIn(fields[-2], place)
                    self.assertEqual(word, fields[-1])
                    is_fetch = act == "instr" and cycle is reads[0]
                    self.assertEqual(what, "fetch" if is_fetch else kind)
                else:
                    self.assertEqual(what, kind)

    def moves(self, turn: int) -> list[list[set[str]]]:
        """What is made of what, by the program: each word, or the codes."""
        (told,) = self.explored.machine.moves_of(range(turn, turn + 1))
        found: dict[str, list[set[str]]] = {}
        for cell, sources in told.made.items():
            name = word_of(cell)
            to, of = found.setdefault("codes" if name in CODES else name, [set(), set()])
            to.add(name)
            of.update(map(word_of, sources))
        return [[to, of or {"no data"}] for to, of in found.values()]

    def test_moves_are_those_of_the_program(self) -> None:
        for turn in TURNS:
            self.go(turn)
            rows, begun = self.rows("moves"), BEGUN.get(turn, [])
            self.assertEqual(rows[: len(begun)], begun)
            shown = [
                [{VALUE.sub("", it) for it in cell.split(", ")} for cell in row]
                for row in rows[len(begun) :]
            ]
            self.assertEqual(shown, self.moves(turn), turn)

    def test_values_are_those_after_the_turn_and_before_it(self) -> None:
        turn = 127_163
        self.go(turn)
        regs, word = replies_of([*PAST, f"regs {turn}", f"mem {turn + 1} 772 1"])[-2:]
        stored = f"core 000772 {word.split()[1]}"
        self.assertIn([stored, f"R0 {regs.split()[1]}"], self.rows("moves"))

    def test_each_word_can_be_asked(self) -> None:
        """A value that was moved is asked after the turn, its source before the turn."""
        turn = 127_163
        for cell, name, before in ((1, "core 000772", turn + 1), (2, "R0", turn)):
            self.go(turn)
            self.browser.click(f"#moves tbody tr:nth-child(1) td:nth-child({cell}) .link")
            self.wait_text("#why-turn", f"before turn {before}")
            asked = self.browser.value("document.querySelector('#why-word').value")
            self.assertEqual(asked, name)

    def test_an_event_opens(self) -> None:
        self.go(126_967)
        self.browser.click("#cycles .link")
        line = self.browser.value("document.querySelector('#line').value")
        self.assertEqual(line, "alter 15 126967 key 66")

    def test_by_keys(self) -> None:
        self.go(127_163)
        self.browser.key("Tab")
        self.browser.value("document.querySelector('#cycles .link').focus()")
        self.browser.key("ArrowDown")
        focus = "document.activeElement.textContent"
        self.assertEqual(self.browser.value(focus), "core 000772")
        self.browser.key("ArrowRight")
        self.browser.key("Enter")
        self.wait_text("#why-turn", "before turn 127164")

    def test_a_printed_byte_can_be_asked(self) -> None:
        printed = replies_of([*PAST, "when 111"])[-1].split()[1]
        self.go(int(printed))
        self.browser.click("#cycles tr:nth-child(1) td:nth-child(3) .link")
        self.browser.wait("document.querySelector('#why-word').value === 'byte 111'")
        self.wait_still()
