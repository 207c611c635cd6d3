"""The page's rules of data beside explore's: what each turn writes, and what that is made of, in a
stored system, in corners, and in programs of random words."""
import json
import random
import tempfile
from pathlib import Path
from typing import Any, ClassVar, Iterable

from nezdrab.analysis.turn_cycles import NotFollowed
from nezdrab.analysis.turn_flow import Flows
from nezdrab.core.engine import MOST_TURNS_OF_A_TRAIL, Machine, Start
from tests import under_test
from tests.explore.test_turn_flow import CORNERS, TURNS_OF_A_CORNER, corner, program

from .explored import Explored
from .page_case import LEDGER
from .test_readers import ReadersCase
from .test_units import Handler


class Asked(Handler):
    """Gives the replies of a machine too."""

    machine: ClassVar[Machine]

    def do_POST(self) -> None:
        lines = json.loads(self.rfile.read(int(self.headers["Content-Length"])))
        body = json.dumps(list(self.machine.ask_all(lines))).encode()
        self.send_response(200)
        self.end_headers()
        self.wfile.write(body)


class SameFlows(ReadersCase):
    handler = Asked

    def compare(self, machine: Machine, turns: range) -> int:
        """How many turns were compared."""
        Asked.machine = machine
        compared = 0
        for first in turns[::MOST_TURNS_OF_A_TRAIL]:
            end = min(first + MOST_TURNS_OF_A_TRAIL, turns.stop)
            page = self.called("movesIn", first, end, machine.setup.core_end)
            own = moves_in(machine, range(first, end))
            for turn, mine, pages in zip(range(first, end), own, page):
                self.assertEqual(pages, mine, turn)
            self.assertEqual(len(page), len(own))
            compared += len(own)
        return compared

    def test_the_ledger(self) -> None:
        explored = Explored(LEDGER / "ledger.session")
        self.addCleanup(explored.close)
        self.assertEqual(self.compare(explored.machine, range(126_900, 128_100)), 1_200)

    def compare_each(self, programs: Iterable[list[str]], turns: range) -> int:
        """The same of each of these programs."""
        folder = tempfile.TemporaryDirectory()
        self.addCleanup(folder.cleanup)
        start = Start(under_test.program("search"), ["--units", "4"], Path(folder.name))
        machine, compared = Machine(start), 0
        self.addCleanup(machine.close)
        for number, lines in enumerate(programs):
            machine.restart()
            list(machine.ask_all(lines, 1000))
            with self.subTest(number):
                compared += self.compare(machine, turns)
        return compared

    def test_corners(self) -> None:
        corners = [corner(words, edits) for words, edits, _ in CORNERS]
        self.compare_each(corners, range(0, TURNS_OF_A_CORNER))

    def test_programs_of_random_words(self) -> None:
        programs = (list(program(random.Random(seed))) for seed in range(100, 140))
        self.assertGreater(self.compare_each(programs, range(0, MOST_TURNS_OF_A_TRAIL)), 2_200)


def moves_in(machine: Machine, turns: range) -> list[list[Any]]:
    """What explore says of these turns, up to one that it doesn't follow."""
    found: list[list[Any]] = []
    try:
        for flow in Flows(machine, turns):
            found.append([[it.cell, list(it.values), it.how.value] for it in flow.moves])
    except NotFollowed:
        pass
    return found
