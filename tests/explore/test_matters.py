"""Which events a reply depends on: against sessions with one move each, and at a terminal."""
import random
import re
import subprocess
from typing import Optional, Sequence

from nezdrab import Machine
from nezdrab.analysis.explorer import Explorer
from nezdrab.analysis.long_work import take_lines
from nezdrab.analysis.matters import Matters, Results, tried
from nezdrab.core.engine import LAST_TURN
from nezdrab.core.moves import Moved, Tried, Way
from nezdrab.core.past import Event

from .explore_case import BUILT, ROOT, SECONDS
from .machines import LEDGER, OnMachine
from .terminal import AtTerminal

WAREHOUSE = ROOT / "examples" / "who-wrote-this-word.session"  # halts by turn 60
EVENTS = ("key 101", "key 102", "tick", "disk", "switches 5", "continue", "printer")
QUESTIONS = (
    "regs {}",
    "dsk {} 0 1",
    "devices {}",
    "last {} 2000",
    "trail {} 5",
    "first 10 {} at 1040",
    "change 0 {} 0",
    "writes 12 {} 2000",
)
IN_LEDGER = "14 15 within 200: dsk 138071 0 1"
TABLE = [
    "matters: dsk 138071 0 1    dsk 000132",
    "event    turn  what    dropped  earlier         later",
    "   14  126830  key 62  000136   by 180: 000140  by 91:  000140",
    "   15  126967  key 66  same     by 135: 000136  by 198: 000140",
    "2 events",
]


class BruteForce(OnMachine):
    """A session of its own for each move, in which the event is altered or dropped once."""

    def past(self, chance: random.Random) -> list[str]:
        """The warehouse with random events, some of which come in one turn."""
        lines = WAREHOUSE.read_text().split("\nat ")[0].splitlines()
        patches = [it for it in lines if re.match("core|disk|delay", it)]
        turns = [chance.randrange(50) for _ in range(3)]
        events = [f"at {chance.choice(turns)} {chance.choice(EVENTS)}" for _ in range(4)]
        return [*patches, *events, f"at {LAST_TURN} tick"]

    def reply(self, past: Sequence[str], edit: str, question: str) -> str:
        """What a session of its own replies. None of these questions leaves version 1."""
        session = [self.program_of_searches(), "--stride", "64"]
        lines = "\n".join([*past, *([edit] if edit else []), "regs 0", question, ""])
        ended = subprocess.run(session, input=lines, capture_output=True, text=True, check=True)
        return ended.stdout.split(" run\n", 1)[1].rstrip("\n").replace("\n", " / ")

    def program_of_searches(self) -> str:
        return self.command("")[2]

    def nearest(
        self, past: Sequence[str], event: Event, way: Way, most: int, question: str, until: str = ""
    ) -> Optional[Moved[str]]:
        """The nearest move that changes the reply, or makes it that one, by all of them, or
        none."""
        same = self.reply(past, "", question)
        sign = {Way.DROPPED: 0, Way.EARLIER: -1, Way.LATER: 1}[way]
        for shift in range(1, most + 1) if sign else (0,):
            turn = event.turn + sign * shift
            if not 0 <= turn <= LAST_TURN:
                return None
            edit = f"alter {event.number} {turn} {event.text}" if sign else f"drop {event.number}"
            reply = self.reply(past, edit, question)
            if reply == until if until else reply != same:
                return Moved(shift, reply)
        return None

    def results(self, explorer: Explorer, line: str, hands: int = 2) -> Results:
        matters = Matters.of(explorer.machine, line)
        results = Results("", explorer.machine.script)
        list(tried(explorer.machine, matters, results, hands))
        return results

    def check(self, seed: int, most: int) -> int:
        """Compares a line on a random past with the sessions. Returns how many changes it found."""
        chance = random.Random(seed)
        past = self.past(chance)
        explorer = self.explorer(edits=past)
        question = chance.choice(QUESTIONS).format(chance.randrange(15, 60))
        results = self.results(explorer, f"within {most}: {question}")
        for event, way in results.tried:
            found = results.of(event, way)
            wanted = self.nearest(past, event, way, most, question)
            self.assertEqual(found.change, wanted, (seed, event, way, question))
            if wanted is None and way is not Way.DROPPED:
                room = event.turn if way is Way.EARLIER else LAST_TURN - event.turn
                self.assertEqual(found.same_to, min(most, room), (seed, event, way, question))
        return sum(it.change is not None for it in results.tried.values())

    def check_until(self, seed: int, most: int) -> int:
        """The same for one of the replies that moves make. Returns how many moves make it."""
        chance = random.Random(seed)
        past = self.past(chance)
        explorer = self.explorer(edits=past)
        question = chance.choice(QUESTIONS).format(chance.randrange(15, 60))
        changes = self.results(explorer, f"within {most}: {question}").tried.values()
        replies = sorted({it.change.answer for it in changes if it.change})
        if not replies:
            return 0
        until = chance.choice(replies)
        results = self.results(explorer, f"within {most}: {question} until {until}")
        for event, way in results.tried:
            wanted = self.nearest(past, event, way, most, question, until)
            found = results.of(event, way).change
            self.assertEqual(found, wanted, (seed, event, way, question, until))
        return sum(it.change is not None for it in results.tried.values())

    def test_the_nearest_moves_that_make_a_reply(self) -> None:
        self.assertGreater(sum(self.check_until(seed, 5) for seed in range(6, 10)), 4)

    def test_the_nearest_moves(self) -> None:
        self.assertGreater(sum(self.check(seed, 5) for seed in range(8)), 8)

    def test_each_event_that_can_matter_is_tried(self) -> None:
        """A move by 10 turns brings the event of turn 50 before turn 45. That of turn 60 stays."""
        events = ("at 60 key 101", "at 50 key 101", f"at {LAST_TURN} key 101", "at 45 key 101")
        explorer = self.explorer(edits=["core 1000 777", *events])
        results = self.results(explorer, "within 10: devices 45")
        found = {event.turn: results.of(event, Way.EARLIER) for event, _ in results.tried}
        wanted = {50: 6, 45: 1}
        shifts = {turn: it.change and it.change.turns for turn, it in found.items()}
        self.assertEqual(shifts, wanted)
        for event, way in results.tried:
            if way is not Way.EARLIER:
                self.assertEqual(results.of(event, way).change, None)

    def test_a_twin_has_the_past_back(self) -> None:
        """The events of one turn have their order again, in each of many tasks of one twin."""
        past = ["core 1000 777", *(f"at 20 key {it}" for it in (101, 102, 103)), "at 25 key 104"]
        explorer = self.explorer(edits=past)
        results = self.results(explorer, "within 22: devices 22", hands=1)
        last = explorer.machine.script[2]
        self.assertIn("TKB 000103", explorer.machine.read("devices 22"))
        for event, way in results.tried:
            change = results.of(event, way).change
            wanted = self.nearest(past, event, way, 22, "devices 22")
            self.assertEqual(change, wanted, (event, way))
        self.assertEqual(results.of(last, Way.LATER).change, Moved(2, change_of(results, last)))


def change_of(results: Results, event: Event) -> str:
    """The reply without the event, which is that with it moved to the question's turn too."""
    change = results.of(event, Way.DROPPED).change
    return change.answer if change else ""


class InLedger(OnMachine):
    """The system of the examples."""

    def test_the_method_of_the_package(self) -> None:
        """It finds what the command finds, near moves too."""
        machine = self.explorer(LEDGER).machine
        package = Machine.of_session(ROOT / "examples" / LEDGER, program=BUILT.program)
        self.addCleanup(package.close)
        for how, near in (("within", False), ("near", True)):
            results = Results("", machine.script)
            asked = Matters.of(machine, f"13 15 {how} 300: dsk 138071 0 1")
            list(tried(machine, asked, results, 2))
            rows = package.matters("dsk 138071 0 1", events=[13, 15], within=300, near=near)
            for it in rows:
                found = zip(Way, (it.dropped, it.earlier, it.later))
                for way, moved in found:
                    self.assertEqual(moved, results.of(it.event, way).change, (it.event, way))

    def test_parts_of_a_reply_begin_at_one_point(self) -> None:
        """The line of the text before which the balance is 000137, whose keys are moved."""
        line = "matters 13 14 15 within 200: text 238614\n"
        rows = self.explore(line, f"examples/{LEDGER}").splitlines()[2:5]
        moved = [re.findall(r"\.\.B3 [AB]", it) for it in rows]
        self.assertEqual([len(it) for it in moved], [3, 3, 3])
        places = {tuple(found.start() for found in re.finditer(r"\.\.B3", it)) for it in rows}
        self.assertEqual(len(places), 1)

    def test_near_may_miss_one(self) -> None:
        lines = f"matters -j 2 {IN_LEDGER}\nmatters -j 2 14 15 near 200: dsk 138071 0 1\n"
        written = self.explore(lines, f"examples/{LEDGER}").splitlines()
        self.assertEqual(written[:5], TABLE)
        self.assertEqual(written[8].split()[-6:], "by 182: 000136 by 198: 000140".split())
        self.assertEqual(
            written[9],
            "2 events; moves that double were tried, and halves: "
            "a nearer one, or the only one, may be missed",
        )

    def test_the_nearest_change_that_makes_a_reply(self) -> None:
        session, line = f"examples/{LEDGER}", "14 15 within 200: dsk 138071 0 1 until 140"
        lines = f"matters {line}\nmatters -o kept {line}\nmatters --gather kept\n"
        lines += f"matters {line[:-3]}132\nmatters 15 within 9: dsk 138071 0 1 until 136\n"
        written = self.explore(lines, session).splitlines()
        wanted = [
            "matters: dsk 138071 0 1    dsk 000132    until 140",
            TABLE[1],
            "   14  126830  key 62  no       by 180: 000140  by 91:  000140",
            "   15  126967  key 66  no       no (to 200)     by 198: 000140",
            "2 events; the nearest change found: alter 14 126921 key 62",
        ]
        self.assertEqual(written[:15], 3 * wanted)
        self.assertEqual(written[15], "matters: the reply is that without a move: dsk 000132")
        self.assertEqual(written[-1], "1 event; the nearest change found: none")
        edited = "alter 14 126921 key 62\ndsk 138071 0 1\n"
        self.assertIn("dsk 000140\n", self.explore(edited, session))

    def test_parts_are_gathered(self) -> None:
        """Each command by itself, as GNU parallel runs them. Event 3 was dropped, so that numbers
        of the session of the parts are others."""
        session = f"examples/{LEDGER}"
        line = "14 15 within 100: dsk 138071 0 1"
        lines = f"drop 3\nmatters --jobs jobs {line}\nmatters {line}\nsave kept\n"
        wanted = self.explore(lines, session).splitlines()[4:-1]
        built = " ".join(self.command())
        jobs = (self.folder / "jobs").read_text().replace("./explore", built)
        self.assertEqual(jobs.count("\n"), 2)
        ended = subprocess.run(
            ["bash"], input=jobs, cwd=self.folder, capture_output=True, text=True, timeout=SECONDS
        )
        self.assertEqual((ended.returncode, ended.stderr), (0, ""))
        (self.folder / "out").write_text(ended.stdout)
        written = self.explore("matters --gather out\n").splitlines()
        anew = {"   14": "   13", "   15": "   14"}
        self.assertEqual(written, [anew.get(it[:5], it[:5]) + it[5:] for it in wanted])

    def test_a_file_of_results_goes_on(self) -> None:
        session = f"examples/{LEDGER}"
        first = "matters -o kept 14 15 within 100: dsk 138071 0 1\n"
        self.explore(first, session)
        kept = (self.folder / "kept").read_text()
        (self.folder / "kept").write_text(kept + "15 126967 key 66: lat")  # cut off
        written = self.explore(f"matters -o kept {IN_LEDGER}\n", session).splitlines()
        self.assertEqual(written, TABLE)
        after = (self.folder / "kept").read_text()
        self.assertTrue(after.startswith(kept))
        self.assertNotIn(": lat\n", after)
        results = Results()
        take_lines(results, self.folder / "kept", after)
        for (_, way), found in results.tried.items():
            self.assertEqual(found.known[0].start, 0 if way is Way.DROPPED else 1)
        again = self.explore(f"matters -o kept {IN_LEDGER}\n", session).splitlines()
        self.assertEqual(again, TABLE)
        self.assertEqual((self.folder / "kept").read_text(), after)  # nothing was tried again

    def test_files_that_are_none_of_this_past(self) -> None:
        session = f"examples/{LEDGER}"
        line = "matters -o kept 14 within 5: regs {}\n"
        lines = line.format(138071) + line.format(138072) + "drop 3\n" + line.format(138071)
        written = self.explore(lines, session).splitlines()
        said = "matters: kept:1: of another question, or of another past: # matters: regs 138071, "
        self.assertEqual([it[: len(said)] for it in written if it.startswith(said)], [said] * 2)
        for junk in ("x\n", "# matters: regs 5, past\n", "\n", "# sweep key 1: regs 5, past 0\n"):
            (self.folder / "junk").write_text(junk)
            lines = "matters --gather junk\nmatters -o junk : regs 5\n"
            gathered, added = self.explore(lines, session).splitlines()
            self.assertIn("matters: junk", gathered)
            self.assertIn("matters: junk:1: ", added)


    def test_many_moves_want_a_word(self) -> None:
        said = "matters: {} moves are more than 100000; matters -y .. does them"
        lines = ["matters 14 within 100000: dsk 138071 0 1", "matters 14 near 9: dsk 138071 0 1"]
        many = "".join(f"at {it} tick\n" for it in range(1000, 3000))
        lines += [f"{many}matters near 999999999: regs 138071"]
        written = self.explore("\n".join(lines) + "\n", f"examples/{LEDGER}").splitlines()
        self.assertEqual(written[0], said.format(100_000 + 11_241 + 1))
        self.assertTrue(written[4].startswith("1 event; moves that double"), written[4])
        self.assertRegex(written[-1], said.format("[0-9]+"))


class Merging(OnMachine):
    """What is known of moves that were tried in any order."""

    def test_up_to_where_all_are_known(self) -> None:
        tried_moves = Tried()
        tried_moves.add(range(9, 25), None)
        self.assertEqual(tried_moves.same_to, 0)
        tried_moves.add(range(25, 41), Moved(40, "x"))
        self.assertFalse(tried_moves.is_nearest)
        tried_moves.add(range(1, 9), None)
        self.assertEqual((tried_moves.same_to, tried_moves.known), (39, [range(1, 41)]))
        self.assertTrue(tried_moves.is_nearest)


class AtATerminal(AtTerminal):
    """The bar, Ctrl-C, and the line that goes on."""

    def test_ctrl_c_shows_what_is_known(self) -> None:
        self.begin(f"examples/{LEDGER}")
        self.type("matters -j 1 -o kept 12 13 within 8000: dsk 138071 0 1\n")
        self.wait_for(b" moves, ")
        self.interrupt()
        stopped = self.wait_for(b" moves are tried; the same line goes on from kept\r\n")
        self.assertRegex(stopped, r"2 events\r\nstopped: [0-9]+ of 32002$")
        self.assertRegex(stopped, r"same \(to [0-9]+\)|not tried|by [0-9]+")
        self.seen = b"explore> "
        self.type("matters -o kept -j 2 14 15 : dsk 138071 0 1\n")
        self.wait_for(b"by 135: 000136  by 198: 000140\r\n")
        self.seen = b"explore> "
        self.type("matters -j 1 within 1000000: regs 138071\n")
        self.wait_for(b" moves are more than 100000; begin? (y or n) ")
        self.seen = b"explore> "
        self.type("n\n")
        self.wait_for(b"matters: not begun")
        self.end()

    def test_two_ctrl_c(self) -> None:
        self.begin(f"examples/{LEDGER}")
        self.type("matters -j 2: text 238614\n")
        self.wait_for(b" moves, ")
        self.interrupt()
        self.interrupt()
        self.settle()
        self.type("events\n")
        self.wait_for(b"27 events")
        self.end()
