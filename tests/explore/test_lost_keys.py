"""What became of keys, against the cycles on the bus of each turn; and at a terminal."""
import random
from typing import NamedTuple, Optional

from nezdrab.core.engine import Machine, Start
from nezdrab.core.past import Event
from nezdrab.core.replies import CycleKind
from nezdrab.core.struck import Fate, struck_keys
from nezdrab.dap.evaluate import Console, done

from .explore_case import BUILT
from .machines import LEDGER, OnMachine
from .systems import KEYS, OfSystems
from .terminal import AtTerminal

BUFFER, DONE = 0o777562, 0o200
# Reads TKB at its two addresses, resets and loops, by what R0 to R2 count down to.
PROGRAMS = (
    ("12700 13 77001 113701 177562 772",),
    ("12700 31 77001 113701 177563 772",),
    ("12700 7 77001 5 12700 5 77001 13701 177562 766",),
    ("105737 177560 100375 13701 177562 12700 21 77001 767",),
)
END = 400


class Seen(NamedTuple):
    """A key, what became of it and when."""

    event: Event
    fate: Fate
    turn: int


def by_brute_force(machine: Machine, end: int) -> list[Seen]:
    """Each key by a walk over all turns: by done before each turn, and the cycles of each."""
    found: list[Seen] = []
    waiting: Optional[Event] = None
    for turn in range(end):
        for key in machine.script:
            if key.turn == turn and key.text.startswith("key "):
                found += [Seen(waiting, Fate.OVERWRITTEN, turn)] if waiting else []
                waiting = key
        if waiting and not machine.devices(turn + 1)["TKS"] & DONE:
            (accessed,), _ = machine.accesses(range(turn, turn + 1))
            cycles = ((it.kind, it.address & ~1) for it in accessed.cycles)
            is_read = (CycleKind.READ, BUFFER) in cycles
            found.append(Seen(waiting, Fate.READ if is_read else Fate.DROPPED, turn))
            waiting = None
    return [*found, *([Seen(waiting, Fate.WAITS, end)] if waiting else [])]


class BruteForce(OfSystems):
    def machine_of(self, words: str, chance: random.Random) -> Machine:
        machine = Machine(Start(BUILT.program, ["--units", "1"], self.folder))
        self.addCleanup(machine.close)
        code = [f"core {0o1000 + 2 * at:o} {it}" for at, it in enumerate(words.split())]
        turns = [chance.randrange(END + 20) for _ in range(25)]
        keys = [f"at {it} key {chance.randrange(0o400):o}" for it in (*turns, turns[0])]
        others = [f"at {chance.randrange(END)} tick" for _ in range(5)]
        machine.edit_all([*code, *keys, *others])
        return machine

    def test_keys_of_small_programs(self) -> None:
        fates: list[Fate] = []
        for seed, (words,) in enumerate(PROGRAMS):
            machine = self.machine_of(words, random.Random(seed))
            wanted = by_brute_force(machine, END)
            found = [Seen(it.event, it.fate, it.turn) for it in struck_keys(machine, range(END))]
            self.assertEqual(found, wanted, words)
            fates += [it.fate for it in found]
        self.assertEqual(set(fates), {*Fate})
        self.assertGreater(min(map(fates.count, (Fate.READ, Fate.OVERWRITTEN, Fate.DROPPED))), 5)

    def test_keys_of_a_stored_system(self) -> None:
        machine = self.machine(KEYS)
        end = 4_000
        wanted = by_brute_force(machine, end)
        found = [Seen(it.event, it.fate, it.turn) for it in struck_keys(machine, range(end))]
        self.assertEqual(found, wanted)

    def test_keys_of_some_turns(self) -> None:
        """A key that the next one overwrites after these turns waits in them."""
        machine = self.machine_of("777", random.Random(1))
        keys = [it for it in machine.script if it.text.startswith("key ")]
        turns = range(keys[3].turn, keys[6].turn)
        found = list(struck_keys(machine, turns))
        self.assertEqual([it.event for it in found], [it for it in keys if it.turn in turns])
        self.assertEqual((found[-1].fate, found[-1].turn), (Fate.WAITS, turns.stop))


class Shown(OnMachine):
    def test_the_longest_delay_comes_first(self) -> None:
        """In the ledger the key 6 waits 197 turns, and one more in its turn is lost."""
        session = f"examples/{LEDGER}"
        rows = self.explore("lost keys\n", session).splitlines()
        self.assertEqual(rows[1].split()[:6], "15 126967 key 66 '6' 127164".split())
        self.assertEqual(rows[-1], "27 keys in the turns 0 to 1228613: 0 lost, 27 read")
        delays = [int(it.split()[6]) for it in rows[1:-1]]
        self.assertEqual(delays, sorted(delays, reverse=True))
        rows = self.explore("at 126980 key 70\nlost keys 126900 127000\n", session).splitlines()
        lost = "lost: event 28, key 70  '8', takes its place"
        self.assertTrue(rows[2].endswith(lost) and rows[2].split()[0] == "15", rows[2])
        self.assertEqual(rows[-1].split(": ")[1], "1 lost, 0 read, 1 waits before turn 127000")

    def test_what_is_refused(self) -> None:
        lines = "lost keys 5\nlost keys 5 5\nlost keys 0 1000000001\nlost keys 1 2 3\n"
        form = "lost: the form is: lost keys [N M]  or  lost PC A [user|kernel] from N to M"
        large = "lost: turn 1000000001 is above 1000000000"
        said = [form, "lost: M isn't above N", large, form]
        self.assertEqual(self.explore(lines).splitlines(), said)
        none = "0 keys in the turns 0 to 4: 0 lost, 0 read\n"
        self.assertEqual(self.explore("lost keys 0 5\n"), none)


class AtPrompt(AtTerminal):
    def test_ctrl_c_shows_what_was_found(self) -> None:
        """Keys in a loop that reads none: each waits up to the next one."""
        self.begin()
        self.type("core 1000 777\n")
        keys = "".join(f"at {it} key 101\n" for it in range(1000, 900_000_000, 300_000_000))
        for line in (*keys.splitlines(), "lost keys 0 1000000000"):
            self.type(f"{line}\n")
        self.wait_for(b"lost keys 0 1000000000\r\n")
        self.wait_for(b"at work")
        self.interrupt()
        self.wait_for(b" keys are looked at")
        self.type("lost keys 0 5000\n")
        self.wait_for(b"1 waits before turn 5000")
        self.type("lost keys 0 1000000000\n")
        self.wait_for(b"at work")
        self.interrupt()
        self.interrupt()
        self.settle()
        self.type("events\n")
        self.wait_for(b"3 events")
        self.end()


class InAnEditor(OnMachine):
    """An editor's console takes these lines as the prompt does."""

    def test_lines_about_keys_and_words(self) -> None:
        console = Console(self.explorer(LEDGER), lambda _: None)
        for line, said in (
            ("lost keys", "27 keys in the turns 0 to 1228613: 0 lost, 27 read"),
            ("changes 30000..30002 to 20000", "2 changes in the turns 0 to 20000; "),
            ("writers 30000 to 20000", "2 writes in the turns 0 to 20000"),
            ("matters 14 within 9: regs 126900 until R0 1 ..", "; the nearest change found: none"),
            ("reduce : dsk 20000 0 1 = 102", "1 event of 2 left after 3 tries; gone: 1\n"),
            ("compare at 5", "no word of core or of a drive differs"),
            ("branches 3", "0 conditional branches in the turns 0 to 2"),
            ("extremes 0 5", "priority 7: 0 turns"),
        ):
            self.assertIn(said, done(console, line, 0), line)
