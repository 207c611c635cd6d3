"""Each question, by its method: its answer is the reply of the program to the same line."""
from pathlib import Path
from typing import Callable, Iterable, NamedTuple, Optional

from nezdrab import CycleKind, Devices, Machine, Refused, Registers, Turn, Unreadable, questions
from nezdrab.core.questions import Question

from .machine_case import EXAMPLES, Case, replies

MODES = ("kernel", "user")
# Sessions with the turn that is asked about: the disk, eight drives, mapping and traps, the tape.
ASKED = {
    "who-wrote-this-word": 40,
    "copy-of-a-pack": 900,
    "read-only-page": 60,
    "what-was-punched": 400,
    "two-tasks": 200,
    "ledger/ledger": 20_000,
}


def words(name: str, found: Iterable[int]) -> str:
    return " ".join([name, *(f"{it:06o}" for it in found)])


def named(found: dict[str, int]) -> str:
    return " ".join(f"{name} {word:06o}" for name, word in found.items())


def regs(found: Registers) -> str:
    return f"{named(found.words)} {found.state}"


def devices(found: Devices) -> str:
    return f"devices {named(found.words)}"


def trail(found: list[Turn]) -> str:
    return "\n".join([f"trail {len(found)}", *(it.line() for it in found)])


def text(name: str) -> Callable[[bytes], str]:
    def shown(found: bytes) -> str:
        bare = "".join(
            chr(it) if 0o40 <= it < 0o177 and it != 0o134 else f"\\{it:03o}" for it in found
        )
        return f"{name} {len(found)}:{bare}"

    return shown


def turn(name: str) -> Callable[[Optional[int]], str]:
    return lambda found: f"{name} {'none' if found is None else found}"


class Row(NamedTuple):
    """A line, a call of a method that asks it, and what its answer is as a reply."""

    line: str
    call: Callable[[Machine], object]


def questions_about(n: int) -> list[Row]:
    """Questions about turn N, in version 1 and 2 alike."""
    return [
        Row(f"regs {n}", lambda m: regs(m.regs(n))),
        Row("regs 0", lambda m: regs(m.regs(0))),
        Row(f"mem {n} 1000 256", lambda m: words("mem", m.mem(n, 0o1000, 256))),
        Row(f"mem {n} 1002 1", lambda m: words("mem", m.mem(n, "1002"))),
        Row(f"text {n}", lambda m: text("text")(m.text(n))),
        Row(f"text {n} from 3", lambda m: text("text")(m.text(n, 3))),
        Row(f"punched {n}", lambda m: text("punched")(m.punched(n))),
        Row(f"devices {n}", lambda m: devices(m.devices(n))),
        Row(f"trail {n} 3", lambda m: trail(m.trail(n, 3))),
        Row("when 0", lambda m: turn("when")(m.when(0))),
        Row(f"fades {n} at 2 tick", lambda m: turn("fades")(m.fades(n, "at 2 tick"))),
        Row("patches", lambda m: "\n".join([f"patches {len(m.patches())}", *m.patches()])),
    ]


def searches_before(n: int) -> list[Row]:
    """Searches of the turns before turn N."""
    return [
        Row(f"first 0 {n} at 1004", lambda m: turn("first")(m.first(pc=0o1004, until=n))),
        Row(
            f"first 5 {n} at 1004 user",
            lambda m: turn("first")(m.first(pc=0o1004, mode="user", since=5, until=n)),
        ),
        Row(f"first 0 {n} vector 60", lambda m: turn("first")(m.first(vector=0o60, until=n))),
        Row(f"first 0 {n} trap 30", lambda m: turn("first")(m.first(trap=0o30, until=n))),
        Row(
            f"first 0 {n} where R0 != 0 and kernel",
            lambda m: turn("first")(m.first(where="R0 != 0 and kernel", until=n)),
        ),
        Row(
            f"latest 2 {n} at 1004",
            lambda m: turn("latest")(m.latest(pc=0o1004, since=2, until=n)),
        ),
        Row(f"latest 0 {n} vector 220", lambda m: turn("latest")(m.latest(vector=0o220, until=n))),
        Row(
            f"counts 1 {n} kernel 1000 64",
            lambda m: " ".join(
                ["counts", *map(str, m.counts("kernel", 0o1000, 64, since=1, until=n))]
            ),
        ),
    ]


class Answers(Case):
    def test_answers_have_hashes(self) -> None:
        """Equal ones the same: a set has each once."""
        machine = self.of_session("who-wrote-this-word.session")
        calls: list[Callable[[int], object]] = [
            *(machine.regs, machine.devices, machine.pages, lambda turn: machine.setup()),
            lambda turn: next(machine.accesses(turn)),
            lambda turn: machine.ask(questions.writes(0o1000, until=turn)),
        ]
        for call in calls:
            found = [call(turn) for turn in (20, 20, 40)]
            self.assertEqual(hash(found[0]), hash(found[1]))
            self.assertEqual(len(set(found)), 1 + (found[0] != found[2]))

    def compare(self, session: Path, asked: list[Row]) -> None:
        machine = self.of_session(f"{session}.session")
        wanted = replies(EXAMPLES / f"{session}.session", [it.line for it in asked])
        for row, reply in zip(asked, wanted):
            with self.subTest(session=str(session), line=row.line):
                self.assertFalse(reply.startswith("refused"), reply)
                self.assertEqual(row.call(machine), reply)

    def test_each_question(self) -> None:
        for name, turns in ASKED.items():
            # `when` and searches to the end of the run go on for long if nothing is printed
            has_text = self.of_session(f"{name}.session").text(turns) != b""
            rows = [*questions_about(turns), *searches_before(turns)]
            self.compare(Path(name), [it for it in rows if has_text or it.line != "when 0"])

    def test_each_writer(self) -> None:
        machine, lines = self.of_session("ledger/ledger.session"), []
        found = [machine.last(20_000, it) for it in range(0, 0o2000, 64)]
        for address, last in zip(range(0, 0o2000, 64), found):
            lines.append(f"last 20000 {address:o}")
        shown = [
            "last never" if it is None else f"last {it.turn} {it.writer} {it.word:06o}"
            for it in found
        ]
        self.assertEqual(shown, replies(EXAMPLES / "ledger/ledger.session", lines))
        self.assertEqual(len({it is None for it in found}), 2)

    def test_drives(self) -> None:
        one, eight = "who-wrote-this-word", "copy-of-a-pack"
        rows = [
            Row("dsk 40 0 256", lambda m: words("dsk", m.dsk(40, 0, 256))),
            Row("change 0 40 0", lambda m: turn("change")(m.change(0, until=40))),
        ]
        self.compare(Path(one), rows)
        rows = [
            Row("dsk 900 1 0 256", lambda m: words("dsk", m.dsk(900, 0, 256, drive=1))),
            Row("change 0 900 1 0", lambda m: turn("change")(m.change(0, drive=1, until=900))),
        ]
        self.compare(Path(eight), rows)

    def test_pages_and_setup(self) -> None:
        machine = self.of_session("read-only-page.session")
        (reply, setup) = replies(EXAMPLES / "read-only-page.session", ["pages 60", "setup"])
        pages = machine.pages(60)
        parts = [f"pages SR0 {pages.sr0:06o} SR2 {pages.sr2:06o}"]
        for mode, letter in zip(pages.descriptors, "KU"):
            parts.append(words(f"{letter}PDR", pages.descriptors[mode]))
            parts.append(words(f"{letter}PAR", pages.addresses[mode]))
        self.assertEqual(" ".join(parts), reply)
        found = machine.setup()
        begin = f"setup version {found.version} units {found.units} start {found.start:06o}"
        self.assertTrue(setup.startswith(f"{begin} stride"), setup)

    def test_events(self) -> None:
        machine = self.of_session("ledger/ledger.session")
        (reply,) = replies(EXAMPLES / "ledger/ledger.session", ["events"])
        found = machine.events()
        shown = [f"{it.number} {it.turn} {it.text.split()[0]}" for it in found]
        wanted = [" ".join(it.split()[:3]) for it in reply.splitlines()[1:]]
        self.assertEqual(shown, wanted)

    def test_virtual_addresses(self) -> None:
        machine, session = self.of_session("two-tasks.session"), EXAMPLES / "two-tasks.session"
        for address in range(0, 0o200000, 0o10002):
            for mode in MODES:
                lines = [f"translate 200 {mode} {address:o}", f"virtual 200 {mode} {address:o} 1"]
                place, word = replies(session, lines)
                with self.subTest(mode=mode, address=f"{address:o}"):
                    self.assertEqual(self.place(machine, mode, address), place)
                    self.assertEqual(self.word(machine, mode, address), word)

    def place(self, machine: Machine, mode: str, address: int) -> str:
        try:
            return f"translate {machine.translate(200, mode, address):06o}"
        except Unreadable as error:
            return f"translate {error}"

    def word(self, machine: Machine, mode: str, address: int) -> str:
        try:
            return words("virtual", machine.virtual(200, mode, address))
        except Unreadable as error:
            return f"virtual {error}"

    def test_registers_by_their_names(self) -> None:
        found = self.of_session("two-tasks.session").regs(200)
        r = [found.r0, found.r1, found.r2, found.r3, found.r4, found.r5]
        others = [found.ksp, found.usp, found.pc, found.ps]
        names = ["R0", "R1", "R2", "R3", "R4", "R5", "KSP", "USP", "PC", "PS"]
        self.assertEqual([*r, *others], [found[it] for it in names])
        self.assertEqual(found.sp, found.usp if found.ps >> 14 == 3 else found.ksp)


class Listed(Case):
    """Searches that go on: what they give is what each turn shows."""

    def test_writes_transfers_and_changes(self) -> None:
        machine, end = self.of_session("ledger/ledger.session"), 20_000
        writes = list(machine.writes("30000", until=end))
        asked = machine.ask_all([questions.last(it, 0o30000) for it in range(end + 1)])
        each = [after for before, after in zip(asked, asked[1:]) if before != after]
        self.assertEqual(writes, each)
        words = machine.ask_all([questions.dsk(it, 0) for it in range(end + 1)])
        changes = [it for it in range(end) if words[it] != words[it + 1]]
        self.assertEqual(list(machine.changes(0, until=end)), changes)
        written = [it.turn for it in machine.transfers(until=end) if it.function == "write"]
        self.assertEqual(written, changes)

    def test_more_than_256(self) -> None:
        machine = self.machine()
        # INC @#2000; BR .-4
        machine.core[0o1000] = [0o5237, 0o2000, 0o775]
        writes = list(machine.writes(0o2000, since=1, until=1001))
        self.assertEqual([it.turn for it in writes], list(range(2, 1001, 2)))
        self.assertEqual([it.word for it in writes], list(range(2, 502)))
        reads = list(machine.reads(0o2000, since=1, until=1001))
        self.assertEqual({it.reader for it in reads}, {"cpu"})
        self.assertEqual([it.turn for it in reads], list(range(2, 1001, 2)))
        self.assertEqual([it.word for it in reads], list(range(1, 501)))
        turns = list(machine.accesses(1001, 1001))
        self.assertEqual([it.turn.turn for it in turns], list(range(1001)))
        self.assertEqual([len(it.cycles) for it in turns], [4, 1] * 500 + [4])
        write = turns[6].cycles[-1]
        self.assertEqual((write.kind, write.address, write.value), (CycleKind.WRITE, 0o2000, 4))
        self.assertEqual([it.turn.turn for it in machine.accesses(3, 2)], [1, 2])
        for count in (0, 4, -1):
            with self.assertRaises(Refused):
                list(machine.accesses(3, count))
        machine.core[0o4000] = [5] * 600
        found = list(machine.find(0, 0o4000, 0o6000, 5))
        self.assertEqual(found, list(range(0o4000, 0o6002, 2)))
        self.assertEqual(len(list(machine.find(0, 0, 0o757776, 4, mask=0o177776))), 600)
        machine.disk[0o100] = [0o101010] * 300
        found = list(machine.finddsk(5, 0, 0o4603777, 0o101010))
        self.assertEqual(found, list(range(0o100, 0o100 + 300)))

    def test_long_trails_and_all_of_core(self) -> None:
        machine = self.of_session("ledger/ledger.session")
        long = machine.trail(1000, 200)
        self.assertEqual([it.turn for it in long], list(range(800, 1000)))
        self.assertEqual(long[-3:], machine.trail(1000, 3))
        core = machine.mem(1000, 0, 126_976)
        self.assertEqual((len(core), core.itemsize, core.typecode), (126_976, 2, "H"))
        self.assertEqual(core[0o1000 // 2 : 0o1020 // 2], machine.mem(1000, 0o1000, 8))
        view = memoryview(core)
        view[0] = 7
        self.assertEqual((view.format, core[0]), ("H", 7))

    def test_many_questions(self) -> None:
        machine = self.of_session("ledger/ledger.session")
        asked: list[Question[Registers]] = [questions.regs(it) for it in range(2100)]
        each = [machine.regs(it) for it in range(2100)]
        self.assertEqual(machine.ask_all(asked), each)
        lines = machine.ask_all(["regs 5", "mem 5 1000 1"])
        self.assertEqual([lines[0].split()[0], lines[1].split()[0]], ["R0", "mem"])
        self.assertEqual(machine.ask_all([]), [])

    def test_symbols(self) -> None:
        machine = self.of_session("ledger/ledger.session")
        self.assertGreater(machine.read_symbols(EXAMPLES / "ledger/kernel.sym", "kernel"), 3)
        machine.read_symbols(EXAMPLES / "ledger/user.sym", "user")
        name, value = next((it.name, it.value) for it in next(iter(machine.symbols.taken.values())))
        self.assertEqual(machine.mem(5, f"{name}+2"), machine.mem(5, value + 2))
        self.assertEqual(
            machine.first(pc=name, mode="kernel", until=5000),
            machine.first(pc=value, mode="kernel", until=5000),
        )
