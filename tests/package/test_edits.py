"""Edits and refusals, and what is no question at all."""
import copy
import pickle
from typing import Callable

from nezdrab import Machine, NezdrabError, Refused, questions
from nezdrab.core.questions import Question

from .machine_case import EXAMPLES, Case, replies

LOOP = [0o5200, 0o776]  # INC R0; BR .-2


class Edits(Case):
    def test_as_a_session(self) -> None:
        """The same past by methods as by the lines of a session."""
        machine = self.machine(start=0o2000, units=8, stride=100)
        machine.core[0o2000] = [0o12700, 5, 0]
        machine.core["2002"] = 7
        machine.core[0o2004] = 0o777
        machine.core[0o3000] = 1
        del machine.core[0o3000]
        machine.disk[3] = [1, 2]
        machine.put_tape(b"AB\0")
        machine.delay(clock=100, printer=3)
        numbers = [machine.at(11, key="A"), machine.at(12, key=b"\r"), machine.at(5, switches=0o17)]
        numbers += [machine.at(7, "tick"), machine.at(8, key=0o101)]
        machine.alter(2, turn=20)
        machine.alter(4, "continue")
        machine.alter(5, turn=21, key=0o102)
        machine.drop(1)
        path = self.folder / "same.session"
        path.write_text(
            "#! --start 2000 --units 8 --stride 100\ncore 2000 12700\ncore 2002 7\ncore 2004 777\n"
            "disk 3 1\ndisk 4 2\ntape 101 102 0\ndelay clock 100\ndelay printer 3\nat 11 key 101\n"
            "at 12 key 15\nat 5 switches 17\nat 7 tick\nat 8 key 101\nalter 2 20 key 15\n"
            "alter 4 7 continue\nalter 5 21 key 102\ndrop 1\n"
        )
        lines = ["patches", "events", "setup", "regs 30", "devices 30"]
        self.assertEqual(numbers, [1, 2, 3, 4, 5])
        self.assertEqual(machine.ask_all(lines), replies(path, lines))
        of_session = Machine.of_session(path, program=machine._engine.start.program)
        self.addCleanup(of_session.close)
        self.assertEqual(of_session.ask_all(lines), machine.ask_all(lines))
        self.assertEqual((machine.core[0o2002], machine.disk[4], machine.core[0o3000]), (7, 2, 0))

    def test_eight_drives(self) -> None:
        machine = self.machine()
        machine.use_eight_drives()
        machine.drive(5)[0o10] = [1, 2, 3]
        self.assertEqual(list(machine.dsk(0, 0o10, 3, drive=5)), [1, 2, 3])
        self.assertEqual((machine.drive(5)[0o11], machine.drive(4)[0o11]), (2, 0))
        with self.assertRaises(Refused) as caught:
            machine.disk[0] = 1
        self.assertIn("(version 2 has eight drives)", caught.exception.sentence)

    def test_images_and_options(self) -> None:
        core, disk = self.folder / "core.image", self.folder / "rk05.disk"
        core.write_bytes(bytes(0o1000) + b"\xc0\x15\5\0\0\0")
        disk.write_bytes(b"\1\2")
        machine = self.machine(core=core, disk=str(disk), start=0o1000, stride=1)
        self.assertEqual(machine.regs(1).r0, 5)
        self.assertEqual(machine.disk[0], 0o1001)
        wrong: list[tuple[Callable[[], object], type[Exception], str]] = [
            (lambda: self.machine(core=self.folder / "none"), NezdrabError, "No such file"),
            (lambda: self.machine(core=self.folder), NezdrabError, "it is a folder"),
            (lambda: self.machine(units=32), NezdrabError, "N is 1 to 31"),
            (lambda: self.machine(start=0o1001), NezdrabError, "octal and even"),
            (lambda: self.machine(disks=disk), TypeError, "no option 'disks'"),
            (lambda: self.machine(start="1000"), TypeError, "integer"),
            (lambda: self.machine(program="/nowhere"), NezdrabError, "can't be started"),
            (lambda: self.machine(core=b"\0\0"), TypeError, "core is the path of a file, a str"),
            (lambda: self.of_session("none.session"), NezdrabError, "no such file"),
        ]
        for call, kind, part in wrong:
            with self.assertRaisesRegex(kind, part):
                call()

    def test_sessions_with_refused_lines(self) -> None:
        path = self.folder / "wrong.session"
        path.write_text("core 1000 12700\ncore 1001 5\nregs 5\nat 3 tick\n")
        program = self.machine()._engine.start.program
        with self.assertRaises(Refused) as caught:
            Machine.of_session(path, program=program)
        self.assertEqual(str(caught.exception).split(": refused")[0], f"{path}:2: core 1001 5")
        machine = Machine.of_session(path, program=program, skips_refused=True, start=0o2000)
        self.addCleanup(machine.close)
        self.assertEqual((machine.core[0o1000], len(machine.events())), (0o12700, 1))
        self.assertEqual(machine.regs(0).pc, 0o2000)

    def test_refused_edits_change_nothing(self) -> None:
        machine = self.machine()
        machine.core[0o1000] = LOOP
        with self.assertRaises(Refused) as caught:
            machine.core[0o757770] = [1, 2, 3, 4, 5]
        self.assertEqual((caught.exception.number, caught.exception.name), (2, "OutsideCore"))
        self.assertEqual(len(machine.patches()), 2)
        self.assertEqual(machine.regs(20).r0, 10)

    def test_forks(self) -> None:
        machine = self.of_session("who-wrote-this-word.session")
        before = machine.patches(), machine.events()
        for turn in range(2, 20):
            with machine.altered(1, turn=turn) as other:
                self.assertEqual([it.turn for it in other.events()], [turn])
                line = f"alter 1 {turn} key 101"
                path = EXAMPLES / "who-wrote-this-word.session"
                wanted = replies(path, [line, "dsk 40 0 1"])[1]
                self.assertEqual(f"dsk {other.dsk(40, 0)[0]:06o}", wanted)
        with machine.fork() as other:
            other.core[0o1000] = 0
            other.symbols.add([], [])
        self.assertEqual((machine.patches(), machine.events()), before)
        with self.assertRaises(NezdrabError):
            other.regs(0)


    def test_a_copy_is_a_fork(self) -> None:
        machine = self.of_session("who-wrote-this-word.session")
        for copied in copy.copy(machine), copy.deepcopy(machine):
            with copied as other:
                self.assertEqual(other.events(), machine.events())
                other.drop(1)
        self.assertEqual(machine.regs(40), machine.fork().regs(40))
        self.assertEqual(len(machine.events()), 1)

    def test_saved_sessions(self) -> None:
        """The programs reply to a saved session as its machine does, and of_session gives the same
        machine, also with numbers of events. No file is overwritten unasked."""
        disk, path = self.folder / "rk05.disk", self.folder / "it.session"
        disk.write_bytes(b"\1\2")
        machine = self.machine(disk=disk, start=0o2000, stride=100)
        machine.core[0o2000] = LOOP
        for turn in 9, 7, 5:
            machine.at(turn, "tick")
        machine.drop(2)
        machine.save(path)
        lines = ["events", "patches", "setup", "regs 20", "dsk 0 0 1"]
        self.assertEqual(replies(path, lines), machine.ask_all(lines))
        again = Machine.of_session(path, program=machine._engine.start.program)
        self.addCleanup(again.close)
        self.assertEqual([it.number for it in again.events()], [3, 1])
        self.assertEqual((again.ask_all(lines), again.at(6, "tick")), (machine.ask_all(lines), 4))
        machine.drop(1)
        before = path.read_text()
        with self.assertRaisesRegex(NezdrabError, "there already; overwrite=True overwrites it"):
            machine.save(path)
        self.assertEqual(path.read_text(), before)
        machine.save(path, overwrite=True)
        self.assertEqual(path.read_text(), before + "drop 1\n")
        with self.assertRaisesRegex(NezdrabError, "can't be written"):
            machine.save(self.folder / "none" / "it.session")


class Refusals(Case):
    def test_numbers_names_and_sentences(self) -> None:
        machine = self.machine()
        calls: list[tuple[Callable[[], object], int, str]] = [
            (lambda: machine.mem(0, 0o760000), 2, "not in core"),
            (lambda: machine.last(0, 0o1001), 3, "odd"),
            (lambda: machine.dsk(0, 0o4604000), 4, "past the end of a drive"),
            (lambda: machine.drop(7), 5, "no event has this number"),
            (lambda: machine.alter(7, turn=5), 5, "no event has this number"),
            (lambda: machine.regs(1_000_000_001), 7, "above 1000000000"),
            (lambda: machine.mem(0, 0, 0), 8, "the count is 1 or more"),
            (lambda: machine.dsk(0, 0, 0), 8, "the count is 1 or more"),
            (lambda: machine.trail(3, 4), 8, "1 or more, and no more than the turn"),
            (lambda: machine.trail(3, 100), 8, "1 or more, and no more than the turn"),
            (lambda: list(machine.accesses(3, 0)), 8, "1 or more, and no more than the turn"),
            (lambda: machine.ask("mem 0 0 257"), 8, "the count is not 1 to 256"),
            (lambda: machine.counts("user", 0, 257, until=9), 8, "the count"),
            (lambda: machine.first(pc=0, since=5, until=4), 8, "the count"),
            (lambda: machine.core.__delitem__(0), 9, "no patch"),
            (lambda: machine.regs(-1), 10, "'-1' has '-'"),
            (lambda: machine.regs(10**12), 10, "more than 10"),
            (lambda: machine.core.__setitem__(0, 0o200000), 10, "more than 177777"),
            (lambda: machine.core.__setitem__(0, -1), 10, "'-1' has '-'"),
            (lambda: machine.at(5, "bell"), 10, "there is no event 'bell'"),
            (lambda: machine.at(5), 10, "the event is missing"),
            (lambda: machine.delay(tty=5), 10, "there is no device 'tty'"),
            (lambda: machine.dsk(0, 0, drive=0), 10, "version 1 has one drive"),
            (lambda: machine.first(where="R9 = 5"), 10, "a CONDITION is"),
            (lambda: machine.ask("regs 5\nregs 6"), 10, "control character"),
            (lambda: machine.ask("regs" + 200 * " " + "5"), 11, "more than 200 bytes"),
            (lambda: machine.regs(10**250), 11, "more than 200 bytes"),
        ]
        for call, number, part in calls:
            with self.subTest(number=number, part=part):
                with self.assertRaises(Refused) as caught:
                    call()
                error = caught.exception
                self.assertEqual(error.number, number)
                self.assertIn(part, error.sentence)
                self.assertEqual(str(error), f"{error.line}: {error.reply}: {error.sentence}")
                self.assertEqual(str(pickle.loads(pickle.dumps(error))), str(error))
        self.assertEqual((machine.patches(), machine.events()), ([], []))

    def test_arguments_that_are_none(self) -> None:
        machine, words = self.machine(), [1, 2]
        calls: list[tuple[Callable[[], object], type[Exception], str]] = [
            (lambda: machine.regs(5.0), TypeError, "integer"),  # type: ignore[arg-type]
            (lambda: machine.regs("5"), TypeError, "integer"),  # type: ignore[arg-type]
            (lambda: machine.first(), TypeError, "says what is looked for"),
            (lambda: machine.first(pc=1, trap=4), TypeError, "says what is looked for"),
            (lambda: machine.first(trap=4, mode="user"), TypeError, "belongs to a pc"),
            (lambda: machine.translate(0, "super", 0), ValueError, "super"),
            (lambda: machine.at(1, key="AB"), ValueError, "one character"),
            (lambda: machine.at(1, key="\u20ac"), ValueError, "no byte of Latin-1 is '\u20ac'"),
            (lambda: pickle.dumps(machine), TypeError, r"fork\(\) gives another one"),
            (lambda: machine.at(1, "tick", key="A"), TypeError, "here are 2"),
            (lambda: machine.core.__setitem__(0, [1, "x"]), TypeError, "integer"),  # type: ignore
            (lambda: machine.mem(0, "TICK"), NezdrabError, "no symbol 'TICK'"),
            (lambda: machine.mem(0, "1 2"), NezdrabError, "no address"),
            (lambda: machine.mem(0, "1+9"), NezdrabError, "no address"),
            (lambda: machine.ask("core 0 0"), NezdrabError, "no question"),
            (lambda: machine.ask_all(["at 5 tick"]), NezdrabError, "no question"),
            (lambda: machine.ask("# regs 5"), NezdrabError, "no line that gets a reply"),
            (lambda: machine.ask_all([5]), TypeError, "5 is no question"),  # type: ignore
            (lambda: machine.ask(None), TypeError, "None is no question"),  # type: ignore
            (lambda: machine.edit("regs 5"), NezdrabError, "no edit"),
            (lambda: list(machine.sweep(9, [1], "regs 5")), NezdrabError, "no event"),
            (lambda: machine.read_symbols(self.folder / "none"), NezdrabError, "No such file"),
        ]
        for call, kind, part in calls:
            with self.subTest(part=part), self.assertRaisesRegex(kind, part):
                call()
        self.assertEqual((machine.patches(), machine.events(), words), ([], [], [1, 2]))

    def test_the_first_refusal_of_many(self) -> None:
        machine = self.machine()
        asked: list[Question[object]] = [
            questions.regs(5), questions.mem(5, 1), questions.mem(5, 0o760000)  # type: ignore
        ]
        with self.assertRaises(Refused) as caught:
            machine.ask_all(asked)
        self.assertEqual(caught.exception.line, "mem 5 1 1")
        self.assertEqual(machine.regs(0).pc, 0o1000)
