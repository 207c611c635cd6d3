"""`profile` and `covered` against each turn, by `trail` and `regs`."""
import random
import re
from collections import Counter
from unittest import mock

from nezdrab.analysis import profile
from nezdrab.analysis.counting import AREA_BYTES, Place, areas_with_turns, windows_of
from nezdrab.analysis.disassembly import Disassembler
from nezdrab.analysis.explorer import Explorer
from nezdrab.analysis.levels import call_in
from nezdrab.analysis.profile import Profile, Share, begins_of, counted_profile, sampled_profile
from nezdrab.analysis.profile import sampled_turns
from nezdrab.core.engine import Machine, Start
from nezdrab.core.replies import INSTRUCTION, Mode, Registers
from nezdrab.core.symbol_files import Symbol

from .explore_case import BUILT
from .systems import KEYS, LEDGER, OfSystems
from .terminal import AtTerminal

SHORT = range(100, 5_100)
ROW = re.compile(r" *(\d+) +([\d.]+) % (?:±[\d.]+)? *(\d+|-)  (kernel|user) +([0-7-]{6}) ? ?(.*)")


def counts_of(machine: Machine, turns: range) -> Counter[Place]:
    """How many of the turns are an instruction at each place, turn by turn."""
    registers = [Registers.of(it) for it in machine.read_all([f"regs {it}" for it in turns], 1000)]
    trail = machine.turns(turns.start, len(turns))
    return Counter(
        Place(before.mode, it.pc) for it, before in zip(trail, registers) if it.act == INSTRUCTION
    )


class Profiles(OfSystems):
    """Profiles of stored systems."""

    def explorer_of(self, machine: Machine) -> Explorer:
        disassembler = Disassembler(BUILT.disassembler)
        self.addCleanup(disassembler.close)
        return Explorer(machine, disassembler)

    def test_counts_are_those_of_each_turn(self) -> None:
        for words in (LEDGER, KEYS):
            machine = self.machine(words)
            wanted = counts_of(machine, SHORT)
            self.assertEqual(counted_profile(machine, SHORT).counts, wanted)

    def test_the_areas_have_each_place(self) -> None:
        """Also those that one turn alone was in, far from others."""
        machine = Machine(Start(BUILT.program, [], self.folder))
        self.addCleanup(machine.close)
        begins = [0o1000, 0o20000, 0o777 * 2, 0o60000, 0o157770, 0, 0o21000]
        for begin, after in zip(begins, [*begins[1:], 0o1000]):
            for at, word in enumerate((0o137, after)):
                machine.ask(f"core {begin + 2 * at:o} {word:o}")
        turns = range(0, 7 * 20)
        wanted = dict.fromkeys((Place(Mode.KERNEL, it) for it in begins), 20)
        self.assertEqual(counted_profile(machine, turns).counts, wanted)
        found = [it.addresses.start for it in areas_with_turns(machine, turns, Mode.KERNEL)]
        self.assertEqual(len(found), len(set(found)))
        self.assertLessEqual({it - it % AREA_BYTES for it in begins}, set(found))
        self.assertEqual(list(areas_with_turns(machine, turns, Mode.USER)), [])

    def test_windows_have_all_addresses(self) -> None:
        chance = random.Random(81)
        for _ in range(50):
            addresses = {2 * chance.randrange(0o100000) for _ in range(chance.randrange(40))}
            addresses |= {2 * chance.randrange(600) for _ in range(20)}
            windows = list(windows_of(addresses))
            self.assertLessEqual(addresses, {at for it in windows for at in it})
            self.assertLessEqual(max(map(len, windows)), 256)

    def rows(self, lines: str, *words: str) -> list[tuple[str, ...]]:
        written = self.explore(lines, *words).splitlines()
        return [found.groups() for found in map(ROW.fullmatch, written) if found]

    def test_routines_by_symbols(self) -> None:
        machine = self.machine(LEDGER)
        explorer = self.explorer_of(machine)
        names = {"kernel": {"KEY": 0o1232, "TAKE": 0o1346}, "user": {"CLERK": 0, "TELLER": 0o44}}
        for mode, numbers in names.items():
            explorer.symbols.take([Symbol(*it) for it in numbers.items()], [Mode(mode)])
        (self.folder / "k.sym").write_text("KEY 1232\nTAKE 1346\n")
        (self.folder / "u.sym").write_text("CLERK 0\nTELLER 44\n")
        read = "symbols k.sym kernel\nsymbols u.sym user\n"
        entries = counts_of(machine, SHORT)
        turns: Counter[tuple[str, str]] = Counter()
        for it, count in entries.items():
            name = explorer.symbols.near(it.mode, it.address).split("+")[0]
            turns[it.mode.value, name] += count
        found = self.rows(f"{read}profile {SHORT.start} {SHORT.stop}\n", *LEDGER)
        for often, share, entered, mode, at, name in found:
            name = "" if at == "------" else name
            self.assertEqual(int(often), turns.pop((mode, name)))
            self.assertEqual(share, f"{100 * int(often) / len(SHORT):.2f}")
            if name:
                begin = Place(Mode(mode), names[mode][name])
                self.assertEqual((int(at, 8), int(entered)), (begin.address, entries[begin]))
        self.assertEqual(turns, {})
        self.assertEqual(len(found), 5)  # with what is before KEY

    def test_routines_by_calls(self) -> None:
        """Where JSR and traps led, by each turn, and the vectors."""
        (self.folder / "it.session").write_text(CALLS)
        machine = self.machine(("it.session",))
        turns = range(0, 400)
        calls = (call_in(machine, it) for it in turns)
        wanted = {Place(it.inside, it.routine) for it in calls if it is not None}
        self.assertEqual({it.address for it in wanted}, {0o2000, 0o2100, 0o2200, 0o3000})
        for made in (counted_profile, sampled_profile):
            with mock.patch.object(profile, "SAMPLES", 399):
                found = begins_of(self.explorer_of(machine), made(machine, turns))
            self.assertEqual(found[Mode.KERNEL], sorted(it.address for it in wanted))

    def test_samples_are_apart_by_chance(self) -> None:
        for turns, count in ((range(5, 1_000_005), 1000), (range(0, 1001), 1000)):
            found = sampled_turns(turns, count)
            self.assertEqual(len(found), count)
            for number, turn in enumerate(found):
                of_start = (turn - turns.start) * count
                self.assertGreater(of_start + count, number * len(turns))
                self.assertLess(of_start, (number + 1) * len(turns))
            self.assertEqual(sampled_turns(turns, count), found)
        found = sampled_turns(range(1_000_000), 1000)
        self.assertGreater(len({after - it for it, after in zip(found, found[1:])}), 500)

    def test_shares_are_within_their_errors(self) -> None:
        machine, turns = self.machine(LEDGER), range(0, 200_000)
        exact = shares(counted_profile(machine, turns))
        sampled = shares(sampled_profile(machine, turns))
        within = 0
        for place, (share, _) in exact.items():
            near, error = sampled.get(place, (0.0, Share(0, profile.SAMPLES, True).error()))
            within += abs(share - near) <= error
        self.assertGreater(within, 0.95 * len(exact))
        self.assertGreater(len(exact), 100)


def shares(found: Profile) -> dict[Place, tuple[float, float]]:
    """Each place's share and its error."""
    return {
        it: (found.share(count).percent(), found.share(count).error())
        for it, count in found.counts.items()
    }


# JSR PC,2000; JSR R5,@#2100; JSR PC,(R1); EMT 0; BR 1000, and a JSR that never runs
CALLS = "\n".join(
    f"core {at:o} {word:o}"
    for begin, words in (
        (0o1000, (0o12706, 0o700, 0o12701, 0o2200)),
        (0o1010, (0o4767, 0o764, 0o4537, 0o2100, 0o4711, 0o104000, 0o771, 0o4737, 0o4000)),
        (0o2000, (0o207,)),
        (0o2100, (0o205,)),
        (0o2200, (0o240, 0o207)),
        (0o3000, (0o2,)),
        (0o30, (0o3000, 0o340)),
        (0o34, (0o3100, 0o340)),
    )
    for at, word in zip(range(begin, begin + 0o100, 2), words)
)

LISTING = """\
       1 000000 005200                LOOP:   INC R0
       2 000002 000240  000240        2$: A:: SEC!SEV ; two
       3 000006 000774                TWO::   .WORD 774       ; BR LOOP
       4 000010 004767  000000G               CALL THERE
       5 000014 000000' 000002'               .WORD LOOP, TWO
       6 000020    101     102                .ASCII /AB/
       7        000005                FIVE = 5
       8 000022 000001                        FOO             ; a macro
"""


class Covered(OfSystems):
    """Listings with how often each line ran."""

    def test_counts_are_those_of_each_turn(self) -> None:
        machine = self.machine(LEDGER)
        ran = counts_of(machine, SHORT)
        listing = "examples/ledger/ledger.lst"
        lines = (self.folder / listing).read_text().splitlines()
        span = f"from {SHORT.start} to {SHORT.stop - 1}"
        for mode, base in ((Mode.KERNEL, 0), (Mode.USER, 0o160000)):
            written = self.explore(f"covered {listing} at {base:o} {mode.value} {span}\n", *LEDGER)
            *marked, said = written.splitlines()
            self.assertEqual([it[12:] for it in marked], [it.rstrip() for it in lines])
            left = {it.address: count for it, count in ran.items() if it.mode == mode}
            marks = [it[:10].strip() for it in marked]
            for mark, line in zip(marks, lines):
                address = (int(line[:6], 8) + base) % 0o200000 if line[:6].isdigit() else -1
                count = left.pop(address, 0)
                self.assertEqual(int(mark) if mark.isdigit() else 0, count, line)
                self.assertTrue(count or mark in "#####" or mark == "-", line)
            self.assertEqual(left, {})
            all_ran = sum(it.isdigit() for it in marks)
            self.assertIn(f"{all_ran} of {all_ran + marks.count('#####')} instructions ran", said)

    def test_what_is_an_instruction(self) -> None:
        (self.folder / "it.lst").write_text(LISTING.replace("\n", "\r\n"))
        words = enumerate((0o5200, 0o240, 0o240, 0o774, 0o4767, 0))
        lines = "".join(f"core {0o1000 + 2 * at:o} {word:o}\n" for at, word in words)
        written = self.explore(f"{lines}covered it.lst at 1000 to 9\n").splitlines()[6:]
        marks = ["3", "3", "2", "#####", "-", "-", "-", "-"]
        self.assertEqual([it[:10].strip() for it in written], [*marks, "3 of 4 ins"])
        never = self.explore(f"{lines}covered it.lst to 9\n").splitlines()[6:]
        marks = ["#####", "#####", "-", "#####", "-", "-", "-", "-"]
        self.assertEqual([it[:10].strip() for it in never], [*marks, "0 of 3 ins"])

    def test_a_file(self) -> None:
        listing = "examples/media/hello.lst"
        line = f"-o 'my file' {listing} to 50\n"
        written = self.explore(f"covered {line}covered {line}covered! {line}", *LEDGER)
        said, *others = written.splitlines()
        self.assertEqual(others, [said, said])  # this run has written it
        shown = self.explore(f"covered {listing} to 50\n", *LEDGER).splitlines()
        self.assertEqual((self.folder / "my file").read_text().splitlines(), shown[:-1])
        self.assertEqual(said, f"{shown[-1]}; the lines are in my file")
        again = self.explore(f"covered {line}covered! {line}", *LEDGER).splitlines()
        self.assertEqual(again[0], "covered: my file is there already; covered! overwrites it")
        self.assertEqual(again[1:], [said])

    def test_what_is_refused(self) -> None:
        (self.folder / "bytes").write_bytes(bytes(range(256)))
        form = "covered [-o FILE] LISTING [at A] [kernel|user] [from N] [to M]"
        (self.folder / "it.lst").write_text(LISTING)
        no_line = "has no line with an address, words and an instruction, as a listing has them"
        refused = (
            ("covered", f"the form is: {form}"),
            ("covered it.lst", "the current turn is turn 0: covered LISTING to M names the last"),
            ("covered none to 5", "none: No such file or directory"),
            ("covered examples to 5", "examples: Is a directory"),
            ("covered bytes to 5", f"bytes {no_line}"),
            ("covered it.lst at 3 to 5", "A is odd: 3"),
            ("covered it.lst from 9 to 5", "turn 5 comes before turn 9"),
            ("covered it.lst to 1000000000", "turn 1000000000 is the end of the run: "),
            ("covered it.lst to 1000000001", "turn 1000000001 is above 1000000000"),
            ("covered -o no/it it.lst to 5", "no/it can't be written: No such file or directory"),
            ("profile", "the current turn is turn 0: profile N M"),
            ("profile 5", "the form is: profile [N M] [whole]"),
            ("profile 5 5", "M isn't above N"),
            ("profile 9 5", "M isn't above N"),
            ("profile 0 1000000001", "turn 1000000001 is above 1000000000"),
            ("profile 0 99999999999", "the form is: profile [N M] [whole]"),
        )
        written = self.explore("".join(f"{line}\n" for line, _ in refused), "--echo")
        for part, (line, said) in zip(re.split("^explore> ", written, flags=re.M)[1:], refused):
            self.assertIn(f"{line}\n{line.split()[0]}: {said}", part)


class AtThePrompt(AtTerminal):
    """The lines as they are typed."""

    def test_profile_and_operands_go_on_from_the_current_turn(self) -> None:
        self.begin("--no-journal", "examples/who-wrote-this-word.session")
        self.type("until PC 1040\n")
        self.wait_for(b"turn 19: ")
        self.type("profile\n")
        self.wait_for(b"the turns 0 to 18: 18 instructions, each counted\r\n")
        self.wait_for(b"no instruction that is counted: 5.26 % of all turns\r\n")
        self.type("covered examples/media/hello.lst\n")
        self.wait_for(b"4 of 8 instructions ran (50.0 %) in the turns 0 to 18, in kernel mode\r\n")
        self.type("see 20 1 operands\n")
        self.wait_for(b"            kernel  002000  002000    @#2000: 000100, then 000107\r\n")
        self.end()

    def test_ctrl_c_ends_a_long_profile(self) -> None:
        self.begin("--no-journal", "examples/ledger/ledger.session")
        for line in ("profile 0 1000000000 whole", "profile 0 1000000000"):
            self.type(f"{line}\n")
            self.wait_for(b" turns, ")  # the bar
            self.interrupt()
            self.wait_for(b"profile: stopped; the edits are all there\r\n")
            self.settle()
        self.type("profile 0 20\n")
        self.wait_for(b"the turns 0 to 19: 20 instructions, each counted\r\n")
        self.end()
