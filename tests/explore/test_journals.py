"""Edits that outlast a closed terminal, and edits that are taken back."""
import os
import random
import resource
import shutil
import signal
import subprocess
from pathlib import Path
from typing import Sequence

from .explore_case import SECONDS
from .machines import OnMachine
from .media import tape, words
from .terminal import AtTerminal

LARGER = 1 << 20
PAST = "regs 40\nevents\npatches\n"


class Journals(AtTerminal):
    """The journal of a run, and the one that takes it up."""

    LINE = "# line core 2000 5\ncore 2000 5\n"

    def journals(self) -> list[Path]:
        return sorted((self.folder / "state" / "nezdrab").glob("*.journal"))

    def edit_and_die(self, how: signal.Signals, *words: str) -> None:
        self.begin(*words)
        for line, reply in (("core 2000 123", b"ok"), ("at 5 key 101", b"event ")):
            self.type(f"{line}\n")
            self.wait_for(reply)
        self.type("at 9 key 142\n")
        self.wait_for(b"event ")
        self.wait_for(b"explore> ")
        os.killpg(self.child.pid, how)
        self.child.wait(SECONDS)
        self.seen = b""

    def past_of(self, lines: str, *words: str) -> str:
        written = self.explore(lines + PAST, *words)
        return "".join(it for it in written.splitlines(True) if "taken up" not in it)

    def test_a_killed_run_is_taken_up(self) -> None:
        shutil.copy(self.folder / "examples" / "one-key-sooner.session", self.folder / "my.session")
        for how in (signal.SIGKILL, signal.SIGHUP, signal.SIGTERM):
            self.edit_and_die(how, "--units", "4", "my.session")
            wanted = self.explore(
                "core 2000 123\nat 5 key 101\nat 9 key 142\n" + PAST + "mem 0 100000 1\n",
                "--units", "4", "my.session",
            ).splitlines()[3:]
            self.begin()
            self.wait_for(b"a journal has 3 edits of ")
            self.wait_for(b"./explore --resume takes it up")
            self.type("quit\n")
            self.assertEqual(self.child.wait(SECONDS), 0)
            self.assertEqual(len(self.journals()), 1)
            written = self.explore(PAST + "mem 0 100000 1\n", "--resume").splitlines()
            self.assertTrue(written[0].startswith("3 edits taken up (session: "), written[0])
            self.assertEqual(written[1:], wanted)
            self.begin("--resume")
            self.wait_for(b"3 edits taken up")
            self.type("quit!\n")
            self.assertEqual(self.child.wait(SECONDS), 0)
            self.assertEqual(self.journals(), [])
            self.seen = b""

    def test_a_run_that_is_taken_up_goes_on_with_its_journal(self) -> None:
        self.edit_and_die(signal.SIGKILL)
        self.begin("--resume")
        self.type("undo\n")
        self.wait_for(b"taken back: at 9 key 142")
        self.type("at 8 key 7\n")
        self.wait_for(b"event 2")
        self.wait_for(b"explore> ")
        os.killpg(self.child.pid, signal.SIGKILL)
        self.child.wait(SECONDS)
        (journal,) = self.journals()
        edits = journal.read_text().split("# at the prompt\n")[1]
        lines = ("core 2000 123", "at 5 key 101", "at 8 key 7")
        self.assertEqual(edits, "".join(f"# line {it}\n{it}\n" for it in lines))

    def test_a_line_is_taken_back_whole(self) -> None:
        """As it was made, with the options that it changed, and made again."""
        for name, at in (("it", 0o2000), ("other", 0o3000)):
            data = tape((at, words(0o12700, 5, 0)), start=at)
            (self.folder / name).write_bytes(data)
        # TSTB @#177560; BPL .-4; MOVB @#177562,R0; BR: each key is taken
        taking = ["105737", "177560", "100375", "113700", "177562", "772"]
        lines = "load it\nload other\ncore 1000 7\ndrop from 9\n"
        lines += "".join(f"core {0o3000 + 2 * at:o} {it}\n" for at, it in enumerate(taking))
        lines += f"type 'ab{'c' * 300}' from 5\nundo\nredo\n"
        begun = self.explore(lines, "--units", "4", "--journal", "mine")
        self.assertIn("made again: type 'abccc", begun)
        self.explore("regs 0\n", (self.folder / "mine").name)  # it is a session too
        self.assertEqual(self.error, "")
        undone = "undo\nredo\n" + "undo\n" * 10 + "regs 0\npatches\nmem 0 100000 1\nundo\n"
        written = self.explore(undone, "--resume", "mine").splitlines()
        self.assertEqual(written[0], "313 edits taken up (session: none)")
        self.assertRegex(written[1], r"^taken back: type 'abc+ \.\. \(302 edits\)$")
        self.assertEqual(written[2], written[1].replace("taken back", "made again"))
        self.assertEqual(written[10], "taken back: core 1000 7")
        self.assertEqual(written[11], "taken back: load other (2 edits)")
        self.assertEqual(written[12], "taken back: load it (2 edits)")
        self.assertIn("PC 001000", written[13])
        self.assertEqual(written[14:16], ["patches 0", "refused 2 OutsideCore"])
        self.assertTrue(written[17].startswith("undo: no edit was made here"), written)
        journal = (self.folder / "mine").read_text()
        self.assertEqual(journal, "#! --units 4\n# session none\n# at the prompt\n")

    def test_a_line_that_was_cut_off(self) -> None:
        """Of a last line without its end nothing is known."""
        self.edit_and_die(signal.SIGKILL)
        (journal,) = self.journals()
        with journal.open("a") as file:
            file.write("core 2002 1")
        written = self.explore("patches\n", "--resume")
        self.assertIn("3 edits taken up", written)
        self.assertIn("patches 1\ncore 002000 000123\n", written)

    def test_edits_that_are_saved_leave_no_journal(self) -> None:
        self.begin()
        self.type("core 2000 5\n")
        self.wait_for(b"ok")
        self.type("save it\n")
        self.wait_for(b"lines in it")
        self.assertEqual(len(self.journals()), 1)
        self.end()
        self.assertEqual(self.journals(), [])

    def test_edits_that_are_not_saved_are_told(self) -> None:
        for word in ("quit\n", "q\n", "exit\n", "\x04"):
            self.begin()
            self.type("core 2000 5\n")
            self.wait_for(b"ok")
            self.type(word)
            self.wait_for(b"the past isn't saved: ./explore --resume takes up 1 edit\r\n")
            self.assertEqual(self.child.wait(SECONDS), 0)
            self.seen = b""
        self.assertEqual(len(self.journals()), 4)

    def test_edits_that_no_journal_has_are_not_dropped_unasked(self) -> None:
        fault = b"and the journal can't be written: No such file or directory: save FILE keeps"
        self.state = "/proc/nope"
        for keep in (False, True):
            self.begin("examples/ledger/ledger.session")
            self.type("at 1000 key 101\n")
            self.wait_for(b"event 28")
            for word in ("quit\n", "q\n", "exit\n", "\x04", "\x04"):
                self.type(word)
                self.wait_for(b"1 edit not saved, " + fault)
            self.type("quit\nundo\n")
            self.wait_for(fault)
            self.type("undo\n")
            self.wait_for(b"taken back: at 1000 key 101")
            self.type("redo\n")
            self.type("save it\n" if keep else "quit!\n")
            if keep:
                self.wait_for(b"lines in it")
                self.end()
            self.assertEqual(self.child.wait(SECONDS), 0)
            self.seen = b""
        self.assertIn("at 1000 key 101\n", (self.folder / "it").read_text())

    def test_a_full_disk_and_quit(self) -> None:
        """What was written and what wasn't: all of it is kept once there is room."""
        lines = [f"core {it:o} 5" for it in range(0o1000, 0o2000, 2)]
        self.prepare = lambda: resource.setrlimit(resource.RLIMIT_FSIZE, (4096, LARGER))
        self.begin()
        self.type("".join(f"{it}\n" for it in lines))
        self.wait_for(b"edits are in memory alone")
        self.type("patches\n")
        self.wait_for(b"patches 256")
        self.type("\x04")
        self.wait_for(b"256 edits not saved, and the journal can't be written: File too large: ")
        limits = (LARGER, LARGER)
        resource.prlimit(self.child.pid, resource.RLIMIT_FSIZE, limits)
        self.type("quit\n")
        self.wait_for(b"the past isn't saved: ./explore --resume takes up 256 edits")
        self.child.wait(SECONDS)
        written = self.explore("patches\n", "--resume").splitlines()
        self.assertEqual(written[:2], ["256 edits taken up (session: none)", "patches 256"])

    def test_a_journal_that_could_not_be_begun(self) -> None:
        """It is whole once it can be, and has each edit once."""
        state = self.folder / "state"
        state.write_text("")
        self.begin()
        self.type("core 2000 5\n")
        self.wait_for(b"edits are in memory alone")
        self.type("core 2002 5\n")
        self.wait_for(b"ok")
        state.unlink()
        self.end()
        (journal,) = self.journals()
        edits = "".join(self.LINE.replace("2000", it) for it in ("2000", "2002"))
        self.assertEqual(journal.read_text(), f"#!\n# session none\n# at the prompt\n{edits}")

    def test_two_runs_have_two_journals(self) -> None:
        self.edit_and_die(signal.SIGKILL)
        self.begin("--resume")
        self.wait_for(b"3 edits taken up")
        (journal,) = self.journals()
        said = f"explore: {journal} is in use by another explore, process {self.child.pid}\n"
        for words in (("--resume",), ("--resume", str(journal))):
            self.assertEqual(self.explore("", *words, status=1), "")
            self.assertEqual(self.error, said)
        self.end()
        self.explore("", "--resume", str(self.folder), status=1)
        self.assertIn("is a folder", self.error)
        journal.unlink()
        self.explore("", "--resume", status=1)
        self.assertIn("no journal with edits is kept", self.error)

    def test_a_file_of_its_own_and_none(self) -> None:
        self.explore("core 2000 5\nat 3 key 7\nundo\n", "--journal", "mine")
        text = (self.folder / "mine").read_text()
        self.assertEqual(text, f"#!\n# session none\n# at the prompt\n{self.LINE}")
        self.explore("core 2000 7\n", "--journal", "mine", status=1)
        self.assertIn("mine is there already; --resume mine takes it up", self.error)
        self.explore("core 2002 7\n", "--resume", "mine")
        last = self.LINE + self.LINE.replace("2000 5", "2002 7")
        self.assertTrue((self.folder / "mine").read_text().endswith(last))
        said = self.explore("core 2000 5\nquit\n", "--journal", "my own")
        self.assertIn("the past isn't saved: ./explore --resume 'my own' takes up 1 edit\n", said)
        self.explore("", "--journal", "my own", status=1)
        self.assertIn("my own is there already; --resume 'my own' takes it up", self.error)
        self.begin("--no-journal")
        self.type("core 2000 5\n")
        self.wait_for(b"ok")
        self.end()
        self.assertEqual(self.journals(), [])

    def test_a_session_is_no_journal(self) -> None:
        (self.folder / "my.session").write_text("core 1000 5\nregs 5\n")
        self.explore("", "--resume", "my.session", status=1)
        self.assertIn("my.session:2: no line of a journal", self.error)
        self.assertEqual((self.folder / "my.session").read_text(), "core 1000 5\nregs 5\n")

    def test_a_journal_that_was_changed(self) -> None:
        """Without the comments each edit is a line; options that can't be read are told."""
        begin = "#!\n# session none\n# at the prompt\n"
        (self.folder / "bare").write_text(f"{begin}core 2000 5\ncore 2002 5\n")
        written = self.explore("undo\nundo\nundo\n", "--resume", "bare").splitlines()
        self.assertEqual(written[1:3], ["taken back: core 2002 5", "taken back: core 2000 5"])
        (self.folder / "odd").write_text(f"{begin}# line load it\n#< --disk '\ncore 2000 5\n")
        self.explore("", "--resume", "odd", status=1)
        self.assertIn("explore: odd can't be read: No closing quotation", self.error)

    def test_some_tens_are_kept(self) -> None:
        folder = self.folder / "state" / "nezdrab"
        folder.mkdir(parents=True)
        for number in range(40):
            path = folder / f"{number:02}.journal"
            path.write_text("#!\n# session none\n# at the prompt\ncore 2000 5\n")
            os.utime(path, (1_000_000 + number, 1_000_000 + number))
        self.edit_and_die(signal.SIGKILL)
        kept = self.journals()
        self.assertEqual(len(kept), 30)
        self.assertIn("11.journal", [it.name for it in kept])
        self.assertNotIn("10.journal", [it.name for it in kept])

    def test_a_full_disk_is_told_and_edits_go_on(self) -> None:
        lines = "".join(f"core {it:o} 5\n" for it in range(0o1000, 0o3000, 2))
        limited = ["bash", "-c", 'ulimit -f 1; trap "" XFSZ; exec "$@"', "bash"]
        ended = subprocess.run(
            [*limited, *self.command("--journal", "mine")],
            input=f"{lines}patches\n",
            cwd=self.folder,
            env=self.full_disk(),
            capture_output=True,
            text=True,
            timeout=SECONDS,
        )
        told = "the journal can't be written: File too large; edits are in memory alone"
        self.assertEqual(ended.stdout.count(told), 1)
        self.assertIn("patches 512\n", ended.stdout)
        journal = (self.folder / "mine").read_text()
        marked = "".join(f"# line {it}\n{it}\n" for it in lines.splitlines())
        self.assertTrue(f"#!\n# session none\n# at the prompt\n{marked}".startswith(journal))
        self.assertTrue(journal.endswith(" 5\n"))


class TakenBack(AtTerminal):
    """undo, redo and drop from."""

    def test_undo_gives_back_the_past_and_the_numbers(self) -> None:
        edits = [
            "core 2000 1",
            "core 2002 2",
            "core 2000 7",
            "uncore 2002",
            "disk 5 6",
            "delay disk 50",
            "tape 1 2 3",
            "at 9 key 101",
            "at 5 tick",
            "alter 1 9 key 104",
            "alter 2 8 tick",
            "drop 1",
            "type a from 0",
            "drop from 5",
            "version 2",
        ]
        asked = PAST + "dsk 40 5 1\npunched 40\nat 50 tick\nundo\nsave! it\n"
        for count, edit in enumerate(edits):
            before = "".join(f"{it}\n" for it in edits[:count])
            wanted = self.explore(before + asked).splitlines()[count:]
            wanted_file = (self.folder / "it").read_text()
            again = "undo\nredo\nundo\n" if count % 2 else "undo\n"
            taken = self.explore(f"{before}{edit}\n{again}{asked}").splitlines()
            self.assertEqual(taken[-len(wanted) :], wanted, edit)
            self.assertEqual((self.folder / "it").read_text(), wanted_file)

    def test_redo_makes_the_same_events(self) -> None:
        lines, session = "type go from 40\nat 4 tick\n", "examples/two-tasks.session"
        wanted = self.explore(lines + PAST, session).splitlines()[3:]
        written = self.explore(f"{lines}undo\nundo\nredo\nredo\n{PAST}", session).splitlines()
        self.assertEqual(
            written[3:7],
            [
                "taken back: at 4 tick",
                "taken back: type go from 40 (2 edits)",
                "made again: type go from 40 (2 edits)",
                "made again: at 4 tick",
            ],
        )
        self.assertEqual(written[7:], wanted)

    def test_the_ends(self) -> None:
        written = self.explore("undo\nredo\n", "examples/one-key-sooner.session")
        self.assertEqual(written, "undo: no edit was made here; those of the session stay\n"
                         "redo: nothing was taken back, or an edit came after it\n")

    def test_all_events_from_a_turn_on(self) -> None:
        lines = "at 9 key 101\nat 5 tick\nat 12 tick\nat 10 key 1\ndrop from 10\nevents\n"
        written = self.explore(lines + "undo\nevents\ndrop from\n").splitlines()[4:]
        self.assertEqual(written[:2], ["2 events dropped", "2 events"])
        self.assertEqual(written[4:6], ["taken back: drop from 10 (2 edits)", "4 events"])


class ByEdits(OnMachine):
    """What is taken back, at random, against a program that had the other edits alone."""

    # TSTB @#177560; BPL .-4; MOVB @#177562,R0; MOV R0,2000(R1); TST (R1)+; BR: each key is kept
    PROGRAM = "105737 177560 100375 113700 177562 10061 2000 5721 767"
    ASKED = ("setup", "events", "patches", "regs 60", "mem 60 2000 8", "punched 60", "devices 4")

    def edit(self, chance: random.Random, events: int, drive: str) -> str:
        event = chance.choice(("key {:o}", "tick", "switches {:o}")).format(chance.randrange(100))
        altered, turn = chance.randrange(1, events + 2), chance.randrange(5)
        word = chance.choice(("2000", "2002", "02000"))
        kinds = [f"core {word} {turn}", f"uncore {word}", f"at {turn} {event}", "tape 1 2"]
        kinds += [f"disk {drive}{turn} 5", f"delay disk {turn}", f"delay clock {turn}", "tape 3"]
        kinds += [f"alter {altered} {turn} {event}"] * 4
        rare = ["version 2", f"drop {altered}"]
        return chance.choice(rare if chance.random() < 0.1 else kinds)

    def replies(self, edits: Sequence[str]) -> list[str]:
        machine = self.explorer(edits=edits).machine
        return [*map(machine.ask, self.ASKED), machine.ask("at 50 tick")]

    def test_the_past_is_the_same(self) -> None:
        kept = 0
        words = enumerate(self.PROGRAM.split())
        program = [f"core {0o1000 + 2 * at:o} {word}" for at, word in words]
        for seed in range(24):
            chance = random.Random(seed)
            machine = self.explorer(edits=program).machine
            for _ in range(chance.randrange(3, 20)):
                drive = "0 " if "version 2" in machine.journal else ""
                machine.ask(self.edit(chance, len(machine.script), drive))
            machine.read("regs 60")
            before = machine.begin()
            for count in (chance.randrange(1, 4), 1):
                machine.take_back(min(count, len(machine.journal) - len(program)))
                wanted = self.replies(machine.journal)
                self.assertEqual([*map(machine.ask, self.ASKED)], wanted[:-1], machine.journal)
            kept += machine.begin() is before
            self.assertEqual(machine.ask("at 50 tick"), wanted[-1], machine.journal)
        self.assertGreater(kept, 5)
