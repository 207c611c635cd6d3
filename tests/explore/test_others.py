"""What explore writes for others: sessions, pages, SIMH, GNU parallel."""
import re
import shutil
import subprocess
import unittest
from pathlib import Path

from tests import stored_sessions as sessions

from .explore_case import BUILT, ROOT, SECONDS, Case
from .installed import SIMH
from .pages import held_in

QUESTIONED_TURNS = (0, 1, 7, 40, 400, 5000)


class Saved(Case):
    """A past that is saved and read again answers as before."""

    def questions(self, lines: bytes) -> str:
        drive = "0 " if b"version 2" in lines else ""
        return "".join(
            f"regs {it}\nmem {it} 0 256\nmem {it} 1000 256\ndsk {it} {drive}0 256\n"
            f"text {it}\npunched {it}\n"
            f"devices {it}\npages {it}\nlast {it} 1000\n"
            + (f"trail {it} {min(it, 64)}\n" if it else "")
            for it in QUESTIONED_TURNS
        )

    def test_each_example(self) -> None:
        for stored in sessions.sessions_of(str(ROOT / "examples")):
            if "/long/" in stored.name:
                continue
            with self.subTest(stored.name):
                self.saved_answers_equally(stored)

    def test_each_rule_of_the_script(self) -> None:
        folder = ROOT / sessions.RULES / "events-and-patches"
        for stored in sessions.sessions_of(str(folder)):
            with self.subTest(stored.name):
                self.saved_answers_equally(stored)

    def saved_answers_equally(self, stored: sessions.Session) -> None:
        saved = self.folder / "saved.session"
        questions = self.questions(stored.lines)
        edits = [it for it in sessions.lines_of(stored.lines) if self.is_edit(it)]
        options = [str(Path(stored.folder) / it) if "." in it else it for it in stored.args]
        path = Path(f"{stored.name}.session")
        if not path.exists():  # its lines stand in a transcript
            path = self.folder / "stored.session"
            path.write_bytes(stored.lines)
            path.with_suffix(".args").write_text("".join(f"{it}\n" for it in options))
        self.explore(f"save {saved}\npage! it.html\n", str(path))
        text = b"".join(it if it.endswith(b"\n") else it + b"\n" for it in edits).decode()
        before = self.pdp11(text + questions, *options).splitlines()
        lines = saved.read_text()
        after = self.pdp11(lines + questions, *options).splitlines()
        count = sum(sessions.has_reply(it.encode()) for it in lines.splitlines())
        self.assertNotIn("refused", " ".join(after[:count]))
        self.assertEqual(after[count:], before[len(edits) :])
        self.assertEqual(lines.splitlines()[0], " ".join(["#!", *options]))
        self.is_in_the_page(lines.splitlines()[1:], options)
        saved.unlink()

    def is_in_the_page(self, lines: list[str], options: list[str]) -> None:
        """The page has the lines that were saved, the options, and the files that these name."""
        page = held_in(self.folder / "it.html")
        *edits, last = (it for it in page.lines if not it.startswith("#"))
        self.assertEqual(edits, lines)
        self.assertRegex(last, "^regs [0-9]+$")
        self.assertEqual(page.arguments, [Path(it).name for it in options])
        paths = [Path(it) for it in options if "/" in it]
        self.assertEqual(page.files, {it.name: it.read_bytes() for it in paths})

    def test_options_are_in_the_file_itself(self) -> None:
        """A file of options that is beside it counts no more, and those that are given win."""
        (self.folder / "my disk").write_bytes(b"\7\0")
        (self.folder / "past.args").write_text("--units\n2\n")
        asked = "mem 0 40000 1\nregs 0\ndsk 0 0 1\n"
        words = ("--units", "4", "--start", "2000", "--disk", "my disk")
        wanted = self.explore("core 40000 7\nsave past.session\n" + asked, *words)
        self.assertEqual((self.folder / "past.args").read_text(), "--units\n2\n")
        (self.folder / "elsewhere").mkdir()
        moved = self.folder / "elsewhere" / "past.session"
        (self.folder / "past.session").rename(moved)
        moved.with_suffix(".args").write_text("--units\n2\n")
        self.assertEqual(self.explore(asked, str(moved)), "".join(wanted.splitlines(True)[2:]))
        written = self.explore(asked, "--start", "3000", str(moved)).splitlines()
        self.assertEqual((written[0], written[2]), ("mem 000007", "dsk 000007"))
        self.assertIn("PC 003000", written[1])
        self.explore("save! past\n")
        self.assertEqual((self.folder / "past").read_text(), "#!\n")
        self.assertTrue(self.explore("mem 0 100000 1\n", "past").startswith("mem "))

    def test_a_long_path_is_in_the_file(self) -> None:
        """The program passes over its comment lines, which have 200 bytes at most."""
        folder = self.folder / ("it's a \\ folder" * 4) / ("b" * 130)
        folder.mkdir(parents=True)
        (folder / "d").write_bytes(b"\7\0")
        self.explore("core 1000 5\nsave past\n", "--disk", str(folder / "d"))
        written = self.pdp11((self.folder / "past").read_text())
        self.assertEqual(written, "ok\n")
        self.assertEqual(self.explore("dsk 0 0 1\n", "past"), "dsk 000007\n")
        self.assertFalse((self.folder / "past.args").exists())

    @staticmethod
    def is_edit(line: bytes) -> bool:
        words = line.split()
        edits = {sessions.command_of(it) for it in sessions.LANGUAGE if it.kind == sessions.EDIT}
        return sessions.has_reply(line) and words[0] in edits

    def test_numbers_of_events_and_the_order_in_a_turn(self) -> None:
        edits = "at 9 key 101\nat 5 tick\nat 9 key 102\nat 9 key 103\nalter 1 9 key 104\n"
        edits += "alter 3 8 tick\nalter 3 9 tick\ndrop 2\n"
        self.explore(edits + "save past\n")
        self.assertEqual(
            (self.folder / "past").read_text(), "#!\nat 9 key 104\nat 9 key 103\nat 9 tick\n"
        )


@unittest.skipUnless(SIMH, "SIMH's pdp11 isn't installed")
class Exported(Case):
    """SIMH goes on from an exported turn as this machine does."""

    def registers_of_simh(self, commands: Path, steps: int) -> list[int]:
        names = ["R0", "R1", "R2", "R3", "R4", "R5", "PC", "PSW"]
        script = f"do {commands}\nstep {steps}\n" + "".join(f"ex {it}\n" for it in names) + "exit\n"
        (self.folder / "run.ini").write_text(script)
        ended = subprocess.run(
            [str(SIMH), "run.ini"],
            stdin=subprocess.DEVNULL,
            cwd=self.folder,
            capture_output=True,
            text=True,
            timeout=SECONDS,
        )
        found = dict(re.findall(r"^(\w+):\s+([0-7]+)\s*$", ended.stdout, re.MULTILINE))
        self.assertEqual([it for it in names if it not in found], [], ended.stdout)
        return [int(found[it], 8) for it in names]

    def goes_on(self, session: str, turn: int, steps: int) -> None:
        self.explore(f"export! it.ini at {turn}\n", f"examples/{session}.session")
        reply = self.explore(f"regs {turn + steps}\n", f"examples/{session}.session").split()
        ours = [
            int(reply[reply.index(it) + 1], 8)
            for it in ("R0", "R1", "R2", "R3", "R4", "R5", "PC", "PS")
        ]
        self.assertEqual(
            self.registers_of_simh(self.folder / "it.ini", steps), ours, (session, turn, steps)
        )

    def test_instructions(self) -> None:
        for turn in (0, 21, 25):
            self.goes_on("who-wrote-this-word", turn, 3)

    def test_mapping(self) -> None:
        for turn, steps in ((2, 3), (4, 1)):
            self.goes_on("page-somewhere-else", turn, steps)

    def test_user_mode_with_a_kernel(self) -> None:
        for turn in (14, 236, 242):
            self.goes_on("ledger/ledger", turn, 6)

    def test_the_drive_is_an_image(self) -> None:
        self.explore("export it.ini at 40\n", "examples/who-wrote-this-word.session")
        image = (self.folder / "it.rk0").read_bytes()
        self.assertEqual((len(image), image[:4]), (2_494_464, b"\x47\x00\x00\x00"))


@unittest.skipUnless(shutil.which("parallel"), "GNU parallel isn't installed")
class Parallel(Case):
    """A sweep in parts, one command a line."""

    def test_jobs_are_done_and_gathered(self) -> None:
        sweep = "key 101 from 0 to 90: regs 95\n"
        session = "examples/one-key-sooner.session"
        whole = self.explore(f"sweep {sweep}", session)
        self.explore(f"sweep --jobs jobs {sweep}", session)
        built = f"./explore --program {BUILT.program} --disassembler {BUILT.disassembler}"
        jobs = (self.folder / "jobs").read_text().replace("./explore", built)
        ended = subprocess.run(
            ["parallel", "-j", "4"],
            input=jobs,
            cwd=ROOT,
            capture_output=True,
            text=True,
            timeout=SECONDS,
        )
        self.assertEqual(ended.returncode, 0, ended.stderr)
        (self.folder / "out").write_text(ended.stdout)
        gathered = self.explore("sweep --gather out\n").splitlines()
        self.assertEqual(gathered[1:], whole.splitlines())
