"""The files that explore writes: whole or not at all, and in no other file's place."""
import os
import stat
import subprocess
import threading
import unittest
from pathlib import Path

from .explore_case import ROOT, SECONDS, Case
from .installed import SIMH

COMMANDS = ("save{} {}", "page{} {} to 3", "export{} {} at 3")
FULL = "No space left on device"
EXPLORE = str(ROOT / "explore")


class Files(Case):
    """Links, devices, pipes, files of others, and a full disk."""

    def test_a_file_of_others_is_overwritten_with_a_mark_alone(self) -> None:
        for form in COMMANDS:
            mine = self.folder / "mine.html"
            mine.write_text("mine\n")
            line, word = form.format("", mine), form.split("{")[0]
            refused = f"{word}: {mine} is there already; {word}! overwrites it\n"
            self.assertEqual(self.explore(f"{line}\n"), refused)
            self.assertEqual(mine.read_text(), "mine\n")
            written = self.explore(f"{form.format('!', mine)}\n{line}\n")
            self.assertNotIn("there already", written)
            self.assertNotEqual(mine.read_text(), "mine\n")
            for it in self.folder.glob("mine*"):
                it.unlink()

    def test_a_file_that_another_has_changed_meanwhile(self) -> None:
        session = "save it\nsymbols fifo\nsave it\n"
        os.mkfifo(self.folder / "fifo")

        def change() -> None:
            with open(self.folder / "fifo", "w"):
                (self.folder / "it").write_text("changed\n")

        thread = threading.Thread(target=change)
        thread.start()
        written = self.explore(session)
        thread.join(SECONDS)
        self.assertIn("save: it is there already; save! overwrites it", written)
        self.assertEqual((self.folder / "it").read_text(), "changed\n")

    def test_a_folder(self) -> None:
        for form in COMMANDS:
            word = form.split("{")[0]
            self.assertEqual(self.explore(form.format("", ".") + "\n"), f"{word}: . is a folder\n")

    def test_a_file_that_is_read_only(self) -> None:
        kept = self.folder / "kept"
        kept.write_text("mine\n")
        kept.chmod(0o444)
        self.assertEqual(self.explore("save! kept\n"), "save: kept is read-only\n")
        self.assertEqual(kept.read_text(), "mine\n")

    def test_a_link_stays_and_its_target_keeps_its_mode(self) -> None:
        target = self.folder / "target"
        target.write_text("mine\n")
        target.chmod(0o640)
        (self.folder / "link").symlink_to("target")
        (self.folder / "dangling").symlink_to("made")
        self.explore("core 1000 5\nsave! link\nsave dangling\n")
        self.assertTrue((self.folder / "link").is_symlink())
        self.assertIn("core 1000 5\n", target.read_text())
        self.assertEqual(stat.S_IMODE(target.stat().st_mode), 0o640)
        self.assertIn("core 1000 5\n", (self.folder / "made").read_text())

    def device(self, name: str, minor: int) -> Path:
        """A device of its own, if one may be made, since a wrong program replaces it. Who may
        make none can't replace those of the system either, and gets a link."""
        node = self.folder / name
        try:
            os.mknod(node, 0o666 | stat.S_IFCHR, os.makedev(1, minor))
            node.open("wb").close()
        except OSError:
            node.unlink(missing_ok=True)
            node.symlink_to(f"/dev/{name}")
        return node

    def test_devices(self) -> None:
        nodes = [self.device("full", 7), self.device("null", 3)]
        (self.folder / "out").symlink_to("/dev/stdout")
        written = self.explore("core 1000 5\nsave full\npage full to 3\nsave null\nsave out\n")
        lines = written.splitlines()[1:]
        self.assertEqual(lines[0], f"save: full can't be written: {FULL}")
        self.assertEqual(lines[1], f"page: full can't be written: {FULL}")
        self.assertIn("lines in null", lines[2])
        self.assertIn("core 1000 5", lines[3:])
        for node in nodes:
            self.assertTrue(stat.S_ISCHR(node.stat().st_mode))

    def test_a_pipe_with_a_name(self) -> None:
        os.mkfifo(self.folder / "pipe")
        read = subprocess.Popen(["cat", self.folder / "pipe"], stdout=subprocess.PIPE)
        self.explore("core 1000 5\nsave pipe\n")
        written, _ = read.communicate(timeout=SECONDS)
        self.assertIn(b"core 1000 5\n", written)
        self.assertTrue(stat.S_ISFIFO((self.folder / "pipe").stat().st_mode))

    def test_a_full_disk_leaves_what_was_there(self) -> None:
        """The limit of a file's size stands in for the end of a disk."""
        (self.folder / "mine.session").write_text("core 1000 5\n" * 3)
        lines = "".join(f"core {it:o} 5\n" for it in range(0o1000, 0o3000, 2))
        limited = ["bash", "-c", 'ulimit -f 1; trap "" XFSZ; exec "$@"', "bash", *self.command()]
        ended = subprocess.run(
            limited,
            input=f"{lines}save! mine.session\nregs 0\n",
            cwd=self.folder,
            env=self.full_disk(),
            capture_output=True,
            text=True,
            timeout=SECONDS,
        )
        self.assertIn("save: mine.session can't be written: File too large", ended.stdout)
        self.assertEqual((self.folder / "mine.session").read_text(), "core 1000 5\n" * 3)
        self.assertEqual({"examples", "mine.session"}, set(os.listdir(self.folder)) - {"state"})

    def test_standard_output_on_a_full_disk(self) -> None:
        for words, lines in (
            ((), "regs 0\n"),
            ((), "help\n" * 100),
            ((), "core 9\n"),
            ((), "see x\n"),
            ((), "events\n"),
            (("--help",), ""),
            (("web", "--help"), ""),
            (("dap", "--help"), ""),
        ):
            with open("/dev/full", "w") as full:
                ended = subprocess.run(
                    [EXPLORE, *words] if words[-1:] == ("--help",) else self.command(*words),
                    input=lines,
                    cwd=self.folder,
                    env=self.environment(),
                    stdout=full,
                    stderr=subprocess.PIPE,
                    text=True,
                    timeout=SECONDS,
                )
            self.assertEqual(
                (ended.returncode, ended.stderr),
                (1, f"explore: the output can't be written: {FULL}\n"),
            )

    def test_standard_error_on_a_full_disk(self) -> None:
        with open("/dev/full", "w") as full:
            ended = subprocess.run(
                self.command("missing.session"),
                env=self.environment(),
                stdin=subprocess.DEVNULL,
                stderr=full,
                timeout=SECONDS,
            )
        self.assertEqual(ended.returncode, 1)


@unittest.skipUnless(SIMH, "SIMH's pdp11 isn't installed")
class Images(Case):
    """What SIMH writes to a drive."""

    def test_each_run_finds_the_same_drive(self) -> None:
        written = self.explore("export it.ini at 21\n", "examples/who-wrote-this-word.session")
        self.assertIn("each run attaches a copy: it.rk0.run\n", written)
        image = (self.folder / "it.rk0").read_bytes()
        first, second = self.after_a_run(), self.after_a_run()
        self.assertNotEqual(first[:2], image[:2], "the run writes nothing to the drive")
        self.assertEqual(first, second)
        self.assertEqual((self.folder / "it.rk0").read_bytes(), image)

    def after_a_run(self) -> bytes:
        """The drive after SIMH has run the program to its HALT."""
        (self.folder / "run.ini").write_text("do it.ini\ngo\nexit\n")
        ended = subprocess.run(
            [str(SIMH), "run.ini"],
            stdin=subprocess.DEVNULL,
            cwd=self.folder,
            capture_output=True,
            text=True,
            timeout=SECONDS,
        )
        self.assertIn("is a copy, new at each start", ended.stdout)
        return Path(self.folder / "it.rk0.run").read_bytes()
