"""Where Python's compiled modules are kept, and which are read, so that explore starts at once."""
import subprocess
import sys
from pathlib import Path
from unittest import mock

from nezdrab.analysis.disassembly import disassembler_of
from nezdrab.core.errors import ExploreError
from nezdrab.shell.command_table import COMMANDS, MODULES

from .explore_case import ROOT, SECONDS, Case

MODULE = "main.cpython-*.pyc"


class Start(Case):
    """The cache is the user's; the clone stays as it is."""

    def starts(self, **environment: str) -> None:
        ended = subprocess.run(
            [str(ROOT / "explore"), "--version"],
            env={"PATH": "/usr/bin:/bin", **environment},
            capture_output=True,
            text=True,
            timeout=SECONDS,
        )
        self.assertEqual((ended.returncode, ended.stderr), (0, ""))

    def kept_in(self, folder: Path) -> list[Path]:
        return list(folder.rglob(MODULE))

    def test_compiled_modules_are_in_the_cache_of_the_user(self) -> None:
        home = self.folder / "home"
        self.starts(HOME=str(home))
        self.assertTrue(self.kept_in(home / ".cache" / "nezdrab" / "python"))

    def test_they_are_where_the_user_wants_the_cache(self) -> None:
        home, cache = self.folder / "home", self.folder / "elsewhere"
        self.starts(HOME=str(home), XDG_CACHE_HOME=str(cache))
        self.assertTrue(self.kept_in(cache / "nezdrab" / "python"))
        self.assertFalse(home.exists())

    def test_compiled_modules_that_were_cut(self) -> None:
        """A full disk leaves such: explore starts, and they are whole after the next start."""
        home = self.folder / "home"
        self.starts(HOME=str(home))
        whole = {it: it.read_bytes() for it in home.rglob("*.pyc")}
        self.assertGreater(len(whole), 10)
        for at, (path, data) in enumerate(whole.items()):
            cuts = (0, 7, 16, 17, len(data) // 2, len(data) - 1)
            path.write_bytes(data[: cuts[at % len(cuts)]])
        for _ in range(2):
            self.starts(HOME=str(home))
        again = {it: it.read_bytes() for it in whole}
        for path, data in again.items():
            self.assertGreater(len(data), 0.9 * len(whole[path]), path)
        self.starts(HOME=str(home))
        self.assertEqual({it: it.read_bytes() for it in whole}, again)

    def test_nothing_is_kept_without_a_place(self) -> None:
        before = self.kept_in(ROOT / "src")
        self.starts()
        self.starts(HOME="relative")
        self.starts(HOME="/dev/null")
        self.assertEqual(self.kept_in(ROOT / "src"), before)

    def test_pythons_own_modules_are_read_where_they_are(self) -> None:
        """They are compiled there, and would be compiled at each start that can keep nothing."""
        code = "import encodings, os, sys; sys.exit(not os.access(encodings.__cached__, os.R_OK))"
        path = {"PATH": "/usr/bin:/bin"}
        if subprocess.run(["python3", "-c", code], env=path).returncode:
            self.skipTest("this Python has its library uncompiled")
        self.starts(HOME=str(self.folder))
        kept = self.folder.rglob("*.pyc")
        self.assertEqual([it.name for it in kept if str(ROOT) not in str(it)], [])


class Modules(Case):
    """The start has what a prompt needs, and no more."""

    MOST, MOST_OF_OURS = 130, 44
    LATER = {"completion", "assembler", "load", "machine", "questions", "moves", "listing"}
    LATER_OF_PYTHON = {"dataclasses", "inspect", "tempfile", "shutil", "json", "textwrap", "random"}

    def test_few_are_read(self) -> None:
        code = "import sys\nbefore = set(sys.modules)\nfrom nezdrab import main\n"
        code += "print(*set(sys.modules) - before)"
        command, path = [sys.executable, "-S", "-B", "-c", code], str(ROOT / "src")
        ran = subprocess.run(command, env={"PYTHONPATH": path}, capture_output=True, text=True)
        read = ran.stdout.split()
        ours = {it.rpartition(".")[2] for it in read if it.startswith("nezdrab")}
        self.assertIn("prompt", ours)
        self.assertEqual((ours & self.LATER, {*read} & self.LATER_OF_PYTHON), (set(), set()))
        self.assertLess(len(ours), self.MOST_OF_OURS)
        self.assertLess(len(read), self.MOST)

    def test_the_disassembler_is_looked_for_when_an_instruction_is_shown(self) -> None:
        """What looks for it is a script that takes as long as all else at the start."""
        looked: list[str] = []
        found = mock.patch("nezdrab.analysis.disassembly.program_of")
        with found as program_of:
            program_of.side_effect = ExploreError("there is none")
            disassembler = disassembler_of(None, looked.append)
            self.assertFalse(program_of.called)
            for word in (0o240, 0o5000):
                shown = disassembler.instruction(0, [word, 0, 0])
                self.assertEqual((shown.words, shown.text), (1, f".WORD {word:06o}"))
        self.assertEqual(looked, ["there is none; instructions are shown as words"])


class Commands(Case):
    """Their modules are read when they are typed."""

    def test_each_is_in_its_module(self) -> None:
        folder = ROOT / "src" / "nezdrab"
        files = [it for it in folder.rglob("*.py") if "\n@command(" in it.read_text()]
        with_commands = {f"{it.parent.name}.{it.stem}" for it in files}
        self.assertEqual(with_commands, {*MODULES})
        modules = {name: it.run.__module__ for name, it in COMMANDS.items()}
        named = {it: f"nezdrab.{name}" for it, name in COMMANDS.modules.items()}
        self.assertEqual(modules, named)
        for it in COMMANDS.values():
            parts = it.parts_of("address", "place", "file", "text")
            self.assertEqual(parts - it.pattern.groupindex.keys(), set())

    def test_none_is_read_at_the_start(self) -> None:
        """None but those that the prompt itself needs; and then the one that is typed."""
        code = (
            "import sys\nfrom nezdrab import main\nfrom nezdrab.shell import command_table\n"
            "def show():\n"
            "    read = [it for it in command_table.MODULES if f'nezdrab.{it}' in sys.modules]\n"
            "    print(*read)\n"
            "show()\ncommand_table.COMMANDS['console']\nshow()\n"
        )
        command, path = [sys.executable, "-S", "-B", "-c", code], str(ROOT / "src")
        ran = subprocess.run(command, env={"PYTHONPATH": path}, capture_output=True, text=True)
        first = "shell.display"
        self.assertEqual((ran.stdout, ran.stderr), (f"{first}\nshell.console {first}\n", ""))
