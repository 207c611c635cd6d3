"""The manual pages, and what completes options and sessions in a shell."""
import contextlib
import io
import os
import re
import shutil
import subprocess
import tempfile
import unittest
from pathlib import Path
from typing import Callable
from unittest import mock

from documents.manual import manual_files
from documents.manual.tables import programs
from nezdrab.shell.command_table import COMMANDS
from tests import stored_sessions as sessions, under_test

from .tree import ROOT, SECONDS

MAN = shutil.which("man")
# Completes the last of these words in bash, and writes a line for each reply.
COMPLETES = """\
source "$0"
COMP_WORDS=("$@") COMP_CWORD=$(($# - 1))
_${COMP_WORDS[0]//-/_}
printf '%s\\n' "${COMPREPLY[@]}"
"""


class InAFolder(unittest.TestCase):
    def setUp(self) -> None:
        folder = tempfile.TemporaryDirectory()
        self.addCleanup(folder.cleanup)
        self.folder = Path(folder.name).resolve()


class Completed(InAFolder):
    """What bash completes, in a folder with some files."""

    def setUp(self) -> None:
        super().setUp()
        for name in "one.session", "two words.session", "image.disk", "notes":
            (self.folder / name).touch()
        (self.folder / "more").mkdir()

    def replies(self, *words: str) -> list[str]:
        script = ROOT / "docs" / "completion" / f"{words[0]}.bash"
        command = ["bash", "-c", COMPLETES, str(script), *words]
        ran = subprocess.run(
            command, cwd=self.folder, capture_output=True, text=True, timeout=SECONDS
        )
        self.assertEqual(ran.stderr, "")
        return sorted(it for it in ran.stdout.splitlines() if it)

    def test_options(self) -> None:
        self.assertEqual(self.replies("nezdrab", "--st"), ["--start", "--stride"])
        self.assertEqual(self.replies("nezdrab-search", "--t"), ["--tape"])
        self.assertEqual(self.replies("nezdrab-explore", "--ver"), ["--version"])
        self.assertEqual(self.replies("nezdrab", "--ver"), [])
        for name in "nezdrab-search", "nezdrab-disassemble", "nezdrab-dap":
            self.assertEqual(self.replies(name, "--ver"), ["--version"])
        self.assertEqual(self.replies("nezdrab-dap", "--program", "im"), ["image.disk"])

    def test_each_option(self) -> None:
        for program in programs():
            names = [name for it in program.options for name in (it.short, it.name) if name]
            self.assertEqual(self.replies(program.name, "-"), sorted(names))

    def test_files_of_options(self) -> None:
        all_files = ["image.disk", "more", "notes", "one.session", "two words.session"]
        self.assertEqual(self.replies("nezdrab", "--disk", ""), all_files)
        self.assertEqual(self.replies("nezdrab", "--disk", "="), all_files)
        self.assertEqual(self.replies("nezdrab", "--disk", "=", "im"), ["image.disk"])
        self.assertEqual(self.replies("nezdrab-explore", "--units", "im"), [])

    def test_sessions(self) -> None:
        found = ["more", "one.session", "two words.session"]
        self.assertEqual(self.replies("nezdrab-explore", ""), found)
        self.assertEqual(self.replies("nezdrab-explore", "--echo", "two"), [found[2]])
        self.assertEqual(self.replies("nezdrab-search", ""), [])


class Pages(unittest.TestCase):
    @unittest.skipUnless(MAN, "man isn't installed")
    def test_each_option_line_and_command_is_shown(self) -> None:
        """As a reader sees it: no line is lost as a macro, and no hyphen is another character."""
        shown = {}
        for it in programs():
            page = ROOT / "docs" / "manual" / f"{it.name}.1"
            environment = {**os.environ, "MANWIDTH": "2000", "LC_ALL": "C", "MANPAGER": "cat"}
            command = [MAN or "", "--local-file", str(page)]
            ran = subprocess.run(command, env=environment, capture_output=True, text=True)
            text = "\n".join(" ".join(line.split()) for line in ran.stdout.splitlines())
            shown[it.name] = f"{text}\n"
            for option in it.options:
                self.assertIn(option.name, text)
                self.assertIn(f"{' '.join(option.summary.split()).replace('`', '')}\n", text)
        for line in [*sessions.LANGUAGE, *sessions.SEARCHES]:
            self.assertIn(f"\n{line.form}", shown["nezdrab-search"])
            self.assertIn(line.summary, shown["nezdrab-explore"])
        for own in COMMANDS.values():
            self.assertIn(own.summary.replace("`", ""), shown["nezdrab-explore"])


    def test_each_command_has_one(self) -> None:
        scripts = re.findall(r"^(nezdrab[\w-]*) = ", (ROOT / "pyproject.toml").read_text(), re.M)
        self.assertEqual({it.name for it in programs()}, set(scripts))

    def test_help_of_disassemble(self) -> None:
        """The page shows what is stored, and that is what the program shows."""
        program, command = under_test.program("disassemble"), ["disassemble", "--help"]
        ran = subprocess.run(command, executable=program, stdout=subprocess.PIPE, text=True)
        stored = ROOT / sessions.RULES / "program" / "disassemble.help"
        self.assertEqual(ran.stdout, stored.read_text())


class Made(InAFolder):
    """The files that are made in a folder of their own, and what a check finds of them."""

    def setUp(self) -> None:
        super().setUp()
        names = {"PAGES": self.folder / "manual", "COMPLETIONS": self.folder / "completion"}
        for name, value in {"ROOT": self.folder, **names, "MAN": ["true"]}.items():
            patched = mock.patch.object(manual_files, name, value)
            patched.start()
            self.addCleanup(patched.stop)
        self.said(manual_files.make)

    def said(self, what: Callable[[], int]) -> str:
        with contextlib.redirect_stdout(io.StringIO()) as output:
            status = what()
        text = output.getvalue()
        self.assertEqual(status, int("failed" in text and " 0 failed" not in text))
        return text

    def test_files_that_are_as_made(self) -> None:
        self.assertIn(" passed, 0 failed\n", self.said(manual_files.check))

    def test_a_file_that_is_older_or_missing_or_strange(self) -> None:
        page = self.folder / "manual" / "nezdrab.1"
        page.write_text(page.read_text().replace("whose past", "whose future"))
        said = self.said(manual_files.check)
        self.assertIn("manual/nezdrab.1 isn't what tools/make manual makes", said)
        page.unlink()
        (self.folder / "completion" / "pdp11.bash").touch()
        said = self.said(manual_files.check)
        self.assertIn("manual/nezdrab.1 isn't what tools/make manual makes", said)
        self.assertIn("no file of a program: completion/pdp11.bash", said)

    def test_a_completion_that_bash_cannot_read(self) -> None:
        file = self.folder / "completion" / "nezdrab.bash"
        file.write_text(f"{file.read_text()}fi\n")
        self.assertIn("nezdrab.bash: bash: ", self.said(manual_files.check))
