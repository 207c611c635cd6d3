"""The option --version of what has one."""
import subprocess
import unittest

from ..under_test import program
from .tree import ROOT, Tree


class Programs(unittest.TestCase):
    """What is told by the programs themselves, which name the release in their sources."""

    def output_of(self, name: str, option: str) -> str:
        command = [program(name), option]
        ran = subprocess.run(command, stdout=subprocess.PIPE, stdin=subprocess.DEVNULL, check=True)
        return ran.stdout.decode()

    def test_each_names_the_release_of_the_file_version(self) -> None:
        release = (ROOT / "release/VERSION").read_text(encoding="ascii").strip()
        self.assertEqual(self.output_of("search", "--version"), f"search {release}\n")
        self.assertEqual(self.output_of("disassemble", "--version"), f"disassemble {release}\n")
        self.assertIn(f"\nNezdrab {release}; ", self.output_of("pdp11", "--help")[:200])


class Version(Tree):
    def test_explore_and_the_debug_adapter(self) -> None:
        self.write("release/VERSION", "2031-02-03\n")
        for command in "./explore", "./explore dap":
            ended = self.run_in(*command.split(), "--version")
            wanted = f"{command[2:]} of Nezdrab, release 2031-02-03 or later\n"
            self.assertEqual((self.said, ended.returncode), (wanted, 0))

    def test_the_release_of_the_file_version(self) -> None:
        self.write("release/VERSION", "2031-02-03\n")
        ended = self.run_in("./explore", "--version")
        wanted = "explore of Nezdrab, release 2031-02-03 or later\n"
        self.assertEqual((ended.stdout, ended.stderr, ended.returncode), (wanted, "", 0))

    def test_no_release_that_is_named(self) -> None:
        (self.tree / "release/VERSION").unlink()
        for text in None, "\n", b"\xff":
            if text is not None:
                self.write("release/VERSION", text)
            ended = self.run_in("./explore", "--version")
            self.assertEqual((ended.returncode, ended.stdout), (1, ""))
            self.assertRegex(ended.stderr, "^explore: [^\n]*VERSION [^\n]*\n$")

    def test_an_output_that_takes_nothing(self) -> None:
        ended = self.run_in("sh", "-c", "./explore --version >/dev/full")
        self.assertEqual(ended.returncode, 1)
        self.assertRegex(ended.stderr, "^explore: the output can't be written: [^\n]*\n$")
