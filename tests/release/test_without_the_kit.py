"""A copy of this repository, whose release files are needed, without rt."""
import shutil
import subprocess
import tempfile
import unittest
from pathlib import Path

from .tree import RELEASE, ROOT, SECONDS, Tree

# Runs a command as root of a namespace of its own, in a folder that is all it sees.
IN_FOLDER = ["unshare", "--user", "--map-root-user", "chroot"]


def can_be_root() -> bool:
    """Whether this user can be root of a namespace."""
    if not shutil.which("unshare"):
        return False
    return subprocess.run([*IN_FOLDER, "/", "true"], capture_output=True).returncode == 0


class WithoutTheKit(Tree):
    """This repository's own files, without rt."""

    def setUp(self) -> None:
        super().setUp()
        shutil.rmtree(self.tree)
        dropped = shutil.ignore_patterns(".git", "out", "__pycache__")
        shutil.copytree(ROOT, self.tree, symlinks=True, ignore=dropped)

    def test_the_first_command(self) -> None:
        given = (ROOT / "examples/first-run.session").read_text()
        ended = self.run_in("./pdp11", given=given)
        wanted = (ROOT / "examples/first-run.expected").read_text()
        self.assertEqual((ended.stdout, ended.stderr, ended.returncode), (wanted, "", 0))

    def test_help_shows_the_name_of_the_program(self) -> None:
        for name, folder in ("pdp11", "program"), ("search", "searches"):
            wanted = (ROOT / "tests/sessions/rules" / folder / "help.expected").read_text()
            self.assertEqual(self.run_in(f"./{name}", "--help").stdout, wanted)

    def test_the_first_prompt(self) -> None:
        ended = self.run_in("./explore", given="core 1000 5201\nlist 1000 1 at 0\n")
        self.assertEqual((ended.stderr, ended.returncode), ("", 0))
        self.assertIn("INC R1", ended.stdout)

    def test_the_gate_says_what_it_needs(self) -> None:
        ended = self.run_in("bash", ".ci/run")
        self.assertEqual(ended.returncode, 2, self.said)
        self.assertNotIn("== ", ended.stdout)
        self.assertIn("--without-proofs", ended.stderr)
        self.assertEqual(self.run_in("bash", ".ci/run", "--anew").returncode, 2)


@unittest.skipUnless(can_be_root(), "unshare isn't installed, or a user namespace isn't allowed")
class InAnEmptyFolder(unittest.TestCase):
    """The release file where there is nothing else: no library, no /dev and no /proc."""

    def test_the_first_session(self) -> None:
        with tempfile.TemporaryDirectory() as folder:
            shutil.copy(ROOT / RELEASE, Path(folder) / "pdp11")
            with open(ROOT / "examples/first-run.session", encoding="ascii") as given:
                ended = subprocess.run(
                    [*IN_FOLDER, folder, "/pdp11"],
                    stdin=given,
                    capture_output=True,
                    text=True,
                    timeout=SECONDS,
                )
        wanted = (ROOT / "examples/first-run.expected").read_text()
        self.assertEqual((ended.stdout, ended.stderr, ended.returncode), (wanted, "", 0))
