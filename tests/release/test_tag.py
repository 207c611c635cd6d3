"""What tools/release --tag makes, and when it makes nothing."""
import hashlib
import shutil
import unittest

from tests.package.test_wheel import lacks

from .tree import ROOT, Tree

IDENTITY = ["-c", "user.name=a", "-c", "user.email=a@b.c", "-c", "commit.gpgsign=false"]
VERSION = (ROOT / "release/VERSION").read_text().strip()


@unittest.skipUnless(shutil.which("git"), "git isn't installed")
class Tagged(Tree):
    """A clone of this repository."""

    def setUp(self) -> None:
        super().setUp()
        shutil.rmtree(self.tree)
        dropped = shutil.ignore_patterns(".git", "out", "__pycache__", "nezdrab-20*")
        shutil.copytree(ROOT, self.tree, symlinks=True, ignore=dropped)
        self.git("init", "-q")
        self.commit()
        for name in "user.name", "user.email":
            self.git("config", name, "a@b.c")
        self.made = self.tree / f"nezdrab-{VERSION}"

    def git(self, *words: str) -> str:
        ended = self.run_in("git", *IDENTITY, *words)
        self.assertEqual(ended.returncode, 0, self.said)
        return ended.stdout

    def commit(self) -> None:
        self.git("add", "-A")
        self.git("commit", "-qm", "all")

    def refused(self, said: str, *words: str) -> None:
        ended = self.run_in("tools/release", "--tag", *words)
        self.assertEqual((ended.returncode, ended.stdout), (1, ""))
        self.assertIn(said, self.said)
        self.assertEqual((self.git("tag"), self.made.exists()), ("", False))

    def test_a_release(self) -> None:
        if lacks():
            self.skipTest(lacks())
        self.write("my.session", "regs 0\n")  # git doesn't track it
        ended = self.run_in("tools/release", "--tag", VERSION)
        self.assertEqual((ended.stdout, ended.returncode), (f"{self.made.name}\n", 0), self.said)
        self.assertEqual(self.git("tag", "--points-at", "HEAD"), f"{VERSION}\n")
        files = {it.name: it for it in self.made.iterdir()}
        sums = (it.split("  ") for it in files.pop("SHA256SUMS").read_text().splitlines())
        self.assertEqual(
            {name: hashlib.sha256(it.read_bytes()).hexdigest() for name, it in files.items()},
            {name: total for total, name in sums},
        )
        self.assertEqual(len([it for it in files if it.endswith(".whl")]), 2)
        wanted = {f"nezdrab-{VERSION}.tar.gz", "pdp11-linux-x86_64", "nezdrab.html", "NOTICES"}
        self.assertLessEqual(wanted, set(files))
        self.run_in("tools/release", "--tag", VERSION)
        self.assertIn(f"{self.made.name} is there already", self.said)
        shutil.rmtree(self.made)
        self.run_in("tools/release", "--tag", VERSION)
        self.assertIn(f"the tag {VERSION} is there", self.said)

    def test_what_is_wrong(self) -> None:
        self.refused("a version is a day")
        self.refused("VERSION has", "2031-02-03")
        for name in "pyproject.toml", "CITATION.cff":
            text = (self.tree / name).read_text()
            for sought in VERSION, ".".join(str(int(it)) for it in VERSION.split("-")):
                text = text.replace(sought, "2031-02-03")
            self.write(name, text)
            self.refused("git status shows what isn't", VERSION)
            self.commit()
            self.refused(f"in {name} isn't", VERSION)
            self.git("reset", "-q", "--hard", "HEAD~1")
