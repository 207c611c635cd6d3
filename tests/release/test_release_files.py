"""The release files that tools/release makes, checks and packs."""
import os
import shutil
import subprocess
import unittest
from pathlib import Path
from typing import Optional
from unittest import mock

from tests.checks import docs

from .tree import BUILT, KIT, PROGRAM, RELEASE, RT, Tree, path_without

BY_GIT = unittest.skipUnless(shutil.which("git"), "git isn't installed")


class Checked(Tree):
    """What tools/release makes, checks and packs."""

    def setUp(self) -> None:
        super().setUp()
        self.make_release()
        for name in "pdp11", "disassemble":
            self.write(f"crates/{name}/out/{name}", PROGRAM, 0o755)

    def counted(self, how: str) -> str:
        ended = self.run_in("tools/release", how, kit=how == "--check")
        line = ended.stdout.splitlines()[-1]
        self.assertEqual(ended.returncode == 0, line.endswith(" 0 failed"), self.said)
        return line

    def test_all_is_right(self) -> None:
        self.assertEqual(self.counted("--verify"), "16 passed, 0 failed")
        self.assertEqual(self.counted("--check"), "18 passed, 0 failed")

    def test_a_changed_byte_is_seen(self) -> None:
        for name, verified, checked in [
            ("crates/low/src/lib.rt", 2, 2),
            ("crates/pdp11/src/main.rt", 1, 1),
            (RELEASE, 1, 2),
            (RELEASE + ".sources", 1, 1),
            ("release/SHA256SUMS", 2, 2),
            ("release/KIT", 0, 0),
            ("release/LIBRARY", 0, 0),
            (BUILT, 0, 1),
        ]:
            with self.subTest(name):
                self.change_a_byte(name)
                for how, facts, wrong in ("--verify", 16, verified), ("--check", 18, checked):
                    said = f"{facts - wrong} passed, {wrong} failed"
                    self.assertEqual(self.counted(how), said)
                self.change_a_byte(name)

    def test_another_kit(self) -> None:
        """The same bytes are right by any kit. Other bytes are neither right nor wrong."""
        self.write("../kit/rt", RT.replace(KIT, "another line"), 0o755)
        self.assertEqual(self.counted("--check"), "18 passed, 0 failed")
        self.change_a_byte(BUILT)
        self.assertEqual(self.counted("--check"), "17 passed, 0 failed")
        said = f"pdp11: the release files are by {KIT}, line of musl; other bytes are made by"
        lines = [f"{said} another line, line of musl", "1 skipped"]
        self.assertEqual(self.said.splitlines()[:-1], lines)
        self.change_a_byte(RELEASE)  # a file that its sum isn't of
        self.assertEqual(self.counted("--check"), "17 passed, 1 failed")
        (self.tree / BUILT).unlink()
        self.assertEqual(self.counted("--check"), "16 passed, 2 failed")

    def test_another_library(self) -> None:
        self.write("../kit/musl", "another musl\n")
        self.assertEqual(self.counted("--check"), "18 passed, 0 failed")
        self.change_a_byte(BUILT)
        self.assertEqual(self.counted("--check"), "17 passed, 0 failed")
        self.assertIn(f"line of musl; other bytes are made by {KIT}, another musl", self.said)
        (self.folder / "kit" / "musl").unlink()
        self.assertEqual(self.counted("--check"), "16 passed, 0 failed")
        said = "disassemble pdp11: not linked anew: musl is lacking"
        self.assertEqual(self.said.splitlines()[:-1], [said, "2 skipped"])
        self.assertEqual(self.counted("--verify"), "16 passed, 0 failed")

    @BY_GIT
    def test_files_by_another_kit(self) -> None:
        self.write("../kit/rt", RT.replace(KIT, "another line"), 0o755)
        self.change_a_byte(BUILT)
        made = self.run_in("tools/release", "--make", kit=True)
        self.assertIn("README.md must name this kit: another line", made.stderr)
        with mock.patch.object(docs, "ROOT", str(self.tree)):
            wrong = docs.failure_of_kit(docs.read_document(docs.README))
            self.assertIn("another line", wrong or "")
            self.write("README.md", "Made with `another line`.\n")
            self.assertIsNone(docs.failure_of_kit(docs.read_document(docs.README)))
        self.assertEqual(self.counted("--check"), "18 passed, 0 failed")
        self.commit()
        self.assertIsNotNone(self.archive("packed"), self.said)
        self.write("../kit/rt", RT, 0o755)
        self.assertEqual(self.counted("--check"), "18 passed, 0 failed")

    def test_a_file_of_no_program(self) -> None:
        self.write("release/more", "")
        self.assertEqual(self.counted("--verify"), "16 passed, 1 failed")

    def test_a_file_that_is_missing(self) -> None:
        (self.tree / RELEASE).unlink()
        self.assertIn(" failed", self.counted("--verify"))
        self.assertFalse(self.counted("--verify").endswith(" 0 failed"))

    def test_an_older_program_is_not_released(self) -> None:
        os.utime(self.tree / BUILT, (0, 0))
        made = self.run_in("tools/release", "--make", kit=True)
        self.assertEqual(made.returncode, 1, self.said)
        self.assertIn("older than a source", made.stderr)
        self.assertEqual(self.counted("--check"), "18 passed, 0 failed")

    def commit(self) -> None:
        self.write(".gitignore", "out/\n")
        name = ["-c", "user.name=a", "-c", "user.email=a@b.c", "-c", "commit.gpgsign=false"]
        for words in ["init", "-q"], ["add", "-A"], [*name, "commit", "-qm", "all"]:
            self.assertEqual(self.run_in("git", *words).returncode, 0, self.said)

    def archive(self, folder: str) -> Optional[Path]:
        (self.folder / folder).mkdir()
        ended = self.run_in("tools/release", "--archive", str(self.folder / folder))
        return Path(ended.stdout.strip()) if ended.returncode == 0 else None

    def unpacked(self, archive: Path) -> Path:
        folder = self.folder / "unpacked"
        folder.mkdir()
        subprocess.run(["tar", "-xzf", archive, "-C", folder], check=True)
        return folder / archive.name[: -len(".tar.gz")]

    @BY_GIT
    def test_an_archive_is_the_same_each_time(self) -> None:
        self.commit()
        first = self.archive("first")
        assert first is not None, self.said
        os.utime(self.tree / RELEASE, (0, 0))
        self.addCleanup(os.umask, os.umask(0o077))
        second = self.archive("second")
        assert second is not None, self.said
        self.assertEqual(first.name, second.name)
        self.assertEqual(first.read_bytes(), second.read_bytes())
        self.tree = self.unpacked(first)
        self.assertRuns()

    @BY_GIT
    def test_an_archive_has_what_is_committed_and_released(self) -> None:
        self.commit()
        self.write("README.md", f"Made with `{KIT}`, and changed.\n")
        self.assertIsNone(self.archive("first"))
        self.assertIn("git status shows what isn't", self.said)
        self.commit()
        self.assertIsNotNone(self.archive("second"))
        self.write("crates/low/src/more.rt", "")
        self.assertIsNone(self.archive("third"))
        self.assertIn("release --make", self.said)

    @BY_GIT
    def test_files_that_git_does_not_track(self) -> None:
        """As README's examples make them, or an archive before."""
        self.commit()
        first = self.archive("first")
        assert first is not None, self.said
        for name in "my.session", "my.disk", "out.txt":
            self.write(name, "mine")
        for _ in range(2):
            ended = self.run_in("tools/release", "--archive")
            self.assertEqual(ended.returncode, 0, self.said)
            made = self.tree / ended.stdout.strip()
            self.assertEqual(made.read_bytes(), first.read_bytes())

    @BY_GIT
    def test_a_clone_of_another_owner(self) -> None:
        self.commit()
        with mock.patch.dict(os.environ, {"GIT_TEST_ASSUME_DIFFERENT_OWNER": "1"}):
            self.assertNotEqual(self.run_in("git", "status").returncode, 0)
            self.assertIsNotNone(self.archive("first"), self.said)
            (self.tree / ".git/HEAD").write_text("nothing")
            self.assertIsNone(self.archive("second"))
        self.assertRegex(self.said, "^release: git can't read this clone: [^\n]*\n$")

    def test_a_folder_that_is_missing_or_cannot_be_made(self) -> None:
        folder = self.folder / "some" / "more"
        ended = self.run_in("tools/release", "--archive", str(folder))
        self.assertEqual(ended.returncode, 0, self.said)
        self.assertTrue(Path(ended.stdout.strip()).is_file())
        self.run_in("sh", "-c", "cd .. && tree/tools/release --archive here")
        self.assertEqual(len(list((self.folder / "here").iterdir())), 1)
        ended = self.run_in("tools/release", "--archive", "/proc/nothing")
        self.assertEqual((ended.returncode, ended.stdout), (1, ""))
        self.assertTrue(self.said.endswith("release: no archive is made in /proc/nothing\n"))

    def test_an_archive_has_no_archive(self) -> None:
        """In a tree without git, where it was made before."""
        made = [self.run_in("tools/release", "--archive", it).stdout for it in (".", ".", "more")]
        held = [(self.tree / it.strip()).read_bytes() for it in made]
        self.assertEqual(held, [held[0]] * 3)

    @BY_GIT
    def test_an_archive_without_git_is_the_same(self) -> None:
        self.commit()
        by_git = self.archive("first")
        assert by_git is not None, self.said
        version = (self.tree / "release/VERSION").read_text().strip()
        self.assertEqual(by_git.name, f"nezdrab-{version}.tar.gz")
        self.path = path_without(self.folder, "rt", "git")
        self.assertIsNone(self.archive("second"))
        said = "release: what is committed in a clone is told by git, which isn't on PATH\n"
        self.assertEqual(self.said, said)
        self.tree = self.unpacked(by_git)
        self.write("tools/__pycache__/python_needed.pyc", "")
        self.write("crates/pdp11/out/pdp11", "")
        without = self.archive("third")
        assert without is not None, self.said
        self.assertIn("this is no clone, so all files that are here are taken", self.said)
        self.assertEqual((without.name, without.read_bytes()), (by_git.name, by_git.read_bytes()))

    def test_a_version_that_is_not_the_newest_release(self) -> None:
        self.write("release/VERSION", "2031-02-03\n")
        self.assertEqual(self.counted("--verify"), "15 passed, 1 failed")
        self.assertIn("VERSION isn't the newest release of CHANGELOG.md", self.said)

    @BY_GIT
    def test_an_archive_has_no_module_that_is_older(self) -> None:
        self.module("a module")
        self.assertEqual(self.counted("--verify"), "18 passed, 0 failed")
        self.commit()
        self.assertIsNotNone(self.archive("first"), self.said)
        for number, name in enumerate(("release/pdp11.wasm", "tools/webassembly/heap.ll")):
            self.change_a_byte(name)
            self.commit()
            self.assertIsNone(self.archive(f"changed {number}"))
            self.assertIn("release/pdp11.wasm", self.said)
            self.assertIn("tools/web --make", self.said)
            self.change_a_byte(name)

    def test_new_release_files_leave_the_modules(self) -> None:
        self.module("a module")
        made = self.run_in("tools/release", "--make", kit=True)
        self.assertEqual(made.returncode, 0, self.said)
        self.assertEqual((self.tree / "release/pdp11.wasm").read_text(), "a module")
