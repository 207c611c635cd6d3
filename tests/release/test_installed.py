"""What tools/release --install puts where, and --uninstall takes away."""
import os
import shutil
from pathlib import Path

from .tree import ROOT, Tree, path_without

COMMANDS = [
    *("nezdrab", "nezdrab-dap", "nezdrab-disassemble", "nezdrab-explore", "nezdrab-search")
]
MOST_BYTES = 12_000_000


class Installed(Tree):
    def setUp(self) -> None:
        super().setUp()
        bash = shutil.which("bash")
        assert bash is not None
        self.make_release(Path(bash).read_bytes())
        for page in [*ROOT.glob("docs/manual/*.1"), *ROOT.glob("docs/completion/*")]:
            self.copy(str(page.relative_to(ROOT)))
        self.prefix = self.folder / "some prefix"
        self.bin = self.prefix / "bin"

    def uninstall(self) -> None:
        ended = self.run_in("tools/release", "--uninstall", str(self.prefix))
        self.assertEqual((self.said, ended.returncode), ("", 0))

    def held(self) -> "dict[str, str]":
        """Each path below the folder beside the tree, with what a link links to."""
        there = [it for it in self.folder.rglob("*") if self.tree not in it.parents]
        return {str(it): os.readlink(it) if it.is_symlink() else "" for it in there}

    def install(self) -> None:
        ended = self.run_in("tools/release", "--install", str(self.prefix))
        self.assertEqual((ended.stdout, ended.returncode), (f"{self.bin}/nezdrab\n", 0), self.said)
        said = "release: this is no clone, so all files that are here are taken\n"
        self.assertEqual(ended.stderr, said)

    def test_commands_under_names_of_their_own(self) -> None:
        self.install()
        self.assertEqual(sorted(os.listdir(self.bin)), COMMANDS)
        shutil.rmtree(self.tree)
        self.tree.mkdir()
        for name in "nezdrab", "nezdrab-disassemble":
            ended = self.run_in(str(self.bin / name), "-c", "echo $0")
            self.assertEqual((ended.stdout, ended.stderr), (f"{name}\n", ""))
        ended = self.run_in(str(self.bin / "nezdrab-explore"), "--version")
        self.assertIn("explore of Nezdrab, release ", ended.stdout, self.said)
        ended = self.run_in(str(self.bin / "nezdrab-dap"), "--help")
        self.assertIn("usage: explore dap ", ended.stdout, self.said)

    def test_it_has_no_sources(self) -> None:
        self.install()
        lib = self.prefix / "lib" / "nezdrab"
        self.assertEqual(list(lib.rglob("*.rt")), [])
        release = lib / "release" / "pdp11-linux-x86_64"
        release.write_bytes(release.read_bytes() + b"more")
        self.tree = lib
        self.assertRefuses("isn't the file that was made")
        ended = self.run_in("tools/release", "--install", str(self.prefix))
        self.assertEqual((ended.returncode, ended.stdout), (1, ""))
        self.assertIn("without the sources", self.said)

    def test_it_is_undone(self) -> None:
        for beside in "", "bin/another", "share/man/man1/another.1":
            path = self.prefix / beside
            path.parent.mkdir(parents=True, exist_ok=True)
            if beside:
                path.touch()
            before = self.held()
            self.install()
            self.install()
            self.uninstall()
            self.assertEqual(self.held(), before)
        ended = self.run_in("tools/release", "--uninstall", str(self.prefix))
        self.assertEqual(ended.returncode, 1)
        self.assertIn("lib/nezdrab/INSTALLED isn't there: nothing was installed", self.said)
        self.install()
        self.run_in(str(self.prefix / "lib/nezdrab/tools/release"), "--uninstall")
        self.assertEqual((self.said, self.held()), ("", before))

    def test_a_file_of_another(self) -> None:
        self.bin.mkdir(parents=True)
        (self.bin / "nezdrab").write_text("another's")
        before = self.held()
        ended = self.run_in("tools/release", "--install", str(self.prefix))
        self.assertEqual(ended.returncode, 1)
        self.assertIn(f"{self.bin}/nezdrab is there already", self.said)
        self.assertEqual(self.held(), before)

    def test_what_an_older_release_installed(self) -> None:
        self.bin.mkdir(parents=True)
        (self.bin / "nezdrab").symlink_to("../lib/nezdrab/pdp11")
        older = self.prefix / "lib" / "nezdrab" / "crates.txt"
        older.parent.mkdir(parents=True)
        older.touch()
        self.install()
        self.assertFalse(older.exists())
        self.uninstall()
        self.assertEqual(sorted(os.listdir(self.prefix)), ["bin", "lib"])
        self.assertEqual(os.listdir(self.bin), [])

    def test_a_prefix_where_it_was_called(self) -> None:
        (self.folder / "away").mkdir()
        self.run_in("sh", "-c", "cd ../away && DESTDIR= ../tree/tools/release --install here")
        self.assertTrue((self.folder / "away/here/bin/nezdrab").exists(), self.said)
        self.run_in("sh", "-c", f"DESTDIR='{self.prefix}' tools/release --install /usr")
        self.assertTrue((self.prefix / "usr/bin/nezdrab").exists(), self.said)
        listed = (self.prefix / "usr/lib/nezdrab/INSTALLED").read_text().splitlines()
        self.assertLessEqual({"/usr/", "/usr/bin/", "/usr/bin/nezdrab"}, set(listed))

    def test_without_python(self) -> None:
        self.path = path_without(self.folder, "rt", "python3")
        for how in "--install", "--archive":
            ended = self.run_in("tools/release", how, str(self.prefix))
            said = "release: needs python3, 3.9 or later, which isn't on PATH\n"
            self.assertEqual((self.said, ended.returncode), (said, 1))

    def test_names_in_the_repository(self) -> None:
        for name in "pdp11", "disassemble":
            self.assertEqual(self.run_in(f"./{name}", "-c", "echo $0").stdout, f"{name}\n")

    def test_pages_and_completions(self) -> None:
        self.install()
        share = self.prefix / "share"
        for name in COMMANDS:
            for path in (
                f"man/man1/{name}.1",
                f"bash-completion/completions/{name}",
                f"zsh/site-functions/_{name}",
                f"fish/vendor_completions.d/{name}.fish",
            ):
                self.assertTrue((share / path).is_file(), path)

    def test_how_much_it_is(self) -> None:
        """Of this repository's own files."""
        shutil.rmtree(self.tree)
        dropped = shutil.ignore_patterns(".git", "out", "__pycache__")
        shutil.copytree(ROOT, self.tree, symlinks=True, ignore=dropped)
        self.install()
        files = [it for it in self.prefix.rglob("*") if it.is_file() and not it.is_symlink()]
        self.assertLess(sum(it.stat().st_size for it in files), MOST_BYTES)
        for name in "README.md", "docs/LANGUAGE.md", "release/nezdrab.html", "release/NOTICES":
            self.assertIn(self.prefix / "lib" / "nezdrab" / name, files)

    def test_what_was_installed_before(self) -> None:
        self.install()
        older = self.prefix / "lib" / "nezdrab" / "older"
        older.touch()
        self.change_a_byte("release/pdp11-linux-x86_64")
        self.assertEqual(self.run_in("tools/release", "--install", str(self.prefix)).returncode, 1)
        self.assertTrue(older.exists())
        self.change_a_byte("release/pdp11-linux-x86_64")
        self.install()
        self.assertFalse(older.exists())
