"""What the scripts and the tools say on a computer that lacks something."""
import os
import shutil
import unittest
from unittest import mock

from .tree import RELEASE, ROOT, Tree, path_without

SHELLS = [it.split() for it in ("dash", "busybox sh") if shutil.which(it.split()[0])]
# Older commands: without the options of GNU, as busybox's.
OLDER_ENV = """\
#!/bin/sh
case $1 in --*) echo "env: unrecognized option" >&2; exit 1 ;; esac
exec {env} "$@"
"""
OLDER_SHA256SUM = """\
#!/bin/sh
case $1 in --?*) echo "sha256sum: unrecognized option" >&2; exit 1 ;; esac
exec {sha256sum} "$@"
"""
# A part of the gate that writes what it has of the environment, and counts what it skips.
PART = "#!/bin/sh\nenv >environment\necho 2 skipped\necho 99 passed, 0 failed\n"
# Starts a script of Python as an older version does.
OLDER_PYTHON = """\
#!/bin/sh
[ "$1" != -S ] || shift
exec {python3} -c 'import os, runpy, sys
sys.version_info = (3, 8, 20)
sys.argv = sys.argv[1:]
sys.path[0] = os.path.dirname(sys.argv[0])
runpy.run_path(sys.argv[0], run_name="__main__")' "$@"
"""


def tools_in_python() -> list[str]:
    folders = [ROOT / "tests", ROOT / "tools"]
    files = [it for folder in folders for it in folder.iterdir() if it.is_file()]
    found = [it for it in files if it.read_bytes().split(b"\n")[0].endswith(b"python3")]
    return [str(it) for it in [ROOT / "explore", *sorted(found)]]


class Lacking(Tree):
    """A tree on a computer that lacks something."""

    def replace(self, name: str, text: str) -> None:
        """Puts a script before a command on PATH. It names the command in braces."""
        found = shutil.which(name)
        self.write(f"../bin/{name}", text.format(**{name: found}), 0o755)

    @unittest.skipUnless(SHELLS, "neither dash nor busybox is installed")
    def test_another_shell(self) -> None:
        for shell in SHELLS:
            for script in "pdp11", "search", "disassemble", ".ci/run":
                ended = self.run_in(*shell, script)
                self.assertEqual((ended.returncode, ended.stdout), (6, ""), self.said)
                self.assertRegex(ended.stderr, "^[^\n]*run it with bash[^\n]*\n$")

    def test_the_gate_names_what_it_lacks(self) -> None:
        self.path = path_without(self.folder, "rt", "git", "ps", "cc")
        lacks = "git, ps (procps), cc (gcc)\n"
        self.run_in("bash", ".ci/run", "--without-proofs")
        self.assertTrue(self.said.startswith(f"The gate lacks {lacks}== "), self.said)
        self.path = path_without(self.folder, "rt", "git", "ps", "cc", "python3")
        ended = self.run_in("bash", ".ci/run", "--without-proofs")
        self.assertEqual(ended.returncode, 3)
        self.assertEqual(self.said, f"The gate lacks python3 (3.9 or later, whole), {lacks}")
        self.run_in("./explore")
        self.assertIn("needs Debian's python3, 3.9 or later", self.said)

    def test_a_part_has_no_variables_of_the_caller(self) -> None:
        self.write("tools/release", PART, 0o755)
        mine = {"PYTHONUNBUFFERED": "1", "TESTED_SEARCH": "mine", "TMPDIR": str(self.folder)}
        with mock.patch.dict(os.environ, mine):
            self.run_in("bash", ".ci/run", "--without-proofs")
        lines = (self.tree / "environment").read_text().splitlines()
        names = {it.partition("=")[0] for it in lines} - {"PWD", "SHLVL", "_", "OLDPWD"}
        programs = {f"TESTED_{it}" for it in ("PDP11", "SEARCH", "DISASSEMBLE")}
        self.assertLessEqual(programs, names)
        self.assertNotIn("TESTED_SEARCH=mine", lines)
        names -= programs
        self.assertLessEqual({"HOME", "PATH", "TMPDIR"}, names)
        self.assertLessEqual(names, {"HOME", "PATH", "TERM", "LANG", "TMPDIR"})
        self.assertIn("release: 99 passed, 0 failed, 2 skipped", self.said)

    def test_without_a_compiler(self) -> None:
        for name in "refusals.py", "__init__.py":
            self.copy(f"tests/checks/{name}")
        self.path = path_without(self.folder, "rt", "cc")
        ended = self.run_in("tests/refuse-each", "/bin/true", "crates")
        self.assertEqual((ended.returncode, self.said), (77, "cc isn't installed\n"))

    def test_an_older_sha256sum(self) -> None:
        self.make_release()
        self.replace("sha256sum", OLDER_SHA256SUM)
        self.assertRuns()
        self.assertTrue(self.run_in("tools/release", "--verify").returncode == 0, self.said)

    def test_no_sum_of_the_sources(self) -> None:
        self.make_release()
        self.path = path_without(self.folder, "rt", "find")
        self.assertRefuses("find: ", "the sum of the sources can't be told")

    def test_an_older_env(self) -> None:
        """explore is started without GNU's env."""
        self.replace("env", OLDER_ENV)
        text = (self.tree / "explore").read_text()
        self.assertNotIn(" -S", text.split("\n")[0])
        self.write("explore", text.replace("/usr/bin/env", str(self.folder / "bin/env")), 0o755)
        ended = self.run_in("./explore", "--help")
        self.assertEqual((ended.returncode, ended.stderr), (0, ""))

    def test_python_is_older_or_not_whole(self) -> None:
        needs = "This needs Debian's python3, 3.9 or later: this one "
        self.write("../modules/shutil.py", 'raise ImportError(name="shutil")\n')
        for tool in tools_in_python():
            with mock.patch.dict(os.environ, {"PYTHONPATH": str(self.folder / "modules")}):
                self.assertEqual(self.run_in(tool, "--help").returncode, 1)
            wanted = f"{needs}has no module shutil, as python3-minimal.\n"
            self.assertEqual(self.said, wanted, tool)
        self.replace("python3", OLDER_PYTHON)
        for tool in tools_in_python():
            self.assertEqual(self.run_in(tool, "--help").returncode, 1)
            self.assertEqual(self.said, f"{needs}is 3.8.\n", tool)

    def test_help_without_a_program_that_runs(self) -> None:
        self.run_in("./pdp11", "--help")
        self.assertNotIn("proves and builds", self.said)
        self.run_in("./pdp11", "--help", kit=True)
        self.assertIn("the first run proves and builds it", self.said)

    def test_a_program_that_takes_no_library(self) -> None:
        for name in "refusals.py", "__init__.py":
            self.copy(f"tests/checks/{name}")
        self.write("pdp11-static", b"\x7fELF".ljust(64, b"\0"), 0o755)
        self.write("../bin/cc", "#!/bin/sh\n", 0o755)
        ended = self.run_in("tests/refuse-each", "./pdp11-static", "crates")
        self.assertEqual(ended.returncode, 77, self.said)
        self.assertRegex(self.said, "^[^\n]*pdp11-static takes no library, [^\n]*\n$")
