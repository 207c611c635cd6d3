"""The gate's parts by their names and the quick ones, tools/check, and tests in the background of a
script, where a shell has Ctrl-C ignored."""
import os
import re
import signal
import subprocess
import sys
import time
import unittest
from typing import Callable

from tests import processes, stored_sessions as sessions
from tests.checks.by_name import CHECKS
from tests.quick import QUICK

from .tree import ROOT, SECONDS, Tree

# What stands for the commands of the parts: it keeps its words, and counts.
COMMAND = """\
#!/bin/sh
echo "${0##*/} $*" >>words
echo a line of it
echo 3 passed, 0 failed
"""
COMMANDS = ["tools/release", "tools/check", "tools/make"]
COMMANDS += [f"tests/test_{it}.py" for it in ("explore", "package", "web")]
WAITS = "#!/bin/sh\necho $$ >waits\nsleep 1000\n"
# The rows of the table of parts in MAINTAINING.md, and in each the names of parts.
ROWS, NAMES = re.compile(r"\| part \|.*\n\|---.*\n((\|.*\n)+)"), re.compile(r"^\| ([^|]+) \|", re.M)


class Parts(Tree):
    def setUp(self) -> None:
        super().setUp()
        for name in COMMANDS:
            self.write(name, COMMAND, 0o755)

    def words(self) -> list[str]:
        """What was run, with its words."""
        return (self.tree / "words").read_text().splitlines()

    def test_the_names_are_those_of_the_document(self) -> None:
        listed = self.run_in("bash", ".ci/run", "--list").stdout.splitlines()
        table = ROWS.search((ROOT / "docs/MAINTAINING.md").read_text())
        assert table is not None
        told = [name for it in NAMES.findall(table[1]) for name in it.split(", ")]
        self.assertEqual(told, listed)
        self.assertLessEqual(CHECKS.keys(), set(listed))

    def test_parts_by_their_names(self) -> None:
        ended = self.run_in("bash", ".ci/run", "definitions", "web-sessions")
        self.assertEqual(self.words(), ["make definitions --check", "check web-sessions"])
        self.assertEqual(ended.returncode, 1)  # by the least counts, as in the whole
        self.assertRegex(self.said, r"definitions: 3 passed, 0 failed \(at least \d+\), ")
        self.assertTrue(ended.stdout.endswith("\n0 passed, 2 failed\n"), self.said)

    def test_all_but_the_proofs(self) -> None:
        for name in "tests/test_release.py", "tests/test_webassembly.py", "tests/refuse-each":
            self.write(name, COMMAND, 0o755)
        self.write("tools/web", COMMAND, 0o755)
        ended = self.run_in("bash", ".ci/run", "--without-proofs")
        listed = self.run_in("bash", ".ci/run", "--list").stdout.split()
        begun = re.findall("^== ([^: ]+): ", ended.stdout, re.M)
        self.assertEqual(["rt-ci", *begun], listed, self.said)
        self.assertIn("\nNothing was proved: ", ended.stdout)

    def test_what_is_no_part(self) -> None:
        for words in (["portables"], ["names", ""], ["--quick", "names"], ["--lists"]):
            ended = self.run_in("bash", ".ci/run", *words)
            self.assertEqual((ended.returncode, ended.stdout), (2, ""), self.said)

    def test_quick(self) -> None:
        ended = self.run_in("bash", ".ci/run", "--quick")
        self.assertEqual(ended.returncode, 0, self.said)
        self.assertTrue(ended.stdout.endswith("\n14 passed, 0 failed\n"), self.said)
        self.assertNotIn("a line of it", self.said)
        self.assertIn("portable", self.said.partition("left out of the gate")[2])
        wanted = {"test_explore.py --quick", "check sessions --stride 10000", "check help"}
        self.assertLessEqual(wanted, {*self.words()})
        self.assertFalse([it for it in self.words() if "portable" in it])

    def test_the_quick_tests_are_there(self) -> None:
        loader = unittest.TestLoader()
        for folder, names in QUICK.items():
            loader.loadTestsFromNames([f"tests.{folder}.{it}" for it in names])
        self.assertEqual(loader.errors, [])

    def test_what_fails_in_the_quick_ones_is_shown(self) -> None:
        self.write("tests/test_package.py", COMMAND.replace("0 failed", "1 failed"), 0o755)
        ended = self.run_in("bash", ".ci/run", "--quick")
        self.assertEqual(ended.returncode, 1, self.said)
        self.assertEqual(ended.stdout.count("a line of it"), 1)
        self.assertTrue(ended.stdout.endswith("\n13 passed, 1 failed\n"), self.said)

    def test_ctrl_c_ends_all_that_was_begun(self) -> None:
        self.write("tests/test_explore.py", WAITS, 0o755)
        command, path = ["bash", ".ci/run", "--quick"], self.tree / "waits"
        with subprocess.Popen(
            command,
            cwd=self.tree,
            stdout=subprocess.DEVNULL,
            stderr=subprocess.DEVNULL,
            preexec_fn=lambda: signal.signal(signal.SIGINT, signal.SIG_DFL),
        ) as ran:
            self.until(lambda: path.exists() and path.read_text() != "")

            def has_ended() -> bool:
                """Bash loses one that comes while it waits for what a command writes."""
                ran.send_signal(signal.SIGINT)
                return ran.poll() is not None

            self.until(has_ended)
            self.assertEqual(ran.returncode, 130)
        waits = int(path.read_text())
        self.until(lambda: not processes.family(waits))

    def until(self, holds: Callable[[], bool]) -> None:
        limit = time.monotonic() + SECONDS
        while not holds():
            self.assertLess(time.monotonic(), limit)
            time.sleep(0.1)


class Checks(unittest.TestCase):
    """tools/check on this repository."""

    def check(self, *words: str, **tested: str) -> "subprocess.CompletedProcess[str]":
        return subprocess.run(
            [str(ROOT / "tools/check"), *words],
            cwd=ROOT,
            env={**os.environ, **tested},
            capture_output=True,
            text=True,
            timeout=SECONDS,
        )

    def test_each_is_told(self) -> None:
        text = self.check("--help").stdout
        for name in CHECKS:
            with self.subTest(name):
                self.assertRegex(text, f"\n  {name} +[^ ]")
                ended = self.check(name, "--help")
                self.assertEqual((ended.returncode, ended.stderr), (0, ""))
                self.assertTrue(ended.stdout.startswith(f"usage: check {name} "), ended.stdout)

    def test_each_finds_its_programs(self) -> None:
        folders = f"{sessions.RULES}/program", f"{sessions.RULES}/traps"
        words = "help", f"sessions {folders[0]}", f"sessions-by-search {folders[1]}", "searches"
        for it in words:
            with self.subTest(it):
                ended = self.check(*it.split())
                self.assertEqual((ended.returncode, ended.stderr), (0, ""), ended.stdout)
                self.assertRegex(ended.stdout, r"(^|\n)[1-9]\d* passed, 0 failed\n$")

    def test_several(self) -> None:
        ended = self.check("names", "rules")
        self.assertEqual(ended.returncode, 0, ended.stdout)
        lines = ended.stdout.splitlines()
        self.assertEqual([it for it in lines if it.startswith("== ")], ["== names", "== rules"])
        self.assertEqual(lines[-2:], ["0 skipped", "2 passed, 0 failed"])

    def test_one_of_several_fails(self) -> None:
        ended = self.check("help", "names", TESTED_PDP11="/bin/true")
        self.assertEqual((ended.returncode, ended.stderr), (1, ""))
        wanted = ["failed: help", "0 skipped", "1 passed, 1 failed"]
        self.assertEqual(ended.stdout.splitlines()[-3:], wanted)

    def test_words_of_its_own(self) -> None:
        shown = self.check("rules", "4.12").stdout
        self.assertIn("crates/pdp_alu/specs/", shown)
        self.assertEqual(self.check("rules", "4.999").returncode, 2)

    def test_what_is_no_check_and_no_program(self) -> None:
        ended = self.check("names", "nothing")
        self.assertEqual((ended.returncode, ended.stdout), (2, ""))
        ended = self.check("sessions", TESTED_PDP11="/nowhere")
        self.assertEqual((ended.returncode, ended.stdout), (1, ""))
        said = "check: TESTED_PDP11 names /nowhere, which is no program\n"
        self.assertEqual(ended.stderr, said)


class InTheBackground(unittest.TestCase):
    """Tests that send SIGINT where it is ignored."""

    def test_they_pass(self) -> None:
        names = ["package.test_stopping.Stopping.test_ctrl_c"]
        names += ["release.test_programs.ByThisNode.test_signals_end_it_unless_they_are_ignored"]
        names += ["explore.test_bad_input", "explore.test_interrupts.Interrupts.test_at_the_start"]
        command = [sys.executable, "-B", "-m", "unittest", *(f"tests.{it}" for it in names)]
        ignored = ["sh", "-c", 'trap "" INT HUP; exec "$@"', "sh", *command]
        ended = subprocess.run(ignored, cwd=ROOT, capture_output=True, text=True)
        self.assertEqual(ended.returncode, 0, ended.stderr)
