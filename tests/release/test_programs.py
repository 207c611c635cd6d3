"""Which program ./pdp11 and tools/program find, and what they say if there is none."""
import os
import re
import shutil
import signal
import subprocess
import unittest
from unittest import mock

from tests.checks import by_node
from tests.pseudo_terminal import PseudoTerminal

from .tree import BUILT, CANNOT_RUN, CRATES, PROGRAM, RELEASE, ROOT, SECONDS
from .tree import STORED_HELP, Tree, path_without

# Node of a version, which takes an option of its machine if this begins as one of these.
NODE = """\
#!/bin/sh
case $1 in
--version) echo v{version} ;;
--wasm*) [ {takes} ] || exit 9; [ "$2" = --version ] || echo by node: "$@" ;;
*) echo by node: "$@" ;;
esac
"""
OTHER_SYSTEM = "#!/bin/sh\n[ $1 = -s ] && echo Darwin || echo arm64\n"


class Found(Tree):
    """Which program is found."""

    def test_a_release_file_of_these_sources(self) -> None:
        self.make_release()
        self.assertRuns()
        self.assertEqual(self.said, "a program: a b\n")
        elsewhere = self.folder / "link"
        elsewhere.symlink_to(self.tree / "pdp11")
        self.assertEqual(self.run_in(str(elsewhere)).stdout, "a program:\n")

    def test_a_byte_of_what_the_program_is_made_of(self) -> None:
        self.make_release()
        sources = ["crates/low/src/lib.rt", "crates/low/specs/Low.antt", "crates/pdp11/src/main.rt"]
        for name in [*sources, "HANDLES", RELEASE + ".sources"]:
            with self.subTest(name):
                self.change_a_byte(name)
                self.assertRefuses("other sources", "rt, which proves it, isn't on PATH")
                self.change_a_byte(name)
                self.assertRuns()

    def test_files_that_come_and_go(self) -> None:
        self.make_release()
        self.write("crates/low/src/more.rt", "")
        self.assertRefuses("other sources")
        (self.tree / "crates/low/src/more.rt").rename(self.tree / "crates/low/src/moved.rt")
        self.assertRefuses("other sources")
        (self.tree / "crates/low/src/moved.rt").unlink()
        self.write("crates.txt", CRATES.replace("pdp11: low", "pdp11: low other"))
        self.assertRefuses("other sources")

    def test_what_the_program_is_not_made_of(self) -> None:
        self.make_release()
        self.change_a_byte("crates/other/src/lib.rt")
        self.change_a_byte("release/KIT")
        self.write("crates/low/src/lib.rt~", "an editor's copy\n")
        self.write("crates.txt", f"# a comment\n{CRATES}more: other\n")
        os.utime(self.tree / "crates/low/src/lib.rt")
        self.assertRuns()

    def test_a_byte_of_the_release_file(self) -> None:
        self.make_release()
        self.change_a_byte(RELEASE)
        self.assertRefuses("isn't the file that was made")

    def test_a_release_file_that_is_not_executable(self) -> None:
        self.make_release()
        (self.tree / RELEASE).chmod(0o644)
        self.assertRuns()

    def test_a_release_file_that_cannot_run(self) -> None:
        self.make_release(CANNOT_RUN)
        self.assertRefuses("CPU lacks POPCNT", "a 64-bit Linux", "x86-64-v2")

    def test_a_32_bit_system_on_a_64_bit_kernel(self) -> None:
        self.make_release()
        text = OTHER_SYSTEM.replace("Darwin", "Linux").replace("arm64", "i686")
        self.write("../bin/uname", text, 0o755)
        self.assertRuns()

    def test_another_system(self) -> None:
        self.make_release()
        self.path = path_without(self.folder, "rt", "node")
        for system, machine in ("Darwin", "arm64"), ("Linux", "riscv64"):
            text = OTHER_SYSTEM.replace("Darwin", system).replace("arm64", machine)
            self.write("../bin/uname", text, 0o755)
            words = ("Linux on x86-64 and ARM64", "tools/portable --c pdp11", "or install node, 16")
            self.assertRefuses(f"this system is {system.lower()}-{machine}", *words)

    def test_an_older_release_file_that_is_asked_for(self) -> None:
        self.make_release()
        self.change_a_byte("crates/low/src/lib.rt")
        refusal = f"pdp11: {RELEASE} was made of other sources than these, so it isn't used; "
        self.assertRefuses(f"{refusal}PDP11_RELEASE=1 in the environment has it run\n")
        told = f"{RELEASE} run, which was made of other sources than these\n"
        with mock.patch.dict(os.environ, {"PDP11_RELEASE": "1"}):
            self.assertRuns()
            self.assertEqual(self.said, f"a program: a b\npdp11: PDP11_RELEASE has {told}")
            ended = self.run_in("tools/program", "--quiet", "pdp11")
            self.assertEqual((ended.stdout, ended.stderr), (f"{self.tree}/{RELEASE}\n", ""))
            self.change_a_byte(RELEASE)
            self.assertRefuses("isn't the file that was made")
            self.change_a_byte(RELEASE)
            self.change_a_byte("crates/low/src/lib.rt")
            self.assertRuns()
            self.assertEqual(self.said, "a program: a b\n")

    def test_a_release_file_in_place_of_what_was_built(self) -> None:
        self.make_release()
        self.change_a_byte("crates/low/src/lib.rt")
        built = PROGRAM.replace("a program", "built")
        self.assertEqual(self.run_in("./pdp11", kit=True, program=built).stdout, "built:\n")
        with mock.patch.dict(os.environ, {"PDP11_RELEASE": "1"}):
            self.assertRuns()

    def test_from_source(self) -> None:
        self.make_release()
        changed = PROGRAM.replace("program", "built program")
        os.environ["PDP11_FROM_SOURCE"] = "1"
        self.addCleanup(os.environ.pop, "PDP11_FROM_SOURCE")
        ended = self.run_in("./pdp11", kit=True, program=changed)
        self.assertEqual(ended.stdout, "a built program:\n", self.said)
        self.assertRefusesToBuildAgain()
        self.change_a_byte("crates/low/src/lib.rt")
        os.utime(self.tree / "crates/low/src/lib.rt", (0, 0))
        self.assertRefuses("isn't on PATH")

    def assertRefusesToBuildAgain(self) -> None:
        """What was built of these sources is found without the kit, until it is changed."""
        ended = self.run_in("./pdp11")
        self.assertEqual(ended.stdout, "a built program:\n", self.said)
        self.change_a_byte(BUILT)
        self.assertRefuses("isn't on PATH")
        self.change_a_byte(BUILT)

    def test_neither_release_nor_kit(self) -> None:
        self.assertRefuses("isn't on PATH")
        self.assertEqual(self.run_in("tools/program", "--at-hand", "pdp11").returncode, 1)
        ended = self.run_in("./pdp11", "--help")
        self.assertEqual(ended.returncode, 0, self.said)
        self.assertEqual(ended.stdout, (ROOT / STORED_HELP).read_text())

    def test_help_is_the_programs_own(self) -> None:
        self.make_release()
        self.assertEqual(self.run_in("./pdp11", "--help").stdout, "a program: --help\n")


class ByNode(Tree):
    """The program by node, where the release file can't run."""

    def setUp(self) -> None:
        super().setUp()
        self.make_release(CANNOT_RUN)
        self.module("a module")
        self.node("16.0.0")

    def node(self, version: str, takes: str = "yes") -> None:
        self.write("../bin/node", NODE.format(version=version, takes=takes), 0o755)

    def assertByNode(self, *options: str) -> None:
        ended = self.run_in("./pdp11", "a", "b c")
        host = str(self.tree / "tools/by-node/host.mjs")
        begin = " ".join(["by node:", *options, host, "pdp11 "])
        self.assertEqual((ended.stderr, ended.returncode), ("", 0))
        self.assertRegex(ended.stdout, f"^{re.escape(begin)}[0-9a-f]? a b c\n$")

    def test_where_the_release_file_cannot_run(self) -> None:
        self.assertByNode("--wasm-tiering-budget=18000000")
        self.node("16.0.0", takes="")
        self.assertByNode()
        self.write("../bin/uname", OTHER_SYSTEM, 0o755)
        self.assertByNode()

    def test_where_the_release_file_runs(self) -> None:
        self.make_release()
        self.assertRuns()

    def test_node_that_is_too_old(self) -> None:
        for version in "14.21.3", "9.0.0", "unknown":
            self.node(version)
            self.assertRefuses("CPU lacks POPCNT", "or install node, 16 or later")

    def test_a_module_of_other_sources_or_bytes(self) -> None:
        for name in "release/pdp11.wasm", "release/pdp11.wasm.sources":
            self.change_a_byte(name)
            self.assertRefuses("node can't run it either, since release/pdp11.wasm isn't the file")
            self.change_a_byte(name)
        self.change_a_byte("crates/low/src/lib.rt")
        self.assertRefuses("release/pdp11-linux-x86_64 was made of other sources")

    def test_commands_that_another_system_lacks(self) -> None:
        self.write("../bin/uname", OTHER_SYSTEM, 0o755)
        self.path = path_without(self.folder, "rt", "sha256sum", "tac")
        self.assertByNode("--wasm-tiering-budget=18000000")

    def test_it_is_told_once_at_a_terminal(self) -> None:
        path = os.pathsep.join(map(str, [self.folder / "bin", *self.path]))
        environment = {**os.environ, "PATH": path}
        command = ["sh", "-c", "tools/program search; tools/program --quiet disassemble; echo end"]
        self.write("crates.txt", f"{CRATES}search: low\n")
        self.write("../bin/uname", OTHER_SYSTEM, 0o755)
        for name in "search", "disassemble":
            self.module("a module", name)
        with PseudoTerminal(command, str(self.tree), environment) as terminal:
            terminal.wait_for(b"search: release/search-linux-x86_64 can't run here, so node runs")
            terminal.wait_for(b"tools/by-node/search\r\n/")
            terminal.wait_for(b"tools/by-node/disassemble\r\nend\r\n")

    def test_an_older_module_that_is_asked_for(self) -> None:
        self.write("../bin/uname", OTHER_SYSTEM, 0o755)
        self.change_a_byte("crates/low/src/lib.rt")
        self.assertRefuses("release/pdp11.wasm was made of other sources", "PDP11_RELEASE=1 in")
        with mock.patch.dict(os.environ, {"PDP11_RELEASE": "1"}):
            ended = self.run_in("./pdp11", "a")
        self.assertRegex(ended.stdout, "^by node: .* a\n$")
        said = "^pdp11: PDP11_RELEASE has release/pdp11.wasm run, [^\n]*\n$"
        self.assertRegex(ended.stderr, said)


@unittest.skipUnless(shutil.which("node"), "node isn't installed")
class ByThisNode(Tree):
    """The tree has this repository's module, and node is the one that is here."""

    def setUp(self) -> None:
        super().setUp()
        self.make_release(CANNOT_RUN)
        self.module((ROOT / "release/pdp11.wasm").read_bytes())
        for name in "web/host.js", "web/heap.js", "web/package.json":
            self.copy(name)

    def test_a_session(self) -> None:
        given = (ROOT / "examples/first-run.session").read_text()
        ended = self.run_in("./pdp11", given=given)
        wanted = (ROOT / "examples/first-run.expected").read_text()
        self.assertEqual((ended.stdout, ended.stderr, ended.returncode), (wanted, "", 0))

    def test_streams_that_are_closed(self) -> None:
        for closed in "<&-", ">&-":
            ended = self.run_in("sh", "-c", f"./pdp11 --help {closed}", given="regs 0\n")
            wanted = 0 if closed == "<&-" else 3
            self.assertEqual(ended.returncode, wanted, self.said)
        ended = self.run_in("sh", "-c", "./pdp11 <&-")
        self.assertEqual((ended.returncode, self.said), (3, "pdp11: input or output\n"))

    def test_names_that_are_not_ascii(self) -> None:
        """The program itself takes no name that isn't UTF-8."""
        self.write("../image\u00e4", b"\x01\x02")
        ended = self.run_in("./pdp11", "--core", "../image\u00e4", given="mem 0 0 1\n")
        self.assertEqual((ended.stdout, ended.stderr), ("mem 001001\n", ""))
        ended = self.run_in("./pdp11", "--core", "../image\udcff")
        self.assertEqual((ended.returncode, self.said), (2, "pdp11: bad arguments\n"))

    def test_a_module_that_node_cannot_run(self) -> None:
        self.module("a module")
        ended = self.run_in("./pdp11")
        self.assertEqual((ended.returncode, ended.stdout), (1, ""))
        self.assertRegex(ended.stderr, "^pdp11: node can't run it: [^\n]*\n$")

    def ended_by(self, sent: signal.Signals, *before: str, seconds: int = SECONDS) -> int:
        """The status of a program that is sent a signal while it computes, and is killed if it goes
        on for so long."""
        path = os.pathsep.join(map(str, [self.folder / "bin", *self.path]))
        environment, pipe = {**os.environ, "PATH": path}, subprocess.PIPE
        command = [*before, str(self.tree / "pdp11")]
        with subprocess.Popen(
            command,
            env=environment,
            stdin=pipe,
            stdout=pipe,
            preexec_fn=lambda: signal.signal(sent, signal.SIG_DFL),  # the caller may ignore it
        ) as ran:
            assert ran.stdin and ran.stdout
            ran.stdin.write(b"core 1000 777\nregs 1000000000\n")
            ran.stdin.flush()
            self.assertEqual(ran.stdout.readline(), b"ok\n")
            ran.send_signal(sent)
            try:
                return ran.wait(seconds)
            except subprocess.TimeoutExpired:
                ran.send_signal(signal.SIGTERM)
                return ran.wait(SECONDS)

    def test_signals_end_it_unless_they_are_ignored(self) -> None:
        self.assertEqual(self.ended_by(signal.SIGINT), -signal.SIGINT)
        self.assertEqual(self.ended_by(signal.SIGHUP), -signal.SIGHUP)
        shell = ["sh", "-c", "trap '' HUP INT; exec \"$0\""]
        for sent in signal.SIGINT, signal.SIGHUP:
            self.assertEqual(self.ended_by(sent, *shell, seconds=1), -signal.SIGTERM)


class CheckNode(Tree):
    """What tools/check by-node finds."""

    @unittest.skipUnless(shutil.which("node"), "node isn't installed")
    def test_a_session_with_another_reply(self) -> None:
        for name, reply in ("right", "refused 7 TurnTooLarge"), ("wrong", "refused 8 BadCount"):
            self.write(f"sessions/{name}.transcript", f"regs 1000000001\n{reply}\n")
        folders = [str(self.tree / "sessions")]
        right, wrong = by_node.of_sessions(by_node.program_of("pdp11"), folders, ".session")
        self.assertIsNone(right)
        self.assertIn("sessions/wrong: line 1 of the output is ", wrong or "")

    def test_without_node(self) -> None:
        self.path = path_without(self.folder, "rt", "node")
        ended = self.run_in(str(ROOT / "tools/check"), "by-node", str(ROOT / "examples"))
        self.assertEqual((ended.returncode, self.said), (77, "node isn't installed\n"))

    def test_no_such_folder(self) -> None:
        ended = self.run_in(str(ROOT / "tools/check"), "by-node", "nowhere")
        self.assertEqual((ended.returncode, ended.stdout), (2, ""))
        self.assertIn("nowhere: no such folder", ended.stderr)
