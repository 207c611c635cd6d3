"""Sweeps that are large, and sweeps at the same time."""
import signal
import subprocess
import threading
import time
from pathlib import Path
from typing import cast
from unittest import mock

from nezdrab.analysis import long_work
from nezdrab.analysis.crew import AtWork
from nezdrab.core.engine import Machine
from nezdrab.core.errors import ExploreError
from nezdrab.core.twins import each_of

from .explore_case import SECONDS
from .terminal import AtTerminal

SESSION = "examples/one-key-sooner.session"
MOST_KILOBYTES = 100_000


class Idle:
    """Stands in for a machine whose twins start no program."""

    def twin(self, stride: int) -> "Idle":
        return Idle()

    def close(self) -> None:
        """There is nothing to close."""


class Sweeps(AtTerminal):
    """One file of results, few tasks at a time, and a question first."""

    def begin_sweep(self, line: str) -> "subprocess.Popen[str]":
        child = subprocess.Popen(
            self.command(SESSION),
            cwd=self.folder,
            env=self.environment(),
            stdin=subprocess.PIPE,
            stdout=subprocess.PIPE,
            stderr=subprocess.PIPE,
            text=True,
        )
        self.addCleanup(child.communicate)
        self.addCleanup(child.kill)
        assert child.stdin
        child.stdin.write(line)
        child.stdin.flush()
        return child

    def results(self) -> list[str]:
        path = Path(self.folder / "kept")
        return path.read_text().splitlines() if path.exists() else []

    def wait_for_results(self, count: int) -> None:
        limit = time.monotonic() + SECONDS
        while len(self.results()) < count:
            self.assertLess(time.monotonic(), limit, "no results come")
            time.sleep(0.02)

    def test_a_second_one_with_the_same_file_says_so(self) -> None:
        first = self.begin_sweep("sweep -o kept key 101 from 0 to 90000: regs 90001\nevents\n")
        self.wait_for_results(2)
        second = self.explore("sweep -o kept key 101 from 0 to 50: regs 90001\n", SESSION)
        self.assertEqual(second, "sweep: kept: another sweep is writing to it\n")
        before = len(self.results())
        self.wait_for_results(before + 2)
        first.send_signal(signal.SIGINT)
        written, error = first.communicate(timeout=SECONDS)
        self.assertEqual(error, "")
        self.assertIn("the same line goes on from kept", written)
        done = [int(it.split()[0]) for it in self.results()[1:]]
        self.assertIn(f"stopped: {len(done)} of 90001 turns are done", written)
        third = self.explore("sweep -o kept key 101 from 0 to 3: regs 90001\n", SESSION)
        self.assertIn("4 turns, ", third)

    def test_what_is_refused_ends_it(self) -> None:
        """Of a file of results nothing is taken then, so a sweep that is right can go to it."""
        lines = "sweep -o kept kex from 1 to 2: regs 5\nsweep -o kept tick from 1 to 2: regs x\n"
        lines += "sweep tick from 1 to 2: # regs 5\nsweep -o kept tick from 1 to 2: regs 5\n"
        written = self.explore(lines).splitlines()
        self.assertTrue(written[0].startswith("sweep: at 1 kex: refused 10 BadLine: at T event: "))
        self.assertTrue(written[1].startswith("sweep: regs x: refused 10 BadLine: regs N: N, a "))
        self.assertEqual(written[2], "sweep: a comment is no question")
        self.assertEqual(written[4], "2 turns, 1 run of equal replies")
        self.assertEqual(len(self.results()), 3)

    def test_an_event_in_its_own_turn_is_where_it_was(self) -> None:
        """Of two keys of a turn the second one counts, whichever turn a sweep begins with."""
        lines = "at 5 key 101\nat 5 key 102\ndevices 6\nsweep -j 1 1 from 4 to 5: devices 6\n"
        written = self.explore(lines).splitlines()
        self.assertIn("TKB 000102", written[2])
        self.assertEqual(written[3], f"turns 4 to 5: {written[2]}")

    def test_what_is_refused_leaves_no_file(self) -> None:
        (self.folder / "mine").write_text("old")
        before = sorted(self.folder.iterdir())
        lines = "-o kept kex from 1 to 2: regs 5\n", "--jobs mine tick from 1 to 2: regs 5\n"
        written = self.explore("".join(f"sweep {it}" for it in lines)).splitlines()
        self.assertIn("refused 10 BadLine", written[0])
        self.assertEqual(written[1:], ["sweep: mine is there already; sweep! overwrites it"])
        self.assertEqual(sorted(self.folder.iterdir()), before)

    def test_the_first_of_two_faults_is_told(self) -> None:
        """Task 0 fails only after task 1 has."""
        second_failed = threading.Event()

        def work(twin: Machine, task: int) -> None:
            if task == 1:
                second_failed.set()
            else:
                second_failed.wait(SECONDS)
                time.sleep(0.1)
            raise ExploreError(f"task {task}")

        with self.assertRaisesRegex(ExploreError, "^task 0$"):
            list(each_of(cast(Machine, Idle()), [0, 1, 2], work, 2))

    def test_what_ends_in_the_midst_shows_what_is_done(self) -> None:
        """The limit of a file's size stands in for the end of a disk."""
        limited = ["bash", "-c", 'ulimit -f 1; trap "" XFSZ; exec "$@"', "bash"]
        ended = subprocess.run(
            [*limited, *self.command(SESSION)],
            input="sweep -j 1 -o kept key 101 from 0 to 90: regs 95\n",
            cwd=self.folder,
            env=self.full_disk(),
            capture_output=True,
            text=True,
            timeout=SECONDS,
        )
        *runs, last = ended.stdout.splitlines()
        self.assertRegex(runs[-1], r"^\d+ turns, 1 run of equal replies$")
        self.assertIn("kept can't be written: File too large: ", last)
        self.assertIn(" of 91 turns are done; the same line goes on from kept", last)

    def test_many_turns_take_little_memory(self) -> None:
        line = "sweep -y -j 1 -o kept key 101 from 0 to 1000000000: regs 9\nevents\n"
        child = self.begin_sweep(line)
        self.wait_for_results(3)
        with open(f"/proc/{child.pid}/status") as status:
            peak = next(int(it.split()[1]) for it in status if it.startswith("VmHWM:"))
        self.assertLess(peak, MOST_KILOBYTES)
        child.send_signal(signal.SIGINT)
        written, error = child.communicate(timeout=SECONDS)
        self.assertEqual(error, "")
        self.assertIn("of 1000000001 turns are done; the same line goes on from kept", written)

    def test_no_sign_of_work_stands_in_the_question(self) -> None:
        hidden: list[bool] = []

        def typed(prompt: str) -> str:
            hidden.append(AtWork.is_hidden)
            return "y"

        explorer = mock.Mock(is_terminal=True)
        with mock.patch.object(long_work, "typed_line", typed):
            long_work.WorkOptions("", ("-y",)).check(explorer, "sweep", 200_000, "turns")
        self.assertEqual((hidden, AtWork.is_hidden), ([True], False))

    def test_many_turns_want_a_word(self) -> None:
        said = "100001 turns are more than 100000"
        line = "sweep key 101 from 0 to 100000: regs 9\n"
        written = self.explore(line, SESSION)
        self.assertEqual(written, f"sweep: {said}; sweep -y .. does them\n")
        self.begin(SESSION)
        self.type(line)
        self.wait_for(f"{said}; begin? (y or n) ".encode())
        self.seen = b"explore> "
        self.type("n\n")
        self.wait_for(b"sweep: not begun")
        self.type(line)
        self.wait_for(b"begin? (y or n) ")
        self.seen = b"explore> "
        self.type("y\n")
        self.wait_for(b"] ")
        self.interrupt()
        self.wait_for(b"stopped: ")
        self.end()
