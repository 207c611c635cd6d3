"""The debug adapter as a user of Emacs has it: dap-mode with what examples/editors/ has for it, at
a terminal at which the test types."""
import os
import unittest
from typing import Callable

from .emacs import LACKING, REPL, Emacs, State
from .test_editor_moves import line_with

PROMPT = ">> "


@unittest.skipIf(LACKING, LACKING)
class InEmacs(unittest.TestCase):
    """One Emacs for all tests. Each begins a session by the template: the hunt in the ledger, whose
    turns examples/ledger/hunt.explore has."""

    emacs: Emacs

    @classmethod
    def setUpClass(cls) -> None:
        cls.emacs = Emacs()
        cls.addClassCleanup(cls.emacs.end)
        cls.emacs.start()

    def setUp(self) -> None:
        self.emacs.keys("C-g")  # whatever a test that failed has left
        self.emacs.visit_listing()

    # What a test does

    def stop_after(self, go: Callable[[], object]) -> State:
        """The state at the stop that comes."""
        stops = self.emacs.state().stops
        go()
        self.emacs.until("a stop", lambda: self.emacs.state().stops > stops)
        return self.emacs.state()

    def goes_by(self, command: str, *answers: str) -> State:
        return self.stop_after(lambda: self.emacs.command(command, *answers))

    def begin(self) -> None:
        state = self.goes_by("dap-debug", "Nezdrab")
        self.addCleanup(self.leave)
        self.assertEqual((state.state, state.frame), ("running", "BUSY+4"))
        self.assertIn("BPL BUSY", state.marked)
        self.emacs.until_shown(state.marked)

    def leave(self) -> str:
        """Disconnects, if it is connected; returns what the adapter had said."""
        adapter = self.emacs.value("(process-id (dap--debug-session-proc (dap--cur-session)))")
        if self.emacs.state().state == "running":
            self.emacs.command("dap-disconnect")
        self.emacs.until("the end", lambda: self.emacs.state().state == "terminated")
        self.emacs.until("the adapter's end", lambda: not is_alive(adapter))
        return self.emacs.state().said

    def repl(self) -> str:
        """What the console shows, once it has its prompt."""
        self.emacs.command("dap-ui-repl")
        chosen = "(buffer-name (window-buffer))"
        self.emacs.until("the console", lambda: self.emacs.value(chosen) == REPL)
        self.emacs.keys("Escape", ">")  # to its end: a list that was shown anew may have moved it
        return str(self.emacs.until("a prompt", lambda: self.shown_after("")))

    def shown_after(self, begun: str) -> str:
        """What the console shows after this, once it has its prompt again."""
        found = self.emacs.text(REPL)
        return found[len(begun) :] if found.startswith(begun) and found.endswith(PROMPT) else ""

    def type(self, line: str) -> str:
        """What a line of the console shows."""
        before = self.repl()
        self.emacs.type(line)
        shown = self.emacs.until(line, lambda: self.shown_after(f"{before}{line}\n"))
        return str(shown).removesuffix(PROMPT).strip()

    def turn(self) -> int:
        first = self.type("show").splitlines()[0]  # before turn 128066: run
        return int(first.split()[2].rstrip(":"))

    # The tests

    def test_breakpoint_and_step_back(self) -> None:
        """A breakpoint at a line, set before the session begins, and taken away in it."""
        line = str(line_with("PRINT:"))
        self.emacs.command("goto-line", line)
        self.emacs.command("dap-breakpoint-toggle")
        self.begin()
        state = self.goes_by("dap-continue")
        self.assertEqual(state.frame, "PRINT")
        self.assertIn("TSTB @#TPS", state.marked)
        turn = self.turn()
        state = self.goes_by("nezdrab-step-back")
        self.assertEqual((state.frame, self.turn()), ("CALL+22", turn - 1))
        self.emacs.until_shown(state.marked)
        self.assertEqual(self.goes_by("dap-step-in").frame, "PRINT")
        self.emacs.visit_listing()
        self.emacs.command("goto-line", line)
        self.emacs.command("dap-breakpoint-toggle")
        self.goes_by("dap-continue")
        self.assertEqual(self.turn(), 238_614)

    def test_back_to_a_write_and_an_edit(self) -> None:
        """Who wrote A's balance? Then the key of the 6 is struck in another turn."""
        self.begin()
        self.assertEqual(self.type("watch 30000"), "breakpoint 1: watch 30000")
        state = self.goes_by("nezdrab-reverse-continue")
        self.assertEqual((state.frame, self.turn()), ("CLERK+12 (user)", 127_850))
        self.assertIn("ADD R2,@#BALANCE", state.marked)
        self.emacs.command("dap-eval", "BALANCE")
        self.emacs.until_shown("=> 000130")
        self.stop_after(lambda: self.type("show 138071"))
        self.emacs.command("dap-ui-locals")
        self.emacs.until_shown("turn: 138071")
        self.emacs.until_shown("R2: 000002")
        self.stop_after(lambda: self.assertEqual(self.type("alter 15 127165 key 66"), "ok"))
        self.emacs.command("dap-ui-locals")  # dap-mode shows them anew once something is typed
        self.emacs.until_shown("R2: 000006")
        self.assertIn("the past isn't saved: ./explore --resume takes up 1 edit", self.leave())

    def test_steps_that_go_nowhere(self) -> None:
        """It stops where it is, and says why."""
        self.begin()
        self.stop_after(lambda: self.type("show 0"))
        for command, why in (
            ("nezdrab-step-back", "no turn comes before it"),
            ("nezdrab-reverse-continue", "no turn comes before it"),
            ("dap-step-out", "no call is found that turn 0 stands in"),
        ):
            state = self.goes_by(command)
            self.assertIn(why, state.said.splitlines()[-1])
        self.goes_by("dap-step-in")
        self.assertEqual(self.turn(), 1)


def is_alive(process: int) -> bool:
    try:
        os.kill(process, 0)
    except ProcessLookupError:
        return False
    return True
