"""Edits that run nothing, long questions, many events: the page goes on."""
from typing import Callable

from tests import under_test

from . import timing
from .page_case import PageCase, ledger_lines

FAR, LAST = 100_000_000, 1_000_000_000
# notes what is sent to the worker
NOTE = """(() => {
  window.sent = [];
  const post = Worker.prototype.postMessage;
  Worker.prototype.postMessage = function (message, ...more) {
    if (message.lines) window.sent = [...window.sent, ...message.lines];
    return post.call(this, message, ...more);
  };
})()"""
# How many empty tasks the outcome of a dragged key may take, and the moves that are tried.
MOST_EMPTY_TASKS, MOVES = 1.4, 20


def last_turn(question: str) -> int:
    """The last turn that a question is about; 0 if it is about none."""
    word, *numbers = question.split()
    place = 1 if word in ("first", "latest", "writes", "change") else 0
    return int(numbers[place]) if numbers else 0


class Edits(PageCase):
    def test_an_edit_runs_nothing(self) -> None:
        """No line that is sent for an edit is about a turn after those that are shown."""
        self.browser.value(NOTE)
        edits = ["at 400000000 tick", "alter 15 999999990 key 66"]
        for line in edits:
            self.type_line(line)
            self.wait_text("#instructions", "next")
        self.browser.click("#undo")
        self.browser.wait("document.querySelectorAll('#edits li').length === 1")
        self.wait_text("#text-turn", "before turn")
        sent = self.browser.value("sent")
        lines = [it for it in sent if it not in (*edits, *ledger_lines())]
        self.assertGreater(len(lines), 0)
        far = [it for it in lines if last_turn(it) > 238_614]
        self.assertEqual(far, [])

    def test_a_session_with_far_edits_opens_at_once(self) -> None:
        path = self.folder() / "far.session"
        path.write_text("at 99999999999 tick\nat 5 tick\nregs 9\n")
        self.browser.value(NOTE)
        self.give(path)
        self.wait_text("#session-name", "far")
        self.wait_text("#registers", "PC")
        lines = [it for it in self.browser.value("sent") if not it.startswith("at ")]
        self.assertGreater(len(lines), 0)
        self.assertEqual([it for it in lines if last_turn(it) > 238_614], [])
        self.assertIn("event 2", self.type_line("at 7 tick"))


class LongQuestions(PageCase):
    def go(self, turn: int) -> None:
        self.browser.value(f"document.querySelector('#turn').value = '{turn}'")
        self.browser.value("document.querySelector('#turn-form').requestSubmit()")

    def test_a_bar_and_stop(self) -> None:
        self.wait_still()
        self.type_line("alter 15 127165 key 66")
        self.balance("145")
        self.go(LAST)
        self.browser.wait("!document.querySelector('#work').hidden")
        self.wait_text("#work-text", "turns")
        self.browser.click("#stop")
        self.wait_text("#reply", "Stopped")
        self.balance("145")
        self.assertIn("dsk 000176", self.type_line("dsk 238614 0 1"))

    def test_refused_lines_hide_no_long_question(self) -> None:
        path = self.folder() / "hidden.session"
        loop = ["core 1000 5200", "core 1002 776"]
        refused = [f"at {4 * it}000000 x" for it in range(1, 251)]
        path.write_text("\n".join([*loop, *refused, f"regs {LAST}", ""]))
        self.give(path)
        self.browser.wait("!document.querySelector('#work').hidden")
        self.go(5_000)
        self.wait_text("#instructions", "4999")
        self.assertIn("PC 001000", self.type_line("regs 5000"))
        self.browser.click("#stop")
        self.wait_text("#reply", "Stopped")
        self.browser.wait("document.querySelector('#work').hidden")

    def test_a_question_that_is_refused_runs_nothing(self) -> None:
        self.wait_still()
        self.browser.value(NOTE)
        self.assertIn("refused 7", self.type_line("regs 2000000000"))
        self.assertIn("refused 3", self.type_line(f"mem {LAST} 1001 1"))
        sent = self.browser.value("sent")
        self.assertEqual(sent, ["regs 2000000000", "mem 64 1001 1"])

    def test_a_search_is_asked_in_parts(self) -> None:
        asked = f"first 0 {LAST} at 157776"
        self.fill("#line", asked)
        self.browser.key("Enter")
        self.wait_text("#work-text", f"of {LAST} turns")
        self.go(5_000)
        self.wait_text("#instructions", "4999")
        self.browser.click("#stop")
        self.wait_text("#reply", "Stopped")

    def test_a_list_of_transfers_or_reads_is_asked_in_parts(self) -> None:
        """Panels don't wait for it."""
        for asked in f"transfers 0 {LAST}", f"reads 0 {LAST} 157776":
            self.fill("#line", asked)
            self.browser.key("Enter")
            self.wait_text("#work-text", f"of {LAST} turns")
            self.go(5_000 + len(asked))
            self.wait_text("#instructions", f"{4_999 + len(asked)}")
            self.browser.click("#stop")
            self.wait_text("#reply", "Stopped")

    def test_a_search_goes_back_to_the_first_turn(self) -> None:
        """The instruction at 1000 is run in turn 0 alone."""
        self.assertIn("latest 0", self.type_line("latest 0 200000 at 1000").split(": ")[1])

    def test_lines_are_shown_as_lines(self) -> None:
        self.type_line("trail 100 2")
        shown = self.browser.value("document.querySelector('#reply').innerText")
        self.assertRegex(shown, r"^trail 100 2:\s*\ntrail 2\n98 .*\n99 ")

    def test_the_page_never_hangs(self) -> None:
        self.never_hangs(self.wait_still, self.look_at_far_turns)

    def test_an_edit_among_many_events(self) -> None:
        self.never_hangs(self.open_many_events, self.edit_many_events)

    def never_hangs(self, begin: Callable[[], None], act: Callable[[], None]) -> None:
        """The least of three tries, each beside an empty task: the processor may be slower."""
        tries = []
        for _ in range(3):
            self.browser.open(self.address)
            begin()
            tries.append((self.browser.longest_task(act), timing.long_task(self.browser)))
            if tries[-1][0] < tries[-1][1]:
                return
        self.fail(f"tasks of the page took these milliseconds of the processor: {tries}")

    def look_at_far_turns(self) -> None:
        self.go(FAR)
        self.wait_text("#registers-turn", f"before turn {FAR}")
        self.wait_still()
        self.browser.value("document.querySelector('#turns').focus()")
        for _ in range(16):
            self.browser.key("-")
        self.wait_still()

    def open_many_events(self) -> None:
        path = self.folder() / "many.session"
        events = [f"at {it} key 101" for it in range(0, 200_000, 20)]
        path.write_text("\n".join([*events, "regs 200000", ""]))
        self.give(path)
        self.wait_text("#session-name", "many")
        self.wait_still()

    def edit_many_events(self) -> None:
        for line in ("alter 5000 100001 key 101", "drop 7", "at 5 tick"):
            self.type_line(line)
        self.browser.click("#undo")
        self.browser.wait("document.querySelectorAll('#edits li').length === 2")
        self.browser.value("new Promise(it => setTimeout(it, 1000))")


class Dragged(PageCase):
    def test_the_outcome_of_a_dragged_key_comes_soon(self) -> None:
        """The least of three tries, each beside an empty task in the same browser."""
        if under_test.slower() > 1:
            self.skipTest("only the page is slower, and not its worker")
        tries: list[float] = []
        while len(tries) < 3:
            self.wait_still()
            tries.append(timing.ratio(self.browser, MOVES))
            if tries[-1] < MOST_EMPTY_TASKS:
                return
            self.browser.open(self.address)
        self.fail(f"the outcome of a dragged key takes {tries} empty tasks")
