"""How a part of the gate counts tests: one in a browser that fails is run a second time."""
import io
import unittest
from contextlib import redirect_stdout
from typing import Callable

from tests import counted

Act = Callable[[unittest.TestCase], None]
IN_BROWSER = (counted.InBrowser,)


def fail(test: unittest.TestCase) -> None:
    test.fail("it isn't so")


def fail_in_part(test: unittest.TestCase) -> None:
    for part in range(3):
        with test.subTest(part):
            test.assertEqual(part, 1)


def fail_at_the_end(test: unittest.TestCase) -> None:
    test.addCleanup(test.fail, "there is a message")


def break_off(test: unittest.TestCase) -> None:
    raise OSError("the browser has ended")


def skip(test: unittest.TestCase) -> None:
    test.skipTest("it can't be tested")


def case(
    name: str, *acts: Act, bases: tuple[type[unittest.TestCase], ...] = IN_BROWSER
) -> unittest.TestCase:
    """A test that does one act each time that it is run, and then passes."""
    left = list(acts)

    def run(test: unittest.TestCase) -> None:
        if left:
            left.pop(0)(test)

    does: dict[str, object] = {"test_it": run, "page_says": lambda _: f"{name} is open"}
    made: type[unittest.TestCase] = type(name, bases, does)
    return made("test_it")


class Counted(unittest.TestCase):
    def counted(self, *tests: unittest.TestCase) -> tuple[int, list[str], list[str]]:
        """The exit status, what is counted, and the tests that passed at the second try."""
        with redirect_stdout(io.StringIO()) as output:
            status = counted.count(unittest.TestSuite(tests))
        self.lines = output.getvalue().splitlines()
        told = [it.partition(": ")[2] for it in self.lines if it.startswith("passed at ")]
        return status, self.lines[-2:], [it.split(".")[-2] for it in told]

    def test_what_fails_once_passes(self) -> None:
        for act in fail, fail_in_part, fail_at_the_end, break_off:
            with self.subTest(act.__name__):
                found = self.counted(case("Passes"), case("Once", act))
                self.assertEqual(found, (0, ["0 skipped", "2 passed, 0 failed"], ["Once"]))
                self.assertIn("The page says: Once is open", self.lines)

    def test_what_fails_twice_fails(self) -> None:
        found = self.counted(case("Once", fail), case("Twice", fail, break_off))
        self.assertEqual(found, (1, ["0 skipped", "1 passed, 1 failed"], ["Once"]))
        self.assertEqual(self.counted(case("Twice", fail, skip))[0], 1)

    def test_of_many_none_is_run_again(self) -> None:
        for count, failed in (counted.MOST_AGAIN, 0), (counted.MOST_AGAIN + 1, 4):
            found = self.counted(*(case(f"Once{it}", fail) for it in range(count)))
            self.assertEqual(found[1][1], f"{count - failed} passed, {failed} failed")
            self.assertEqual(len(found[2]), count - failed)

    def test_without_a_browser_none_is_run_again(self) -> None:
        found = self.counted(case("Once", fail, bases=(unittest.TestCase,)))
        self.assertEqual(found, (1, ["0 skipped", "0 passed, 1 failed"], []))
        self.assertNotIn("The page says", "".join(self.lines))

    def test_what_is_skipped(self) -> None:
        found = self.counted(case("Skipped", skip), case("Passes"))
        self.assertEqual(found, (0, ["1 skipped", "1 passed, 0 failed"], []))
