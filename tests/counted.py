"""Runs the tests of one folder as a part of the gate, and counts them."""
import argparse
import sys
import unittest
from pathlib import Path
from typing import Optional

from .quick import QUICK

FOLDER = Path(__file__).resolve().parent
# If more tests in a browser fail than these, none is run a second time.
MOST_AGAIN = 3


class InBrowser(unittest.TestCase):
    """A test in a browser, which other work of the computer may fail. One that fails tells what its
    page says, and is run a second time in a fresh page: what is wrong fails twice."""

    def page_says(self) -> str:
        raise NotImplementedError


class Counts(unittest.TextTestResult):
    """What was passed, by its names, besides what unittest keeps."""

    def startTestRun(self) -> None:
        super().startTestRun()
        self.passed: list[str] = []

    def addSuccess(self, test: unittest.TestCase) -> None:
        super().addSuccess(test)
        self.passed.append(test.id())

    def stopTest(self, test: unittest.TestCase) -> None:
        super().stopTest(test)
        for found in (self.failures, self.errors):
            if isinstance(test, InBrowser) and found and whole(found[-1][0]) is test:
                part, text = found[-1]
                found[-1] = part, f"{text}The page says: {test.page_says()}\n"

    def failed(self) -> dict[str, unittest.TestCase]:
        """The tests that failed, by their names."""
        tests = [whole(it) for it, _ in [*self.failures, *self.errors]]
        return {it.id(): it for it in tests}

    def take_out(self, names: set[str]) -> None:
        """These passed at their second try."""
        for found in (self.failures, self.errors):
            found[:] = [it for it in found if whole(it[0]).id() not in names]
        self.passed += names


def whole(test: unittest.TestCase) -> unittest.TestCase:
    """The test of which this is a part, or all."""
    found: unittest.TestCase = getattr(test, "test_case", test)
    return found


def run_again(first: Counts) -> None:
    """Runs the tests in a browser that failed a second time, if they are few."""
    tests = {name: it for name, it in first.failed().items() if isinstance(it, InBrowser)}
    if not 0 < len(tests) <= MOST_AGAIN:
        return
    print("A second time:", ", ".join(tests))
    second = run_suite(unittest.TestSuite(tests.values()))
    passed = tests.keys() & set(second.passed)
    for name in sorted(passed):
        print(f"passed at the second try: {name}")
    first.take_out(passed)


def run_suite(suite: unittest.TestSuite) -> Counts:
    result = unittest.TextTestRunner(sys.stdout, resultclass=Counts).run(suite)
    assert isinstance(result, Counts)
    return result


def count(suite: unittest.TestSuite) -> int:
    """Runs tests; returns the exit status. Each skipped test or class is named, and the last line
    is 'N passed, M failed'."""
    all_of_them = suite.countTestCases()
    try:
        result = run_suite(suite)
        run_again(result)
    except KeyboardInterrupt:
        print("stopped")
        return 130
    for test, why in result.skipped:
        print(f"skipped: {test}: {why}")
    passed, failed = len(result.passed), len(result.failures) + len(result.errors)
    # a class that is skipped as a whole has run none of its tests, and is named once
    print(f"{max(0, all_of_them - passed - failed)} skipped")
    print(f"{passed} passed, {failed} failed")
    return int(failed > 0)


def parser_of(description: Optional[str]) -> argparse.ArgumentParser:
    """The arguments of what runs a folder that has quick tests."""
    as_it_is = argparse.RawDescriptionHelpFormatter
    parser = argparse.ArgumentParser(description=description, formatter_class=as_it_is)
    parser.add_argument("--quick", action="store_true", help="the tests of QUICK in tests/quick.py")
    return parser


def run_quick(folder: str) -> int:
    """Runs the quick tests of a folder, and names the modules that are left out, or a part of
    which is."""
    there = [it.stem for it in sorted((FOLDER / folder).glob("test_*.py"))]
    left_out = [it.removeprefix("test_") for it in there if it not in QUICK[folder]]
    names = [f"tests.{folder}.{it}" for it in QUICK[folder]]
    print(f"left out of {folder}: {', '.join(left_out)}")
    return count(unittest.TestLoader().loadTestsFromNames(names))


def run(folder: str, only: str = "") -> int:
    """Runs the tests of a folder, those with `only` in their name; returns the exit status."""
    loader = unittest.TestLoader()
    if only:
        loader.testNamePatterns = [f"*{only}*"]
    return count(loader.discover(str(FOLDER / folder), top_level_dir=str(FOLDER.parent)))
