#!/usr/bin/env python3
"""test_web.py [--quick] [--page ADDRESS] [--shots FOLDER] [--only NAME] [--slow N] [--clicks N]:
tests the page in a headless Chromium, and its main parts in a headless Firefox, by the tests in
tests/web.

What the page shows is compared with the replies of the search of tests/under_test.py. The page is
packed anew of web/ and the modules in release/, or is the one at ADDRESS. FOLDER gets the
screenshots of the tour. --only runs the tests with NAME in their name. --slow shows which of them a
slow computer would fail: the page in Chromium has an Nth of the processor, and what it waits for
comes late. --clicks has N random clicks made, in place of 200. If at most 3 tests in a browser
fail, each is run a second time, in a fresh page.

Without Chromium, Firefox or the modules the tests that need them are skipped, and each is named;
those of style, names and widths run. The last line is 'N passed, M failed'."""
import sys
from pathlib import Path

sys.dont_write_bytecode = True
sys.path[0] = sys.path[0].rpartition("/")[0] + "/tools"
import python_needed

python_needed.check()
from tests import counted, under_test


def main() -> int:
    parser = counted.parser_of(__doc__)
    parser.add_argument("--page", metavar="ADDRESS")
    parser.add_argument("--shots", metavar="FOLDER", type=Path)
    parser.add_argument("--only", metavar="NAME", default="")
    parser.add_argument("--slow", metavar="N", type=float)
    parser.add_argument("--clicks", metavar="N", type=int)
    words = parser.parse_args()
    for what in "page", "shots", "slow", "clicks":
        if getattr(words, what) is not None:
            under_test.name_it(what, getattr(words, what))
    return counted.run_quick("web") if words.quick else counted.run("web", words.only)


if __name__ == "__main__":
    sys.exit(main())
