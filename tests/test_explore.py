#!/usr/bin/env python3
"""test_explore.py [--quick]: tests explore by the tests in tests/explore, with the programs of
under_test.py.

Each script NAME.explore there is run as lines of a pipe, with the words in NAME.args, in a folder
that has the examples as examples/, and must write NAME.expected. What isn't installed (SIMH's
pdp11, chromium, parallel, python3-pydevd, Emacs with dap-mode) is skipped, and each such test is
named. The last line is 'N passed, M failed'."""
import sys

sys.dont_write_bytecode = True
sys.path[0] = sys.path[0].rpartition("/")[0] + "/tools"
import python_needed

python_needed.check()
from tests import counted


def main() -> int:
    words = counted.parser_of(__doc__).parse_args()
    return counted.run_quick("explore") if words.quick else counted.run("explore")


if __name__ == "__main__":
    sys.exit(main())
