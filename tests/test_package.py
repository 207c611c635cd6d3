#!/usr/bin/env python3
"""test_package.py [--quick]: tests the package nezdrab by the tests in tests/package, with
the search of tests/under_test.py. One makes a wheel and tries it outside the clone; without
setuptools, wheel or venv it is skipped, and named. The last line is 'N passed, M failed'."""
import sys

sys.dont_write_bytecode = True
sys.path[0] = sys.path[0].rpartition("/")[0] + "/tools"
import python_needed

python_needed.check()
from tests import counted


def main() -> int:
    words = counted.parser_of(__doc__).parse_args()
    return counted.run_quick("package") if words.quick else counted.run("package")


if __name__ == "__main__":
    sys.exit(main())
