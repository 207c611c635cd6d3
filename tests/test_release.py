#!/usr/bin/env python3
"""test_release.py: tests ./pdp11, ./explore, tools/program, tools/build, tools/release and .ci/run
as they find, make and check programs, by the tests in tests/release. The last line is
'N passed, M failed'."""
import argparse
import sys

sys.dont_write_bytecode = True
sys.path[0] = sys.path[0].rpartition("/")[0] + "/tools"
import python_needed

python_needed.check()
from tests import counted


def main() -> int:
    as_it_is = argparse.RawDescriptionHelpFormatter
    argparse.ArgumentParser(description=__doc__, formatter_class=as_it_is).parse_args()
    return counted.run("release")


if __name__ == "__main__":
    sys.exit(main())
