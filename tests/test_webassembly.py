#!/usr/bin/env python3
"""test_webassembly.py [--programs FOLDER]: tests how the modules and the page are made, by the
tests in tests/webassembly: what is changed in an LLVM module, what the kit gives clang, which
modules are older than the sources, how the page is packed, and `explore web`; by node the heap of
the page's host; and by chromium a program in its worker. FOLDER has the modules; it is release/ if
it isn't given. What isn't installed (the kit, node, chromium, Firefox) is skipped, and each test
that was skipped is named. The last line is 'N passed, M failed'."""
import argparse
import sys
from pathlib import Path

sys.dont_write_bytecode = True
sys.path[0] = sys.path[0].rpartition("/")[0] + "/tools"
import python_needed

python_needed.check()
from tests import counted, under_test


def main() -> int:
    as_it_is = argparse.RawDescriptionHelpFormatter
    parser = argparse.ArgumentParser(description=__doc__, formatter_class=as_it_is)
    parser.add_argument("--programs", metavar="FOLDER", type=Path)
    folder = parser.parse_args().programs
    if folder is not None:
        under_test.name_it("modules", folder)
    return counted.run("webassembly")


if __name__ == "__main__":
    sys.exit(main())
