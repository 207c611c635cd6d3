"""Tests and checks: README.md says which folder holds what. `python3 -m unittest`, run at the top,
runs all tests, and `python3 -m unittest tests.explore.test_media` one module; tests/test_explore.py
and the like run what the gate counts. What is tested: under_test.py."""
import sys

TOOLS = __file__.rpartition("/tests/")[0] + "/tools"
if TOOLS not in sys.path:
    sys.path.insert(1, TOOLS)
import python_needed

python_needed.check()
