"""The check of the checklists in docs/CHANGING.md (checks/checklists.py), on lists of its own."""
import unittest

from tests.checks.checklists import failures_of_checklists

FIRST, SECOND = "tests/checks/checklists.py", "tests/checks/docs.py"
# It finds both files.
GREP = "grep -rnw failures_of_checklists tests/checks"
HEAD = ["## Add a check", f"| folder | file | what, `{GREP}` |", "|---|---|---|"]


def failures(*lines: str, before: tuple[str, ...] = ()) -> list[str]:
    found = failures_of_checklists([*before, *HEAD, *lines])
    return [it for it in found if it is not None]


class Checklists(unittest.TestCase):
    """Each list is asked for both files that its grep finds."""

    def test_files_and_folders_are_named(self) -> None:
        self.assertEqual(failures("| tests | `checks/checklists.py`, `docs.py` | it |"), [])
        self.assertEqual(failures("| tests | `checks/` | it |"), [])

    def test_a_file_that_no_row_names_is_told(self) -> None:
        (told,) = failures("| tests | `checks/checklists.py` | it, in `docs.py` |")
        self.assertIn(f"no row names {SECOND}", told)
        (told,) = failures("| docs, pdp_word | `checks/` | of other folders |")[:1]
        self.assertIn(f"no row names {FIRST}, {SECOND}", told)

    def test_a_line_may_leave_files_out(self) -> None:
        row, left = "| tests | `checks/checklists.py` | it |", "`docs.py`, which runs it."
        self.assertEqual(failures(row, "", f"Left out: {left}"), [])
        every = ("Left out of every list: all that is", "in `checks/docs.py`.", "")
        self.assertEqual(failures(row, before=every), [])

    def test_what_a_row_names_has_to_exist(self) -> None:
        (told,) = failures("| tests | `checks/`, `checks/lists.py` | it |")
        self.assertIn("there is no checks/lists.py", told)

    def test_a_list_has_a_grep_that_finds_something(self) -> None:
        lost = [it.replace(GREP, "grep -rnw a_name_of_nothing docs/manual") for it in HEAD]
        told = [it for it in failures_of_checklists(lost) if it]
        self.assertEqual(len(told), 1)
        self.assertIn("it finds no file", told[0])
        told = [it for it in failures_of_checklists(["## Add a check", "nothing"]) if it]
        self.assertIn("no row has a grep", told[0])


if __name__ == "__main__":
    unittest.main()
