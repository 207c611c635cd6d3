"""The check of the rules of docs/MACHINE.md (checks/rules.py), on trees of its own."""
import contextlib
import io
import tempfile
import unittest
from pathlib import Path
from typing import Iterator

from tests.checks import rules

MACHINE = """# The machine
## 1 Words
- 1.1 A word has 16 bits.
- 1.2 A byte has 8 bits, and
  a word two bytes.

| rule | what |
|---|---|
| 1.3 | a row |
"""
DEFINITION = """-- Words: this project's profile [P].

-- a word [1.1]; a byte
-- [1.2] [1.3]
abbrev pub word : Type
"""
SESSION = "# Words. [1.1] [1.2]\n# [1.3]\nregs 0\n"
BITS = "tests/sessions/rules/words/bits.transcript"
FILES = {
    "docs/MACHINE.md": MACHINE,
    "crates/a/specs/Word.antt": DEFINITION,
    BITS: SESSION,
}


class TestRules(unittest.TestCase):
    """Each test changes one file of a tree in which all is right."""

    def failures(self, **changed: str) -> list[str]:
        """What the check finds wrong, if the files with these last names have these texts."""
        with self.tree(changed) as root:
            return [line for fact in rules.facts(root) for line in fact]

    @contextlib.contextmanager
    def tree(self, changed: dict[str, str]) -> Iterator[Path]:
        with tempfile.TemporaryDirectory() as folder:
            for path, text in FILES.items():
                file = Path(folder, path)
                file.parent.mkdir(parents=True, exist_ok=True)
                file.write_text(changed.get(file.stem, text), "utf-8")
            yield Path(folder)

    def test_a_tree_in_which_all_is_right(self) -> None:
        self.assertEqual(self.failures(), [])

    def test_a_rule_needs_a_definition_and_a_session(self) -> None:
        (told,) = self.failures(Word=DEFINITION.replace(" [1.3]", ""))
        self.assertEqual(told, "docs/MACHINE.md:9: rule 1.3: no definition has it")
        (told,) = self.failures(bits=SESSION.replace(" [1.2]", ""))
        self.assertEqual(told, "docs/MACHINE.md:4: rule 1.2: no session shows it")

    def test_a_number_below_the_head_of_a_session_shows_nothing(self) -> None:
        (told,) = self.failures(bits="# Words. [1.1] [1.2]\nregs 0\n# [1.3]\n")
        self.assertIn("rule 1.3: no session shows it", told)

    def test_a_number_in_code_states_nothing(self) -> None:
        code = DEFINITION.replace(" [1.3]", "") + "word = [1.3]\n"
        self.assertIn("rule 1.3: no definition has it", self.failures(Word=code)[0])

    def test_a_rule_may_be_shown_by_others(self) -> None:
        by = MACHINE.replace("a row |", "a row (shown by 1.1, 1.2) |")
        lost = DEFINITION.replace(" [1.3]", "")
        self.assertEqual(self.failures(MACHINE=by, Word=lost), [])
        (told,) = self.failures(MACHINE=by.replace("1.1, 1.2)", "1.1, 1.4)"))
        self.assertIn("rule 1.3: it is shown by 1.4: there is no such rule", told)
        told = self.failures(MACHINE=by, bits=SESSION.replace(" [1.2]", ""))[-1]
        self.assertIn("rule 1.3: it is shown by 1.2: no session shows it", told)

    def test_numbers_are_one_to_n(self) -> None:
        told = self.failures(MACHINE=MACHINE.replace("1.2 A", "1.4 A"))
        self.assertIn("docs/MACHINE.md: rule 1.2 is lacking", told)
        told = self.failures(MACHINE=MACHINE.replace("1.2 A", "1.3 A"))
        self.assertIn("docs/MACHINE.md: rule 1.3 is given twice", told)

    def test_a_number_in_brackets_is_a_rule(self) -> None:
        (told,) = self.failures(bits=SESSION + "# [2.1]\n")
        self.assertEqual(told, f"{BITS}:4: [2.1] is no rule of docs/MACHINE.md")

    def test_where_the_mark_of_the_profile_stands(self) -> None:
        (told,) = self.failures(Word=DEFINITION + "\nword = 0 [P]\n")
        self.assertIn("Word.antt: [P] stands outside the comments of definitions", told)

    def shown(self, number: str) -> tuple[int, str, str]:
        """What `check rules NUMBER` ends with and writes."""
        out, wrong = io.StringIO(), io.StringIO()
        with self.tree({}) as root, contextlib.redirect_stdout(out):
            with contextlib.redirect_stderr(wrong):
                status = rules.show(root, number)
        return status, out.getvalue(), wrong.getvalue()

    def test_a_rule_is_shown_with_its_places(self) -> None:
        lines = [
            "docs/MACHINE.md:4",
            "- 1.2 A byte has 8 bits, and",
            "  a word two bytes.",
            "crates/a/specs/Word.antt:3: word",
            BITS,
        ]
        self.assertEqual(self.shown("1.2"), (0, "\n".join(lines) + "\n", ""))

    def test_a_row_is_shown_with_the_first_one_of_its_table(self) -> None:
        told = self.shown("1.3")[1].splitlines()
        self.assertEqual(told[:3], ["docs/MACHINE.md:9", "| rule | what |", "| 1.3 | a row |"])

    def test_what_is_no_rule_is_told(self) -> None:
        for number in ("1.4", "", "[", "1.2.3"):
            said = f"check: docs/MACHINE.md has no rule {number}\n"
            self.assertEqual(self.shown(number), (2, "", said))


class TestComments(unittest.TestCase):
    """Which comments may have [P]: those of definitions, and docstrings of what is public."""

    def wrong(self, text: str) -> list[str]:
        return list(rules.wrong_profile("crates/a/src/a.rt", text))

    def test_public_docstrings_may_have_it(self) -> None:
        for item in ("pub fn a()", "Status1,", "Page(Space),", "pub a: bool,", "pub enum A {"):
            with self.subTest(item):
                self.assertEqual(self.wrong(f"/// It [P].\n#[inline]\n{item}\n"), [])
        self.assertEqual(self.wrong("//! It [P].\n\nuse a;\n"), [])

    def test_comments_of_what_is_private_may_not(self) -> None:
        for item in ("pub(crate) fn a()", "fn a()", "const A: u8 = 0;", "struct A;"):
            with self.subTest(item):
                (told,) = self.wrong(f"\n/// It [P].\n#[inline]\n{item}\n")
                self.assertIn("crates/a/src/a.rt:2: [P] in a comment of what", told)
        self.assertEqual(len(self.wrong("// It [P].\npub fn a()\n")), 1)
        self.assertEqual(len(self.wrong("let a = 0; // It [P].\n")), 1)

    def test_proofs_have_none(self) -> None:
        told = list(rules.wrong_profile("crates/a/proofs/A.antt", "-- It [P].\npub a : A\n"))
        self.assertEqual(len(told), 1)


if __name__ == "__main__":
    unittest.main()
