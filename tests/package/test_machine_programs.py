"""Where the programs are found, the package's names, and its notebook."""
import contextlib
import doctest
import io
import os
import re
import runpy
from pathlib import Path
from unittest import mock
from xml.etree import ElementTree

import nezdrab
from nezdrab import Machine, NezdrabError, questions
from nezdrab.core import programs, sessions

from .machine_case import EXAMPLES, ROOT, Case, program

DOCUMENT = ROOT / "docs" / "USING.md"
NOTEBOOK = EXAMPLES / "notebook" / "lost-update.py"
PICTURE = EXAMPLES / "notebook" / "picture.py"


class Programs(Case):
    def beside(self, folder: Path) -> "mock._patch[Path]":
        return mock.patch.object(programs, "BESIDE", folder)

    def test_beside_the_package(self) -> None:
        (self.folder / "search").symlink_to(program())
        with self.beside(self.folder):
            self.assertEqual(programs.found_program("search"), str(self.folder / "search"))
            with Machine() as machine:
                self.assertEqual(machine.regs(0).pc, 0o1000)

    def test_in_a_clone(self) -> None:
        self.assertEqual(programs.clone(), ROOT)
        finder = self.folder / "tools" / "program"
        finder.parent.mkdir()
        finder.write_text("#!/bin/sh\n[ $1 = search ] && echo /the/$1\n")
        finder.chmod(0o755)
        self.assertEqual(programs.program_of_clone(self.folder, "search"), "/the/search")
        with self.assertRaisesRegex(NezdrabError, "there is no program disassemble"):
            programs.program_of_clone(self.folder, "disassemble")

    def test_without_a_clone(self) -> None:
        """They are on PATH by their own names, or there are none."""
        named = self.folder / "nezdrab-search"
        with mock.patch.object(programs, "HERE", Path("/usr/lib/nezdrab/core/programs.py")):
            self.assertIsNone(programs.clone())
            self.assertEqual(programs.own_command(), "nezdrab-explore")
            with mock.patch.dict(os.environ, PATH=str(self.folder)):
                with self.assertRaisesRegex(NezdrabError, "no nezdrab-search is on PATH"):
                    Machine()
                named.symlink_to(program())
                self.assertEqual(programs.found_program("search"), str(named))
                with Machine() as machine:
                    self.assertEqual(machine.regs(0).pc, 0o1000)

    def test_by_node(self) -> None:
        """What node runs is beside the package, and node on PATH."""
        beside, by_path = self.folder / "programs", self.folder / "path"
        search, node = beside / "tools" / "by-node" / "search", by_path / "node"
        for path in search, node:
            path.parent.mkdir(parents=True)
            path.write_text("#!/bin/sh\n")
        search.chmod(0o755)
        away = mock.patch.object(programs, "HERE", Path("/usr/lib/nezdrab/core/programs.py"))
        with away, self.beside(beside), mock.patch.dict(os.environ, PATH=str(by_path)):
            with self.assertRaisesRegex(NezdrabError, "is run by node, 16 or later"):
                programs.found_program("search")
            node.chmod(0o755)
            self.assertEqual(programs.found_program("search"), str(search))

    def test_own_command(self) -> None:
        self.assertEqual(programs.own_command(), "./explore")

    def test_names(self) -> None:
        for name in nezdrab.__all__:
            self.assertTrue(hasattr(nezdrab, name), name)
        self.assertEqual(sorted(nezdrab.__all__), sorted(nezdrab.PLACES))
        self.assertTrue(set(nezdrab.__all__) <= set(dir(nezdrab)))
        self.assertFalse(hasattr(nezdrab, "nothing"))

    def test_each_method_says_what_it_does(self) -> None:
        for name, method in vars(Machine).items():
            if callable(method) and not name.startswith("_"):
                self.assertTrue(method.__doc__, name)

    def test_each_line_that_asks_has_a_question(self) -> None:
        for line in [*sessions.LANGUAGE, *sessions.SEARCHES]:
            name = line.form.split()[0]
            if line.kind not in (sessions.EDIT, sessions.STEP):
                self.assertTrue(callable(getattr(questions, name, None)), line.form)
                self.assertTrue(callable(getattr(Machine, name, None)), line.form)

    def test_version(self) -> None:
        """That of the package is that of the newest release."""
        version = ".".join(str(int(it)) for it in nezdrab.__version__.split("-"))
        self.assertEqual(nezdrab.__version__, programs.release())
        self.assertIn(f'\nversion = "{version}"\n', (ROOT / "pyproject.toml").read_text())

    def test_document(self) -> None:
        """What docs/USING.md shows."""
        here, wrong = os.getcwd(), io.StringIO()
        os.chdir(ROOT)
        self.addCleanup(os.chdir, here)
        blocks = re.findall(r"^```python\n(.*?)^```", DOCUMENT.read_text(), re.M | re.S)
        tested = doctest.DocTestParser().get_doctest("\n".join(blocks), {}, "it", None, None)
        runner = doctest.DocTestRunner(verbose=False)
        with mock.patch("nezdrab.core.machine.found_program", lambda name: program()):
            failed, tried = runner.run(tested, out=wrong.write, clear_globs=False)
        tested.globs["m"].close()
        self.assertEqual((failed, tried > 5), (0, True), wrong.getvalue())

    def written_by(self, path: Path) -> str:
        written = io.StringIO()
        with mock.patch("nezdrab.core.machine.found_program", lambda name: program()):
            with contextlib.redirect_stdout(written):
                runpy.run_path(str(path))
        return written.getvalue()

    def test_picture(self) -> None:
        """That of USING is what is drawn now."""
        drawn = self.written_by(PICTURE)
        self.assertEqual(drawn, (ROOT / "docs" / "lost-update.svg").read_text())
        texts = [it.text for it in ElementTree.fromstring(drawn).iter() if it.tag.endswith("text")]
        self.assertLessEqual({"read", "write", "107 cpu", "key 101", "keyboard"}, set(texts))

    def test_notebook(self) -> None:
        self.assertEqual(
            self.written_by(NOTEBOOK), NOTEBOOK.with_suffix(".expected").read_text()
        )
        cells = [it for it in NOTEBOOK.read_text().splitlines() if it and not it.startswith("#")]
        self.assertLessEqual(len(cells), 30)
