"""The rooms of the package: core stands alone, and imports go downwards only."""
import os
import subprocess
import sys
from pathlib import Path

from tests.checks import rooms

from .machine_case import ROOT, Case

LOADED = "import sys\nfrom nezdrab import Machine\nprint(*sys.modules)\n"
# What takes long to read, and what few uses need.
LEFT_OUT = {"argparse", "inspect", "dataclasses", "tempfile", "concurrent.futures", "unittest"}


class Rooms(Case):
    def wrong(self, texts: dict[str, str]) -> list[str]:
        """What is said of a package of these modules."""
        package = self.folder / "nezdrab"
        for name, text in texts.items():
            path = package / f"{name}.py"
            path.parent.mkdir(parents=True, exist_ok=True)
            path.write_text(text)
        return [f"{path.stem}:{said}" for path, said in rooms.upward_imports(package)]

    def test_imports_go_downwards(self) -> None:
        self.assertEqual([*rooms.upward_imports(), *rooms.names_twice(rooms.PACKAGE)], [])
        self.assertEqual({*rooms.ROOMS}, self.rooms_there())

    def rooms_there(self) -> set[str]:
        package = ROOT / "src" / "nezdrab"
        found = {it.parent.name for it in package.glob("*/__init__.py")}
        return found | {it.stem for it in package.glob("[a-z]*.py")}

    def test_an_import_upwards(self) -> None:
        """Each form of one is found, also inside of a function."""
        above = "nezdrab.analysis.why"
        for text in (
            "from ..analysis.why import why",
            "from ..analysis import why",
            "from nezdrab.analysis.why import why",
            "import nezdrab.analysis.why",
            "def f():\n    from ..analysis import why",
        ):
            line = text.count("\n") + 1
            (said,) = self.wrong({"core/low": text, "analysis/why": "from ..core import low"})
            self.assertTrue(said.startswith(f"low:{line}: nezdrab.core.low imports {above}"), said)

    def test_rooms_by_their_height(self) -> None:
        self.assertEqual(
            self.wrong(
                {
                    "shell/prompt": "from ..dap import wire\nfrom .command_table import COMMANDS",
                    "dap/wire": "from ..shell.prompt import Prompt",
                    "main": "from .dap import wire",
                    "export/vcd": "from .. import main",
                }
            ),
            ["vcd:1: nezdrab.export.vcd imports nezdrab.main, which is of a room above"]
            + ["prompt:1: nezdrab.shell.prompt imports nezdrab.dap.wire, which is of a room above"],
        )

    def test_the_package_gives_names_of_core(self) -> None:
        text = "from .analysis.why import why"
        said = "1: nezdrab imports nezdrab.analysis.why.why, which is of a room above"
        self.assertEqual(self.wrong({"__init__": text}), [f"__init__:{said}"])

    def test_no_name_twice(self) -> None:
        self.wrong({"core/low": "", "analysis/why": "", "dap/low": ""})
        self.assertEqual(
            [(it.parent.name, said) for it, said in rooms.names_twice(self.folder / "nezdrab")],
            [("dap", "1: core/low.py has this name too")],
        )


class Loaded(Case):
    def test_a_machine_loads_core_alone(self) -> None:
        environment = {"PATH": os.defpath, "PYTHONPATH": str(ROOT / "src")}
        command = [sys.executable, "-S", "-B", "-c", LOADED]
        ran = subprocess.run(command, env=environment, capture_output=True, text=True)
        self.assertEqual(ran.stderr, "")
        modules = set(ran.stdout.split())
        ours = {it for it in modules if it.startswith("nezdrab.") and it != "nezdrab.core"}
        self.assertGreater(len(ours), 10)
        self.assertEqual({it for it in ours if not it.startswith("nezdrab.core.")}, set())
        self.assertEqual(LEFT_OUT & modules, set())
        files = {it.stem for it in (Path(ROOT) / "src/nezdrab/core").glob("*.py")}
        self.assertLessEqual({it.rpartition(".")[2] for it in ours}, files)
