"""How the page is packed into one file, and what is in it."""
import base64
import gzip
import json
import os
import random
import re
import subprocess
import tempfile
import unittest
from pathlib import Path
from typing import Any, Sequence

from nezdrab.export.page_file import EMPTY, PageSession, unpacked_bytes
from page import bundle

ROOT = Path(__file__).resolve().parents[2]
PAGE = """\
<!DOCTYPE html>
<html lang="en">
<head>
<meta charset="utf-8">
<link rel="stylesheet" href="style.css">
</head>
<body>
<script type="module" src="main.js"></script>
</body>
</html>
"""
MODULES = {
    "index.html": PAGE,
    "style.css": "body { margin: 0; }\n",
    "main.js": 'import { one as first, two } from "./low.js";\n'
    '/** import("./low.js") */\nfirst();\n',
    "low.js": 'import { two } from "./two.js";\n'
    "export async function one() {}\nexport class Two {}\n",
    "two.js": "export const two = 2;\n",
    "loader.js": 'import { two } from "./two.js";\nrun(two);\n',
    "machine-worker.js": 'import { two } from "./two.js";\nself.two = two;\n',
}
SESSION = PageSession(
    "a</script><b>", ["--disk", "a.disk"], ["# \xff<!--"], {"a.disk": b"\0\1" * 9}
)


class Case(unittest.TestCase):
    """A folder with a page and its modules."""

    def setUp(self) -> None:
        folder = tempfile.TemporaryDirectory()
        self.addCleanup(folder.cleanup)
        self.folder = Path(folder.name)
        self.write(MODULES)

    def write(self, texts: dict[str, str]) -> None:
        for name, text in texts.items():
            (self.folder / name).write_text(text)

    def packed(
        self, session: PageSession = EMPTY, examples: Sequence[bundle.Example] = ()
    ) -> str:
        return bundle.page(self.folder / "index.html", {"search": b"\0asm"}, session, examples)

    def element(self, text: str, name: str) -> str:
        start = rf'<script type="[a-z/]+" id="{re.escape(name)}">'
        found = re.search(f"{start}(.*?)</script>", text, re.S)
        assert found is not None
        return found[1]

    def script(self) -> str:
        """The page's script, which is packed in its page."""
        return bundle.module_bytes(self.element(self.packed(), "script")).decode()


class Packed(Case):
    """What is in the one file."""

    def test_modules_come_after_those_that_they_import(self) -> None:
        begun = re.compile(r'^modules\["([a-z.]+)"\] =', re.M)
        self.assertEqual(begun.findall(self.script()), ["two.js", "low.js", "main.js"])
        self.assertEqual(begun.findall(self.packed()), ["two.js", "two.js", "loader.js"])
        for it in "const { one: first, two } = modules", "return { one, Two };", "return { two };":
            self.assertIn(it, self.script())
        self.assertNotRegex(self.packed() + self.script(), r"(?m)^(import|export) ")

    def test_comments_alone_in_their_lines_are_left_out(self) -> None:
        """A comment that code follows or precedes stays, and the code between two does. The types
        of casts, blank lines and indents are left out too."""
        text = "/** two\n  * lines */\nexport const two = 2;\n\n/** a */ (/** @type {a} */ (two))\n"
        self.write({"two.js": f"{text}// a line\n\n  const it = two; // stays\n/* last */\n"})
        self.write({"style.css": "/* a line */\n\nb {\n  top: 0;\n}\n"})
        wanted = "const two = 2;\n/** a */ ((two))\nconst it = two; // stays\nreturn {"
        self.assertIn(wanted, self.script())
        self.assertNotIn("a line", self.packed() + self.script())
        self.assertIn("<style>\nb {\ntop: 0;\n}\n</style>", self.packed())

    def test_a_literal_of_several_lines_keeps_them(self) -> None:
        text = "// out\nexport const two = `\n\n  a`;\n"
        self.write({"two.js": text})
        self.assertIn("const two = `\n\n  a`;\nreturn {", self.script())
        self.assertNotIn("out", self.script())

    def test_the_same_bytes_each_time(self) -> None:
        self.assertEqual(self.packed(SESSION), self.packed(SESSION))

    def test_the_session_and_the_modules(self) -> None:
        text = self.packed(SESSION)
        session: Any = json.loads(self.element(text, "session"))
        inside = {it: unpacked_bytes(held) for it, held in session.pop("files").items()}
        self.assertEqual(inside, {"a.disk": b"\0\1" * 9})
        self.assertEqual(session["name"], SESSION.name)
        wanted = {"arguments": SESSION.arguments, "lines": SESSION.lines}
        self.assertEqual(session, {"name": SESSION.name, **wanted})
        self.assertEqual(bundle.module_bytes(self.element(text, "search.wasm")), b"\0asm")

    def test_the_text_of_a_module_has_no_tag(self) -> None:
        module = random.Random(85).randbytes(100_000)
        text = bundle.module_text(module)
        self.assertNotIn("<", text)
        self.assertEqual(bundle.module_bytes(text), module)

    def test_examples_are_packed_and_a_session_among_them_is_named(self) -> None:
        one, two = SESSION._replace(name="one"), SESSION._replace(name="two")
        examples = [bundle.Example("a", "One", one), bundle.Example("b", "Two", two)]
        text = self.packed(two, examples)
        self.assertEqual(json.loads(self.element(text, "session")), {"example": "b"})
        names = json.loads(self.element(text, "examples"))
        self.assertEqual(
            names, [{"key": "a", "title": "One"}, {"key": "b", "title": "Two"}]
        )
        held = json.loads(unpacked_bytes(self.element(text, "sessions")))
        self.assertEqual([it["name"] for it in held], ["one", "two"])
        other: Any = json.loads(self.element(self.packed(SESSION, examples), "session"))
        self.assertEqual((other["name"], other["lines"]), (SESSION.name, SESSION.lines))

    def test_the_policy_lets_run_what_is_packed_alone(self) -> None:
        text = self.packed(SESSION)
        policy = re.findall(r'Content-Security-Policy" content="([^"]*)"', text)
        self.assertEqual(len(policy), 1)
        self.assertTrue(policy[0].startswith("default-src 'none'; "))
        self.assertNotRegex(policy[0], r"'unsafe-|https?:|\*")
        self.assertEqual(policy[0].count("'wasm-unsafe-eval'"), 1)
        script = re.findall(r'<script type="module">(.*?)</script>', text, re.S)
        style = re.findall(r"<style>(.*?)</style>", text, re.S)
        self.assertEqual((len(script), policy[0].count("'sha256-")), (1, 3))
        for inside in *script, *style, self.script():
            self.assertIn(bundle.source_of(inside), policy[0])
        self.assertNotRegex(text, r'\b(src|href)="')

    def test_what_the_packing_does_not_know(self) -> None:
        for text in (
            'import two from "./two.js";\n',
            'import "./two.js";\n',
            'import { two } from "https://elsewhere/two.js";\n',
            "export default 1;\n",
            "export let two = 2;\n",
            'const two = await import("./two.js");\n',
            "const place = import.meta.url;\n",
            'const end = "</script>";\n',
            "first(); // <!--\n",
        ):
            with self.subTest(text), self.assertRaisesRegex(bundle.PackingError, "doesn't know"):
                self.write({"two.js": text})
                self.packed()

    def test_modules_that_import_each_other(self) -> None:
        self.write({"two.js": 'import { one } from "./low.js";\nexport const two = one;\n'})
        said = "import each other: main.js low.js two.js"
        with self.assertRaisesRegex(bundle.PackingError, said):
            self.packed()

    def test_a_page_that_its_policy_forbids(self) -> None:
        script = '<script type="module" src="main.js"></script>'
        for old, new in (
            (script, ""),
            (script, script + script),
            ("<body>", '<body style="margin: 0">'),
            ('<meta charset="utf-8">\n', ""),
        ):
            self.write({"index.html": PAGE.replace(old, new)})
            said = "a page has one line"
            with self.subTest(new), self.assertRaisesRegex(bundle.PackingError, said):
                self.packed()

    def test_a_file_that_is_missing(self) -> None:
        for name in "style.css", "two.js", "loader.js", "machine-worker.js", "index.html":
            (self.folder / name).rename(self.folder / "gone")
            said = f"{name}: No such file"
            with self.subTest(name), self.assertRaisesRegex(bundle.PackingError, said):
                self.packed()
            (self.folder / "gone").rename(self.folder / name)

    def test_what_is_no_packed_module(self) -> None:
        cut = base64.b64encode(gzip.compress(b"module")[:-4]).decode()
        for text in "%", "AAAA", cut:
            with self.subTest(text), self.assertRaises(ValueError):
                unpacked_bytes(text)
        for text in "]", "AAAA", bundle.module_text(b"module")[:-5]:
            with self.subTest(text), self.assertRaises(ValueError):
                bundle.module_bytes(text)


class ByTool(Case):
    """What `tools/web --pack` packs of web/. Its modules are no programs here."""

    def web(self, *words: str, status: int = 0) -> str:
        """Runs `tools/web` in the folder; returns what it says."""
        command = [str(ROOT / "tools" / "web"), "--pack", *words]
        ran = subprocess.run(command, cwd=self.folder, capture_output=True, text=True)
        self.assertEqual(ran.returncode, status, ran.stderr)
        return f"{ran.stdout}{ran.stderr}"

    def test_the_page_has_the_ledger(self) -> None:
        for name in "search", "disassemble":
            (self.folder / f"{name}.wasm").write_bytes(b"\0asm")
        self.assertEqual(self.web("--programs", ".", "page.html"), "page.html\n")
        text = (self.folder / "page.html").read_text()
        session = json.loads(self.element(text, "session"))
        self.assertEqual(session, {"example": "ledger"})
        session = json.loads(unpacked_bytes(self.element(text, "sessions")))[0]
        self.assertEqual(session["name"], "ledger.session")
        self.assertEqual(sorted(session["files"]), ["kernel.sym", "user.sym"])
        self.assertEqual(self.web("--programs", ".", "none/it.html", status=1).count("\n"), 1)
        self.web("--programs", ".", "--session", "none.session", "page.html", status=1)

    def test_a_module_that_is_missing(self) -> None:
        said = "web: search.wasm: No such file or directory; tools/web --make\n"
        self.assertEqual(self.web("--programs", ".", "page.html", status=1), said)


class ByExplore(Case):
    """The page that `explore web` writes: the packed one with another session."""

    def setUp(self) -> None:
        super().setUp()
        (self.folder / "one").mkdir()
        (self.folder / "two").mkdir()
        self.write({"one/my.disk": "abcd", "two/my.disk": "efgh", "kernel.sym": "MAIN 1000\n"})
        options = "#! --disk one/my.disk --disk1 two/my.disk --units 2\n"
        self.write({"my.session": f"{options}core 1000 5201\r\nregs 1\n"})

    def web(self, *words: str, status: int = 0) -> str:
        """Runs `explore web` in the folder; returns what it says."""
        command = [str(ROOT / "explore"), "web", "--no-open", *words]
        ran = subprocess.run(command, cwd=self.folder, capture_output=True, text=True)
        self.assertEqual(ran.returncode, status, ran.stderr)
        return f"{ran.stdout}{ran.stderr}"

    def session(self, name: str) -> Any:
        found = json.loads(self.element((self.folder / name).read_text(), "session"))
        found["files"] = {it: unpacked_bytes(held) for it, held in found["files"].items()}
        return found

    def test_a_session_with_its_options_files_and_symbols(self) -> None:
        self.assertEqual(self.web("my.session", "--units", "3"), "my.html\n")
        found = self.session("my.html")
        words = "--disk my.disk --disk1 disk1-my.disk --units 3"
        self.assertEqual(" ".join(found["arguments"]), words)
        self.assertEqual(found["lines"][1:], ["core 1000 5201", "regs 1"])
        wanted = {"my.disk": b"abcd", "disk1-my.disk": b"efgh", "kernel.sym": b"MAIN 1000\n"}
        self.assertEqual((found["name"], found["files"]), ("my.session", wanted))

    def test_no_session(self) -> None:
        self.assertEqual(self.web(), "nezdrab.html\n")
        wanted = {"name": "", "arguments": [], "lines": [], "files": {}}
        self.assertEqual(self.session("nezdrab.html"), wanted)
        packed = (ROOT / "release" / "nezdrab.html").read_text()
        for name in "examples", "sessions", "script", "search.wasm", "machine-worker.js":
            text = self.element((self.folder / "nezdrab.html").read_text(), name)
            self.assertEqual(text, self.element(packed, name))

    def test_the_browser_is_told_of_the_page(self) -> None:
        browser, said = self.folder / "browser", self.folder / "said"
        browser.write_text(f'#!/bin/sh\necho "$1" >{said}\n')
        browser.chmod(0o755)
        command = [str(ROOT / "explore"), "web", "my.session"]
        told = {**os.environ, "BROWSER": f"{browser} %s"}
        ran = subprocess.run(command, cwd=self.folder, env=told, capture_output=True, text=True)
        self.assertEqual((ran.returncode, ran.stdout, ran.stderr), (0, "my.html\n", ""))
        address = (self.folder / "my.html").resolve().as_uri()
        self.assertEqual(said.read_text(), f"{address}\n")

    def test_another_file_is_not_overwritten(self) -> None:
        self.web("my.session")
        self.web("my.session")
        self.write({"my.html": "another page"})
        self.assertIn("my.html is there already", self.web("my.session", status=1))
        self.assertEqual((self.folder / "my.html").read_text(), "another page")
        self.assertEqual(self.web("my.session", "--to", "your.html"), "your.html\n")

    def test_what_is_missing_is_named(self) -> None:
        self.assertIn("none.session: no such file", self.web("none.session", status=1))
        self.assertIn("none.disk: No such file", self.web("--disk", "none.disk", status=1))
        self.assertIn("can't be written", self.web("--to", "none/my.html", status=1))
