"""A program in a worker of a page, asked by web/machine.js in chromium and Firefox. A run, of
web/run.js, has the edits that its machine takes up again."""
import json
import shutil
import tempfile
import unittest
from pathlib import Path
from typing import Any

from nezdrab.export.page_file import PageSession
from page import bundle
from tests import stored_sessions as sessions, under_test
from tests.web import timing
from tests.web.browser import Browser, found_browser
from tests.web.firefox import Firefox, found_firefox
from webassembly import files

ROOT = files.ROOT
PAGE = """\
<!DOCTYPE html>
<html lang="en">
<head>
<meta charset="utf-8">
<title>a test</title>
</head>
<body>
<script type="module" src="test.js"></script>
</body>
</html>
"""
SCRIPT = """\
import { Ended, Machine, Stopped } from "./machine.js";
import { packedSession, pageWith } from "./packed.js";
import { Run } from "./run.js";

const why = error =>
  [error instanceof Stopped ? "Stopped" : "", error.status ?? null, error.message];
const tried = (machine, lines) => machine.ask(lines).catch(why);
const sent = (run, lines) => run.send(lines).catch(why);
const newRun = () => new Run({ arguments: [], files: {} });
Object.assign(self, { Ended, Machine, Stopped, newRun, packedSession, pageWith, sent, tried });
document.documentElement.dataset.state = "ready";
"""
# INC R1; BR .-2
LOOP = ["core 1000 5201", "core 1002 776"]
LONG = "regs 900000000"
# A module whose program_main is `unreachable`, with a memory of one page.
FAILING = bytes.fromhex(
    "0061736d 01000000 01 05 01 60 00 01 7f 03 02 01 00 05 03 01 00 01 06 07 01 7f 00 41 80 08 0b"
    "07 27 03" + "06" + b"memory".hex() + "0200" + "0b" + b"__heap_base".hex() + "0300"
    "0c" + b"program_main".hex() + "0000" + "0a 05 01 03 00 00 0b"
)  # fmt: skip


def write_page(folder: Path) -> str:
    """Writes a page that has the modules, and nothing else; returns its address. The test is
    skipped without modules of these sources."""
    names = ("search", "disassemble")
    modules = under_test.modules()
    if not all((modules / f"{it}.wasm").exists() for it in names):
        raise unittest.SkipTest("the modules aren't made")
    if modules == files.RELEASE and not all(map(files.is_current, names)):
        raise unittest.SkipTest("the modules are older than the sources")
    programs = {it: (modules / f"{it}.wasm").read_bytes() for it in names}
    programs["failing"] = FAILING
    for module in (ROOT / "web").glob("*.js"):
        shutil.copy(module, folder)
    (folder / "index.html").write_text(PAGE)
    (folder / "test.js").write_text(SCRIPT)
    held = {"a.disk": b"ab" * 99}
    session = PageSession("one.session", ["--units", "2"], ["regs 0"], held)
    page = folder / "page.html"
    page.write_text(bundle.page(folder / "index.html", programs, session))
    return page.as_uri()


class InFirefox(unittest.TestCase):
    """That a page and its worker run in Firefox too."""

    def test_a_page_from_a_disk(self) -> None:
        program = found_firefox()
        if program is None:
            raise unittest.SkipTest("firefox isn't installed")
        folder = tempfile.TemporaryDirectory()
        self.addCleanup(folder.cleanup)
        address = write_page(Path(folder.name))
        browser = Firefox(program)
        self.addCleanup(browser.close)
        browser.open(address)
        lines = json.dumps([*LOOP, "at 5 key 101", "regs 4"])
        browser.value("self.it = newRun(), null")
        replies = browser.value(f"sent(it, {lines})")
        self.assertEqual(replies[:3], ["ok", "ok", "event 1"])
        self.assertRegex(replies[3], "^R0 000000 R1 000002 .* run$")
        stopped = browser.value(
            f"(async () => {{ const asked = sent(it, ['{LONG}']);"
            "await new Promise(resolve => setTimeout(resolve, 300));"
            "it.stop(); return [(await asked)[0], ...await sent(it, ['mem 0 1000 2', 'drop 1'])];"
            "})()"
        )
        self.assertEqual(stopped, ["Stopped", "mem 005201 000776", "ok"])
        asked = "tried(new Machine({program: 'disassemble'}), ['1000 012700 5 0'])"
        self.assertEqual(browser.value(asked), ["2 MOV #5,R0\n"])
        self.assertEqual(browser.said(), [])


class Machines(unittest.TestCase):
    """What a page's machine gives, in chromium."""

    browser: Browser
    folder: "tempfile.TemporaryDirectory[str]"
    address: str

    @classmethod
    def setUpClass(cls) -> None:
        program = found_browser()
        if program is None:
            raise unittest.SkipTest("chromium isn't installed")
        cls.folder = tempfile.TemporaryDirectory()
        cls.addClassCleanup(cls.folder.cleanup)
        cls.address = write_page(Path(cls.folder.name))
        cls.browser = Browser(program)
        cls.addClassCleanup(cls.browser.close)

    def setUp(self) -> None:
        self.browser.open(self.address)

    def tearDown(self) -> None:
        self.assertEqual(self.browser.messages, [])
        self.assertEqual([it for it in self.browser.requests if it.startswith("http")], [])

    def value(self, body: str) -> Any:
        """What an async function with this body returns."""
        return self.browser.value(f"(async () => {{ {body} }})()")

    def begin(self, options: str = "") -> None:
        self.browser.value(f"self.it = new Machine({options}); null")

    def ask(self, *lines: str) -> list[Any]:
        found = self.value(f"return tried(it, {json.dumps(lines)})")
        assert isinstance(found, list)
        return found

    def begin_run(self) -> None:
        self.browser.value("self.it = newRun(); null")

    def send(self, *lines: str) -> list[Any]:
        """What the machine of a run replies at once, without line feeds at the ends."""
        return list(self.value(f"return sent(it, {json.dumps(lines)})"))

    def edits(self) -> list[str]:
        return list(self.value("return it.ledger.lines"))

    def test_each_line_has_its_reply(self) -> None:
        self.begin()
        lines = "# a comment", "", "at 2 key 101", "regs 4", "trail 2 2", "nothing"
        replies = self.ask(*LOOP, *lines)
        self.assertEqual(replies[:5], ["ok\n", "ok\n", "", "", "event 1\n"])
        self.assertRegex(replies[5], "^R0 000000 R1 000002 .* PC 001000 .* run\n$")
        self.assertEqual(replies[6], "trail 2\n0 001000 instr\n1 001002 instr\n")
        self.assertEqual(replies[7], "refused 10 BadLine\n")
        self.assertEqual(self.ask(), [])
        self.assertEqual(self.ask("a" * 9999), ["refused 11 LineTooLong\n"])
        self.assertEqual(self.ask("\u010a\u2028\u00e9"), ["refused 10 BadLine\n"])

    def test_a_run_holds_the_edits_that_were_taken(self) -> None:
        self.begin_run()
        lines = "at 2 key 101", "# a comment", "at 3 key 102", "undo", "nothing", "core 1 1"
        replies = self.send(*LOOP, *lines)
        refused = ["refused 10 BadLine", "refused 3 OddAddress"]
        self.assertEqual(replies, ["ok", "ok", "event 1", "", "event 2", "ok", *refused])
        self.assertEqual(self.edits(), [*LOOP, "at 2 key 101"])

    def test_the_stored_sessions(self) -> None:
        rules = sessions.sessions_of(str(ROOT / sessions.RULES))
        stored = filter(sessions.is_of_both, rules)
        found = [it for it in stored if not it.args]
        self.assertGreater(len(found), 80)
        for it in found:
            lines = it.lines.decode("latin-1").removesuffix("\n").split("\n")
            if not it.lines.endswith(b"\n"):
                continue  # here every line has its line feed
            self.begin()
            with self.subTest(it.name):
                self.assertEqual("".join(self.ask(*lines)), it.expected.output.decode("latin-1"))
            self.value("it.close()")

    def test_a_stopped_question(self) -> None:
        self.begin_run()
        self.send(*LOOP, "at 5 key 101", "at 6 key 102", "drop 1")
        stopped = self.value(
            f"const asked = sent(it, ['at 7 key 103', '{LONG}']);"
            "const next = sent(it, ['regs 1']);"
            "await new Promise(resolve => setTimeout(resolve, 300));"
            "it.stop(); return [await asked, await next];"
        )
        self.assertEqual([it[0] for it in stopped], ["Stopped", "Stopped"])
        self.assertEqual(self.edits(), [*LOOP, "at 5 key 101", "at 6 key 102", "drop 1"])
        replies = self.send("alter 2 9 key 104", "drop 1", "at 8 key 105", "mem 0 1000 2")
        wanted = ["ok", "refused 5 NoSuchEvent", "event 3", "mem 005201 000776"]
        self.assertEqual(replies, wanted)

    def test_stopped_more_than_once(self) -> None:
        self.begin_run()
        self.send(*LOOP)
        self.value("it.stop(); it.stop(); it.stop();")
        self.assertEqual(self.send("mem 0 1000 1"), ["mem 005201"])
        self.value("it.end(); it.end();")
        self.assertEqual(self.send("regs 1")[0], "Stopped")

    def test_the_page_is_never_blocked(self) -> None:
        """No task of the page takes long, by the processor's time."""
        self.begin()
        self.ask(*LOOP)

        def act() -> None:
            self.ask("regs 30000000")

        self.assertLess(self.browser.longest_task(act), timing.long_task(self.browser))

    def test_a_program_that_ends(self) -> None:
        for words, status, text in (
            ('["--units", "257"]', 5, "refused 15 BadSetup"),
            ('["--disk", "none.disk"]', 3, "input or output"),
            ('["--nothing"]', 2, "bad arguments"),
        ):
            self.begin(f"{{arguments: {words}}}")
            self.assertEqual(self.ask("regs 1"), ["", status, f"search: {text}"])
            self.assertEqual(self.ask("regs 1"), ["", status, f"search: {text}"])

    def test_a_module_that_fails(self) -> None:
        self.begin('{program: "failing"}')
        stopped, status, text = self.ask("regs 1")
        self.assertEqual((stopped, status), ("", None))
        self.assertIn("the module failed: RuntimeError: unreachable", text)

    def test_files(self) -> None:
        files_of_it = '{"b.disk": Uint8Array.of(1, 2, 3, 4)}'
        self.begin(f'{{arguments: ["--disk", "b.disk"], files: {files_of_it}}}')
        self.assertEqual(self.ask("dsk 0 0 3"), ["dsk 001001 002003 000000\n"])

    def test_the_disassembler(self) -> None:
        self.begin('{program: "disassemble"}')
        replies = self.ask("1000 012700 000005 0", "1004 005201 0 0")
        self.assertEqual(replies, ["2 MOV #5,R0\n", "1 INC R1\n"])
        self.assertEqual(self.ask("1000 000000 0 0"), ["1 HALT\n"])

    def test_a_saved_page(self) -> None:
        found = self.value(
            "const {files, ...session} = await packedSession();"
            "return [session, files['a.disk'].length]"
        )
        wanted = {"name": "one.session", "arguments": ["--units", "2"], "lines": ["regs 0"]}
        self.assertEqual(found, [wanted, 198])
        again = (
            "{name: '</script>', arguments: [], lines: ['\\u00ff<!--'],"
            " files: {b: Uint8Array.of(7)}}"
        )
        path = Path(self.folder.name) / "saved.html"
        path.write_text(self.value(f"return pageWith({again})"), encoding="utf-8")
        self.browser.open(path.as_uri())
        self.assertEqual(
            self.value(
                "const it = await packedSession(); return [it.name, it.lines, [...it.files.b]]"
            ),
            ["</script>", ["\u00ff<!--"], [7]],
        )
        self.begin()
        self.assertEqual(self.ask("mem 0 0 1"), ["mem 000000\n"])
