"""What the tests share: the browser, the page, and the program that it is compared with."""
import atexit
import json
import subprocess
import sys
import tempfile
import time
import unittest
from pathlib import Path
from typing import Optional

from tests import counted, under_test

from .browser import Browser, found_browser
from .driven import WAIT, Driven

ROOT = Path(__file__).resolve().parents[2]
LEDGER = ROOT / "examples" / "ledger"
SECONDS = 300
LOST, SAFE = "137", "145"
KEY = '[data-event="15"]'
TABS = ("machine", "memory", "ask", "past", "console")


class Shared:
    """The one browser, and the page."""

    browser: Optional[Browser] = None
    page = under_test.page()


def packed_page() -> str:
    """The address of the page; it is packed once."""
    if Shared.page is None:
        modules = under_test.modules()
        wanted = [modules / f"{it}.wasm" for it in ("search", "disassemble")]
        missing = [it.name for it in wanted if not it.exists()]
        if missing:
            raise unittest.SkipTest(f"{modules.name}/ has no {' and no '.join(missing)}")
        folder = tempfile.TemporaryDirectory()
        atexit.register(folder.cleanup)
        path = Path(folder.name) / "nezdrab.html"
        packer = [sys.executable, str(ROOT / "tools" / "web"), "--pack"]
        words = [*packer, "--programs", str(modules), str(path)]
        subprocess.run(words, check=True, capture_output=True, timeout=SECONDS)
        Shared.page = path.as_uri()
    return Shared.page


def the_browser() -> Browser:
    if Shared.browser is None:
        program = found_browser()
        if program is None:
            raise unittest.SkipTest("chromium isn't installed")
        Shared.browser = Browser(program)
        atexit.register(Shared.browser.close)
    return Shared.browser


def replies_of(lines: list[str], *words: str, folder: Optional[Path] = None) -> list[str]:
    """What the program answers to a session."""
    ended = subprocess.run(
        [under_test.program("search"), *words],
        input="".join(f"{it}\n" for it in lines),
        cwd=folder,
        capture_output=True,
        text=True,
        timeout=SECONDS,
        check=True,
    )
    return ended.stdout.splitlines()


def ledger_lines() -> list[str]:
    return (LEDGER / "ledger.session").read_text().splitlines()


class OnPage(counted.InBrowser):
    """What a test does with the page that is open in a browser."""

    browser: Driven

    def page_says(self) -> str:
        return self.browser.says()

    def wait_text(self, selector: str, part: str) -> str:
        """Looks at an element until its text has a part; returns the text."""
        self.browser.look_at(selector)
        name, wanted = json.dumps(selector), json.dumps(part)
        self.browser.wait(f"document.querySelector({name})?.textContent.includes({wanted})")
        return self.browser.text(selector)

    def open_tab(self, name: str) -> None:
        """Opens a tab of the dock, and waits until what it shows is known."""
        self.browser.click(f"#tab-{name}")
        self.wait_still()

    def wait_still(self) -> None:
        """Waits until the picture is drawn and nothing is under way."""
        self.browser.wait("document.documentElement.dataset.work === 'none'")

    def type_line(self, line: str) -> str:
        """Types a line and Enter; returns what the page says of it, and not of the same line
        before."""
        self.browser.value("document.querySelector('#reply').textContent = ''")
        self.fill("#line", line)
        self.browser.key("Enter")
        return self.wait_text("#reply", f"{line}: ")

    def fill(self, selector: str, text: str = "") -> None:
        """Puts the focus into a field, and types in it."""
        self.browser.look_at(selector)
        name = json.dumps(selector)
        self.browser.value(
            f"(() => {{ const it = document.querySelector({name}); it.value = ''; it.focus(); }})()"
        )
        self.browser.type(text)

    def follow_fragment(self, fragment: str) -> None:
        """Puts another fragment into the page's address, and waits until the page knows it."""
        self.browser.value(
            "new Promise(done => {"
            "addEventListener('hashchange', () => setTimeout(done, 0), {once: true});"
            f"location.hash = {json.dumps(fragment)}; }})"
        )

    def balance(self, wanted: str) -> None:
        self.wait_text("#balance", wanted)

    def turn(self) -> int:
        return int(self.browser.value("document.querySelector('#turns').ariaValueNow"))

    def give(self, *paths: Path) -> None:
        """Opens files by the dialog's input."""
        self.browser.value("document.querySelector('#reply').textContent = ''")
        self.browser.give_files("#files", [str(it) for it in paths])
        self.wait_text("#reply", "Opened: ")

    def edits(self) -> list[str]:
        found = self.browser.value(
            "[...document.querySelectorAll('#edits li')].map(it => it.textContent)"
        )
        return list(found)


class InChromium(OnPage):
    """Of that what Chromium alone is asked."""

    browser: Browser

    def saved_in(self, folder: Path, selector: str) -> Path:
        """The file that a button saves in a folder, which is empty."""
        self.browser.call(
            "Browser.setDownloadBehavior", behavior="allow", downloadPath=str(folder)
        )
        self.browser.click(selector)
        end = time.monotonic() + WAIT
        while time.monotonic() < end:
            found = [it for it in folder.iterdir() if it.suffix in (".session", ".html")]
            # a file is there before its bytes are
            if found and found[0].stat().st_size:
                return found[0]
            time.sleep(0.05)
        raise AssertionError("no file was saved")


class PageCase(InChromium):
    """A test with the page open at its first session, and drawn, and nothing that another test
    kept. It ends without an error in the console."""

    maxDiff = 4000
    fragment = ""
    address: str

    @classmethod
    def setUpClass(cls) -> None:
        cls.address = packed_page()
        cls.browser = the_browser()

    def setUp(self) -> None:
        self.browser.size(1280, 1000)
        self.browser.forget()
        self.browser.open(self.address + self.fragment)
        self.browser.wait("document.querySelector('#balance').textContent !== '..'")
        self.wait_still()

    def tearDown(self) -> None:
        self.assertEqual(self.browser.messages, [])

    def open_example(self, key: str) -> None:
        self.browser.value("document.querySelector('#reply').textContent = ''")
        self.browser.click("#examples-menu summary")
        self.browser.click(f"[data-example='{key}']")
        self.wait_text("#reply", "Opened: ")
        self.wait_still()

    def folder(self) -> Path:
        made = tempfile.TemporaryDirectory()
        self.addCleanup(made.cleanup)
        return Path(made.name)

    def saved(self, selector: str) -> Path:
        """The file that a button saves."""
        return self.saved_in(self.folder(), selector)


class OpenCase(PageCase):
    """A test whose page stays open for the next one of its class, unless it made edits."""

    turn_at_first: int
    is_open = False

    def setUp(self) -> None:
        if not type(self).is_open or self.edits():
            super().setUp()
            type(self).is_open = True
        self.fill("#turn", str(self.turn_at_first))
        self.browser.key("Enter")
        self.wait_still()

    @classmethod
    def tearDownClass(cls) -> None:
        cls.is_open = False
