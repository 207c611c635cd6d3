"""Tests of the page's modules, which run in the browser: each is a function of units.js or of
another file of UNITS."""
import http.server
import re
import threading
from pathlib import Path
from typing import Any, Callable

from tests import counted

from .driven import BrowserError
from .page_case import ROOT, the_browser

UNITS = tuple(sorted(Path(__file__).parent.glob("*units.js")))
KINDS = {".js": "text/javascript", ".html": "text/html"}
PAGE = (
    '<!DOCTYPE html><meta charset="utf-8"><script type="module">'
    + "".join(f'import * as {it.stem} from "/{it.name}";' for it in UNITS)
    + "window.units = {"
    + ", ".join(f"...{it.stem}" for it in UNITS)
    + '}; document.documentElement.dataset.state = "ready";</script>'
).encode()


class Handler(http.server.BaseHTTPRequestHandler):
    """Gives the modules of the page, and their tests."""

    def do_GET(self) -> None:
        name = self.path.lstrip("/")
        units = {it.name: it for it in UNITS}
        path = units.get(name, ROOT / "web" / Path(name).name)
        body = PAGE if not name else path.read_bytes() if path.is_file() else None
        self.send_response(404 if body is None else 200)
        self.send_header("Content-Type", KINDS.get(path.suffix if name else ".html", "text/plain"))
        self.end_headers()
        self.wfile.write(body or b"")

    def log_message(self, *words: Any) -> None:
        pass


class Units(counted.InBrowser):
    server: http.server.ThreadingHTTPServer

    @classmethod
    def setUpClass(cls) -> None:
        browser = the_browser()
        cls.server = http.server.ThreadingHTTPServer(("127.0.0.1", 0), Handler)
        threading.Thread(target=cls.server.serve_forever, daemon=True).start()
        host, port = cls.server.server_address[:2]
        browser.open(f"http://{str(host)}:{port}/")

    @classmethod
    def tearDownClass(cls) -> None:
        cls.server.shutdown()
        cls.server.server_close()

    def page_says(self) -> str:
        return the_browser().says()


def unit(name: str) -> Callable[[Units], None]:
    def run(self: Units) -> None:
        try:
            the_browser().value(f"units.{name}()")
        except BrowserError as error:
            self.fail(str(error))

    return run


def names() -> tuple[str, ...]:
    texts = "".join(it.read_text() for it in UNITS)
    return tuple(re.findall(r"^export (?:async )?function (test_\w+)", texts, re.MULTILINE))


for _name in names():
    setattr(Units, _name, unit(_name))
