"""What stands in a page that explore wrote."""
import json
import re
from pathlib import Path

from nezdrab.export.page_file import PageSession, unpacked_bytes

HELD = re.compile(r'<script type="application/json" id="session">(.*?)</script>', re.S)


def held_in(path: Path) -> PageSession:
    """The session in a page, which is its only one."""
    (text,) = HELD.findall(path.read_text(encoding="utf-8"))
    found = json.loads(text)
    found["files"] = {name: unpacked_bytes(it) for name, it in found["files"].items()}
    return PageSession(**found)
