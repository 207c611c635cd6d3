"""The page's sources: sizes, forms that are safe, and colours that can be read."""
import math
import re
import unittest
from pathlib import Path

from .page_case import ROOT

WEB = ROOT / "web"
MOST_LINES, MOST_FUNCTION_LINES, WIDEST = 500, 40, 100
UNSAFE = re.compile(
    r"innerHTML|outerHTML\s*=|insertAdjacentHTML|document\.write|eval\(|new Function"
    r"|document\.cookie|indexedDB|XMLHttpRequest|WebSocket|sendBeacon|https?://"
)
FUNCTION = re.compile(r"( *)(?:export )?(?:async )?(?:static )?(?:function )?(\w+)\(.*\{$")
CLASS = re.compile(r"^(?:export )?class (\w+)(?: extends (\w+))? \{\n(.*?)^\}", re.M | re.S)
CONSTRUCTOR = re.compile(r"^  constructor\(.*?^  \}", re.M | re.S)
FIELD = re.compile(r"\bthis\.(\w+)(?= (?:[-+*/|&?]{0,2}|<<|>>)= | = )")
READ = ("ink", "faint", "counter", "cpu", "disk", "interrupt", "good", "bad", "accent", "ghost")
CONTRAST = 4.5


def modules() -> list[Path]:
    return sorted(WEB.glob("*.js"))


def functions_of(text: str) -> dict[str, int]:
    """How many lines each function and method has, by the line that begins it."""
    found: dict[str, int] = {}
    lines = text.splitlines()
    for at, line in enumerate(lines):
        begin = FUNCTION.match(line)
        if not begin or begin[2] in ("if", "for", "while", "switch", "catch"):
            continue
        end = next(it for it in range(at, len(lines)) if lines[it].startswith(f"{begin[1]}}}"))
        found[line.strip()] = end - at + 1
    return found


def fields_outside(text: str) -> dict[str, set[str]]:
    """The fields that each class sets and its constructor, or that of its base, doesn't."""
    begun: dict[str, set[str]] = {}
    found: dict[str, set[str]] = {}
    for name, base, body in CLASS.findall(text):
        constructor = CONSTRUCTOR.search(body)
        begun[name] = set(FIELD.findall(constructor[0])) if constructor else set()
        found[name] = set(FIELD.findall(body)) - begun[name]
    for name, base, _ in CLASS.findall(text):
        found[name] -= begun.get(base, set())
    return {name: fields for name, fields in found.items() if fields}


def luminance(colour: str) -> float:
    digits = colour[1:] if len(colour) == 7 else "".join(2 * it for it in colour[1:])
    parts = [int(digits[at : at + 2], 16) / 255 for at in (0, 2, 4)]
    linear = [it / 12.92 if it <= 0.03928 else math.pow((it + 0.055) / 1.055, 2.4) for it in parts]
    return 0.2126 * linear[0] + 0.7152 * linear[1] + 0.0722 * linear[2]


def contrast(one: str, other: str) -> float:
    light, dark = sorted(map(luminance, (one, other)), reverse=True)
    return (light + 0.05) / (dark + 0.05)


class Sources(unittest.TestCase):
    def test_files_and_functions_are_short(self) -> None:
        self.assertGreater(len(modules()), 10)
        for path in [*modules(), WEB / "index.html", WEB / "style.css"]:
            lines = path.read_text().splitlines()
            self.assertLessEqual(len(lines), MOST_LINES, path.name)
            wide = [it for it in lines if len(it) > WIDEST]
            self.assertEqual(wide, [], path.name)
        for path in modules():
            for name, length in functions_of(path.read_text()).items():
                self.assertLessEqual(length, MOST_FUNCTION_LINES, f"{path.name}: {name}")

    def test_fields_are_in_the_constructor(self) -> None:
        text = "".join(it.read_text() for it in modules())
        self.assertEqual(fields_outside(text), {})
        self.assertNotIn("Object.assign(this", text)
        methods = "  constructor() {\n    this.a = 1;\n  }\n  b() {\n    this.b = 2;\n  }\n"
        self.assertEqual(fields_outside(f"class A {{\n{methods}}}"), {"A": {"b"}})

    def test_no_unsafe_form(self) -> None:
        for path in [*modules(), WEB / "index.html"]:
            self.assertIsNone(UNSAFE.search(path.read_text()), path.name)
        keeping = [it.name for it in modules() if "sessionStorage" in it.read_text()]
        self.assertEqual(keeping, ["kept.js"])
        keeping = [it.name for it in modules() if "localStorage" in it.read_text()]
        self.assertEqual(keeping, ["stored.js"])

    def test_contrast(self) -> None:
        """WCAG AA: each colour of text on each ground on which it stands, in both looks."""
        style = (WEB / "style.css").read_text()
        looks = re.findall(r":root[^{]*\{([^}]*)\}", style)
        self.assertEqual(len(looks), 2)
        for look in looks:
            colours = dict(re.findall(r"--([\w-]+): (#[0-9a-f]+)", look))
            pairs = [(it, ground) for it in READ for ground in ("ground", "panel")]
            pairs += [("key", "key-ground"), ("ink", "insert"), ("ink", "delete")]
            pairs += [(f"outcome-{it}", "ground") for it in range(6)]
            for text, ground in pairs:
                found = contrast(colours[text], colours[ground])
                self.assertGreaterEqual(found, CONTRAST, f"{text} on {ground}")

    def test_the_picture_of_the_readme_is_small(self) -> None:
        text = (ROOT / "README.md").read_text()
        found = re.search(r"!\[[^\]]*\]\(([^)]*\.png)\)", text)
        assert found
        self.assertLess((ROOT / found[1]).stat().st_size, 150_000)

    def test_the_page_says_what_it_is(self) -> None:
        text = re.sub(r"\s+", " ", (WEB / "index.html").read_text())
        self.assertIn("aren't proved", text)
        self.assertIn("tested", text)
