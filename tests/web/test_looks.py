"""How the page looks: wide and narrow, light and dark, with names for those who don't see it."""
import json
import struct
import zlib
from typing import Any

from tests import under_test

from .page_case import KEY, SAFE, TABS, PageCase

SIZES = ((1280, 900), (400, 800))
# What the page shows for moments, or changes while the user does something else.
WORKS = (None, "0 of 1 edits", "999999999 of 1000000000 turns")
VERDICTS = (
    "",
    "\u2713 nothing is lost: the rest came later",
    "\u2717 a deposit of 6 is lost; it should be 145; move it right",
)
# Where the button that stops the work is, and the timeline, whatever of these is shown.
PLACES = """((works, verdicts) => {
  const found = it => document.querySelector(it);
  const places = works.flatMap(work => verdicts.map(verdict => {
    found('#work').hidden = work === null;
    found('#work-text').textContent = work ?? '';
    found('#verdict').textContent = verdict;
    return ['#stop', '#timeline'].map(it => {
      const {x, y} = found(it).getBoundingClientRect();
      return `${it} at ${x} ${y + scrollY}`;
    }).join(', ');
  }));
  return [...new Set(places)];
})"""


def pixels_of(png: bytes) -> tuple[int, int, list[bytes]]:
    """Width, height and the rows of a PNG of eight bits for each of three or four colours."""
    width, height, depth, kind = struct.unpack(">IIBB", png[16:26])
    assert depth == 8 and kind in (2, 6), (depth, kind)
    size, at, packed = 3 if kind == 2 else 4, 8, b""
    while at < len(png):
        length, name = struct.unpack(">I4s", png[at : at + 8])
        packed += png[at + 8 : at + 8 + length] if name == b"IDAT" else b""
        at += 12 + length
    raw = zlib.decompress(packed)
    stride = width * size
    return width, height, [raw[it + 1 : it + 1 + stride] for it in range(0, len(raw), stride + 1)]


class Tour(PageCase):
    """Screenshots, which whoever changes the page looks at: --shots FOLDER keeps them."""

    def shot(self, name: str) -> None:
        self.wait_still()
        png = self.browser.screenshot()
        folder = under_test.shots()
        if folder is not None:
            folder.mkdir(parents=True, exist_ok=True)
            (folder / f"{name}.png").write_bytes(png)
        _, height, rows = pixels_of(png)
        differing = sum(it != rows[0] for it in rows)
        self.assertGreater(differing, height // 2, f"{name} is nearly empty")

    def test_the_tour(self) -> None:
        for width, height in SIZES:
            for look in ("light", "dark"):
                with self.subTest(width=width, look=look):
                    self.tour(width, height, look)

    def tour(self, width: int, height: int, look: str) -> None:
        self.browser.size(width, height, look == "dark")
        self.browser.open(self.address)
        name = f"{look}-{width}"
        self.shot(f"{name}-first")
        self.browser.drag(KEY, width / 12)
        self.balance(SAFE)
        self.browser.value("scrollTo(0, 0)")
        self.shot(f"{name}-dragged")
        self.browser.click("#next button")
        self.wait_text("#reasons", "Made of events")
        self.shot(f"{name}-asked")
        for tab in TABS:
            self.open_tab(tab)
            self.shot(f"{name}-{tab}")
        self.browser.value("scrollTo(0, 0)")
        self.browser.value("document.querySelector('[data-key=\"0\"]').click()")
        self.wait_text("#sampled", "the first of each")
        self.shot(f"{name}-whole")

    def test_the_picture_of_the_readme(self) -> None:
        """With `--only picture_of_the_readme --shots docs` it takes docs/page.png anew."""
        self.browser.call("Emulation.setScrollbarsHidden", hidden=True)
        self.addCleanup(self.browser.call, "Emulation.setScrollbarsHidden", hidden=False)
        self.browser.size(1180, 824)
        self.browser.open(self.address)
        self.browser.drag(KEY, 100)
        self.balance(SAFE)
        self.wait_text("#difference", "Drive 0")
        self.browser.wait("document.querySelector('#work').hidden")
        self.browser.mouse("mouseMoved", 5, 5)
        self.browser.value("document.activeElement.blur(); scrollTo(0, 0)")
        self.shot("page")

    def test_nothing_is_wider_than_the_page(self) -> None:
        for width in (400, 1280):
            self.browser.size(width, 800)
            self.wait_still()
            wide, seen = self.browser.value(
                "(it => [it.scrollWidth, it.clientWidth])(document.documentElement)"
            )
            self.assertLessEqual(wide, seen)

    def test_the_legend_is_one_line(self) -> None:
        for width in (400, 1280):
            self.browser.size(width, 800)
            tops = self.browser.value(
                "[...document.querySelectorAll('.sign')].map(it => it.getBoundingClientRect().top)"
            )
            self.assertEqual(len(tops), 3)
            self.assertEqual(len(set(tops)), 1, width)

    def test_nothing_scrolls_for_a_few_pixels(self) -> None:
        """At a wide page, and at a narrow one; a table that is far too wide may."""
        self.type_line("alter 15 127165 key 66")
        self.wait_text("#difference", "Drive 0")
        for width in (400, 1280):
            self.browser.size(width, 800)
            for tab in TABS:
                self.open_tab(tab)
                wide = self.browser.value(
                    "[...document.querySelectorAll('.scroll, pre, main section')]"
                    ".map(it => [it.parentElement.id, it.scrollWidth - it.clientWidth])"
                    ".filter(([_, by]) => by > 0 && by < 60)"
                )
                self.assertEqual(wide, [], (width, tab))

    def test_what_comes_and_goes_moves_nothing(self) -> None:
        """The user may be about to press it."""
        asked = f"{PLACES}({json.dumps(WORKS)}, {json.dumps(VERDICTS)})"
        name = "document.querySelector('#session-name').textContent"
        for text in ("a.session", "a session of an afternoon with many visitors.session"):
            self.browser.value(f"{name} = {text!r}")
            for width in (320, 400, 560, 700, 960, 1280):
                self.browser.size(width, 800)
                self.assertEqual(len(self.browser.value(asked)), 1, (text, width))

    def test_the_look_is_chosen(self) -> None:
        ground = "getComputedStyle(document.body).backgroundColor"
        light = self.browser.value(ground)
        self.browser.value(
            "(() => { const it = document.querySelector('#look'); it.value = 'dark';"
            "it.dispatchEvent(new Event('change')); })()"
        )
        self.assertNotEqual(self.browser.value(ground), light)
        self.browser.size(1280, 900, is_dark=True)
        self.browser.open(self.address)
        self.assertNotEqual(self.browser.value(ground), light)


class Names(PageCase):
    ROLES = {"button", "textbox", "combobox", "slider", "link", "checkbox", "spinbutton"}

    def controls(self) -> list[tuple[str, str, bool]]:
        """Of each control its role, its name, and whether it is in a table."""
        nodes = self.browser.call("Accessibility.getFullAXTree")["nodes"]
        by_number = {it["nodeId"]: it for it in nodes}

        def role(node: dict[str, Any]) -> str:
            return str(node.get("role", {}).get("value"))

        def is_in_table(node: dict[str, Any]) -> bool:
            parent = by_number.get(node.get("parentId", ""))
            return parent is not None and (role(parent) == "table" or is_in_table(parent))

        return [
            (role(it), str(it.get("name", {}).get("value", "")), is_in_table(it))
            for it in nodes
            if role(it) in self.ROLES
        ]

    def test_each_control_has_a_name_of_its_own(self) -> None:
        self.wait_still()
        self.browser.value("document.querySelector('#turn').value = '1000000000'")
        self.browser.value("document.querySelector('#turn-form').requestSubmit()")
        self.browser.wait("!document.querySelector('#work').hidden")
        for tab in TABS:
            self.browser.click(f"#tab-{tab}")
            controls = self.controls()
            names = [it[1] for it in controls]
            self.assertGreater(len(names), 20)
            self.assertNotIn("", names)
            self.assertIn("Turn of the run", names)
            outside = [it[:2] for it in controls if not it[2]]
            self.assertEqual([it for it in outside if outside.count(it) > 1], [], tab)
            self.assertEqual([it for it in names if "\u2715" in it or it == "Stop"], [], tab)
        self.browser.click("#stop")

    def test_targets_are_large(self) -> None:
        """24 pixels each way, as WCAG 2.5.8 has it."""
        kinds = "button, input, select, summary, [role], [tabindex='0']"
        self.type_line("alter 15 127165 key 66")
        self.wait_text("#difference", "Drive 0")
        for width in (400, 1280):
            self.browser.size(width, 800)
            for tab in TABS:
                self.open_tab(tab)
                small = self.browser.value(
                    f"[...document.querySelectorAll(\"{kinds}\")].filter(it => it.tabIndex >= 0)"
                    ".map(it => [it.outerHTML, it.getBoundingClientRect()])"
                    ".filter(([_, box]) => box.width && (box.width < 24 || box.height < 24))"
                    ".map(it => it[0])"
                )
                self.assertEqual(small, [], tab)

    def test_events_are_told(self) -> None:
        label = self.browser.value(f"document.querySelector('{KEY}').ariaLabel")
        self.assertEqual(label, "Event 15, key 66 '6', turn 126967")

    def test_the_cursor_is_told(self) -> None:
        text = "document.querySelector('#turns').ariaValueText"
        self.assertEqual(self.browser.value(text), "before turn 126967")
