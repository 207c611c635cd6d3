"""The panel that shows any memory: each word beside the program's, and what a search finds."""
from typing import Optional

from .page_case import OpenCase, ledger_lines, replies_of

PAST = ledger_lines()[:-2]
CURSOR = 126_967


def reply(line: str) -> str:
    return "\n".join(replies_of([*PAST, line])[len(PAST) - len(comments()) :])


def comments() -> list[str]:
    """The lines of the ledger that have no reply."""
    return [it for it in PAST if it.startswith("#") or not it.strip()]


class Inspect(OpenCase):
    turn_at_first = CURSOR

    def set_fields(self, **values: str) -> None:
        for name, value in values.items():
            self.browser.value(f"document.querySelector('#inspect-{name}').value = {value!r}")

    def show(self, said: Optional[str] = None, **values: str) -> list[list[str]]:
        """The rows that are shown after the form was sent."""
        self.set_fields(**values)
        self.browser.value("document.querySelector('#inspected').replaceChildren()")
        self.browser.value("document.querySelector('#inspect-form').requestSubmit()")
        if said is not None:
            self.wait_text("#inspect-said", said)
        else:
            self.browser.wait("document.querySelector('#inspected').childElementCount")
        self.wait_still()
        return self.rows()

    def rows(self) -> list[list[str]]:
        found = self.browser.value(
            "[...document.querySelectorAll('#inspected tbody tr')].map(it =>"
            "[...it.cells].map(cell => cell.textContent.trim()))"
        )
        return [list(it) for it in found]

    def words(self, rows: list[list[str]]) -> list[str]:
        return [word for row in rows for word in row[1].split()]

    def test_words_are_those_of_the_program(self) -> None:
        for space, line in (
            ("core", f"mem {CURSOR} 0 256"),
            ("kernel", f"virtual {CURSOR} kernel 0 256"),
            ("user", f"virtual {CURSOR} user 0 256"),
            ("disk", f"dsk {CURSOR} 0 256"),
        ):
            first = self.show(space=space, **{"from": "0"}, count="512", **{"as": "octal"})
            found = self.words(first)
            self.assertEqual(len(found), 512)
            self.assertEqual(found[:256], reply(line).split()[1:], space)
            self.assertEqual(first[1][0].lstrip("0"), "4" if space == "disk" else "10")

    def test_pages_follow_one_another(self) -> None:
        self.show(space="core", **{"from": "1000"}, count="64", **{"as": "octal"})
        for button, at in (("after", 0o1200), ("after", 0o1400), ("before", 0o1200)):
            self.browser.click(f"#inspect-{button}")
            self.browser.wait(
                "document.querySelector('#inspected td').textContent === "
                f"'{at:06o}'"
            )
            self.assertEqual(self.words(self.rows()), reply(f"mem {CURSOR} {at:o} 64").split()[1:])

    def test_what_can_not_be_read_is_told(self) -> None:
        shown = self.show(space="user", **{"from": "17770"}, count="512", **{"as": "octal"})
        found = self.words(shown)
        refused = reply(f"virtual {CURSOR} user 17770 256")
        if refused.startswith("virtual 0"):
            self.assertEqual(found[:256], refused.split()[1:])
        said = self.show(space="user", **{"from": "100000"}, count="16", **{"as": "octal"})
        self.assertEqual(said, [])
        self.assertIn(
            f"can't be read: {reply(f'virtual {CURSOR} user 100000 1')[len('virtual ') :]}",
            self.browser.text("#inspected"),
        )

    def test_bytes_text_and_instructions(self) -> None:
        words = [int(it, 8) for it in reply(f"virtual {CURSOR} kernel 1472 32").split()[1:]]
        held = b"".join(it.to_bytes(2, "little") for it in words)
        rows = self.show(space="kernel", **{"from": "BUSY"}, count="32", **{"as": "bytes"})
        self.assertEqual(self.words(rows), [f"{it:03o}" for it in held])
        rows = self.show(**{"as": "text"})
        shown = "".join(chr(it) if 32 <= it < 127 else "\u00b7" for it in held)
        self.assertEqual("".join(row[1] for row in rows).replace(" ", ""), shown.replace(" ", ""))
        rows = self.show(**{"as": "instructions"})
        self.assertEqual(rows[0], ["001472", "TSTB @#177404", "BUSY"])
        self.assertEqual(rows[1], ["001476", "BPL 1472", "BUSY+4"])

    def test_a_symbol_is_found_in_core_by_the_mapping(self) -> None:
        (place,) = reply(f"translate {CURSOR} kernel 1472").split()[1:]
        rows = self.show(space="core", **{"from": "BUSY"}, count="16", **{"as": "octal"})
        self.assertEqual(rows[0][0], place)

    def test_words_are_found(self) -> None:
        for space, line in ("core", "find {} 0 157776"), ("disk", "finddsk {} 0 4603777"):
            self.set_fields(space=space, **{"from": "0"}, word="130", mask="")
            self.browser.value("document.querySelector('#inspect-said').textContent = ''")
            self.browser.value("document.querySelector('#inspect-find').requestSubmit()")
            self.wait_text("#inspect-said", "before turn")
            found = self.browser.text("#inspect-found").split()
            self.assertEqual(found, reply(f"{line.format(CURSOR)} 130").split("\n")[1:])
        self.browser.click("#inspect-found button")
        self.browser.wait("document.querySelector('#inspected td') !== null")
        self.assertIn("000130", self.words(self.rows())[0])

    def test_many_are_found_part_by_part(self) -> None:
        self.set_fields(space="core", word="0", mask="177777")
        self.browser.value("document.querySelector('#inspect-find').requestSubmit()")
        self.wait_text("#inspect-said", "256 or more words of core")
        last = self.browser.text("#inspect-found").split()[-2]
        self.browser.value("document.querySelector('#inspect-said').textContent = ''")
        self.browser.click("#inspect-found button:last-child")
        self.wait_text("#inspect-said", "256 or more words of core")
        line = f"find {CURSOR} {int(last, 8) + 2:o} 157776 0"
        found = self.browser.text("#inspect-found").split()[:256]
        self.assertEqual(found, reply(line).split("\n")[1:])

    def test_wrong_words_are_told(self) -> None:
        self.show("1 to 512", space="core", **{"from": "0"}, count="5000")
        self.show("no symbol has this name", count="64", **{"from": "NOWHERE"})
        self.show("a place on a drive is a word", space="disk", **{"from": "NOWHERE"})
        self.set_fields(space="core", word="9")
        self.browser.value("document.querySelector('#inspect-find').requestSubmit()")
        self.wait_text("#inspect-said", "are octal, up to 177777")

    def test_it_follows_the_cursor_and_the_past(self) -> None:
        self.show(space="disk", **{"from": "0"}, count="4", **{"as": "octal"})
        self.fill("#turn", "128700")
        self.browser.key("Enter")
        self.wait_text("#inspect-turn", "before turn 128700")
        words = "document.querySelector('#inspected td + td').textContent"
        self.browser.wait(f"{words}.startsWith('000132')")
        self.type_line("disk 3 77")
        self.browser.look_at("#inspected")
        self.browser.wait(f"{words}.includes('000077')")
