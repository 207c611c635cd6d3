"""The page's readers of tapes, a.outs, listings and maps: what they make of a file is what explore
makes of it, for right files and for wrong ones."""
import base64
import http.server
import json
import os
import random
import re
import struct
import tempfile
import threading
from pathlib import Path
from typing import Any, Iterable

from nezdrab.core.errors import ExploreError
from nezdrab.core.symbol_files import Symbol, symbol_file
from nezdrab.shell.load import loaded
from tests import counted, processes
from tests.explore.media import PROGRAM, TAPE, block, program, symbol, tape, words
from tests.explore.test_symbols import FORMATS, MAP_OF_RT11

from .page_case import ROOT, the_browser
from .test_units import Handler

MEDIA = ROOT / "examples" / "media"
RK05_BYTES = 2_494_464
# What explore and the page advise to do differs.
ADVICE = re.compile(r"; (load |if it is ).*")
ADVICE_OF_A_KIND = re.compile(r": .*|(?<=it is text),.*")


def in_base64(data: bytes) -> str:
    return base64.b64encode(data).decode()


def as_lists(symbols: Iterable[Symbol]) -> list[list[Any]]:
    return [[it.name, it.value, it.is_constant, it.is_relocatable] for it in symbols]


def without_advice(said: str) -> str:
    """What is wrong, without the file's name and without what to do."""
    bare = ADVICE.sub("", said.removesuffix(". Nothing was loaded."))
    of_a_kind = re.sub(r"^\S*it(: it)? is ", "it is ", bare)
    if of_a_kind.startswith("it is "):
        return ADVICE_OF_A_KIND.sub("", of_a_kind)
    return bare.partition(": ")[2]


def visible(text: str) -> str:
    return "".join(it if it.isprintable() else f"\\u{ord(it):04x}" for it in text)


class ReadersCase(counted.InBrowser):
    maxDiff = 4000
    server: http.server.ThreadingHTTPServer
    handler = Handler
    path: Path

    @classmethod
    def setUpClass(cls) -> None:
        browser = the_browser()
        cls.server = http.server.ThreadingHTTPServer(("127.0.0.1", 0), cls.handler)
        cls.addClassCleanup(cls.server.server_close)
        cls.addClassCleanup(cls.server.shutdown)
        threading.Thread(target=cls.server.serve_forever, daemon=True).start()
        folder = tempfile.TemporaryDirectory()
        cls.addClassCleanup(folder.cleanup)
        cls.path = Path(folder.name) / "it"
        host, port = cls.server.server_address[:2]
        browser.open(f"http://{str(host)}:{port}/")

    def page_says(self) -> str:
        return the_browser().says()

    def called(self, name: str, *given: object) -> Any:
        words = ", ".join(json.dumps(it) for it in given)
        return the_browser().value(f"units.{name}({words})")

    def explores(self, data: bytes) -> Any:
        """What explore makes of a file, or why it doesn't load it."""
        self.path.write_bytes(data)
        try:
            found = loaded(self.path, None, False)
        except ExploreError as error:
            return without_advice(str(error))
        pairs = [list(it) for it in found.bytes.items()]
        return [found.title, pairs, found.start, as_lists(found.symbols), visible(found.remark)]

    def check(self, files: Iterable[bytes]) -> list[Any]:
        """That the page makes of each file what explore makes of it; returns that."""
        given = list(files)
        found = self.called("loadedFiles", [in_base64(it) for it in given])
        pages = [without_advice(it) if isinstance(it, str) else it for it in found]
        self.assertEqual(len(pages), len(given))
        for data, page in zip(given, pages):
            self.assertEqual(page, self.explores(data), data)
        return pages


def changed(data: bytes, at: int) -> bytes:
    return data[:at] + bytes([data[at] ^ 0o125]) + data[at + 1 :]


class Programs(ReadersCase):
    def test_the_examples(self) -> None:
        lda, aout = self.check((MEDIA / f"hello.{it}").read_bytes() for it in ("lda", "aout"))
        self.assertEqual((lda[2], aout[2]), (0o1000, 0))
        self.assertIn(["loop", 4, False, True], aout[3])

    def test_tapes(self) -> None:
        good = block(0o1000, words(1, 2))
        parts = [(at, bytes([at >> 9]) * 0o1000) for at in range(0, 0o160000, 0o1000)]
        files = [
            TAPE, TAPE.lstrip(b"\0"), b"\377" * 50 + TAPE, tape((0o2001, b"ABC"), start=1),
            tape(start=0o2000), TAPE + b"more\0", tape((0o157776, words(1, 2))), tape(*parts),
            tape((0o2001, b"\5"), (0o2002, b"\6\7"), (0o2003, b"\10")), good + bytes(9),
            good + b"\7\7\7", good + b"\1\0\5\0\0\2\0", good + block(0o1000, b"", wrong=1),
        ]  # fmt: skip
        found = self.check(files)
        self.assertEqual(sum(isinstance(it, str) for it in found), 5)

    def test_programs(self) -> None:
        entry = words(0, 4, 2, 0o1004) + words(0, 0x40, 3, 6) + words(0, 9, 4, 8)
        names = words(0, 24) + b"_main\0x.o\0".ljust(20, b"\0")
        odd = [symbol(name, 2, 4) for name in ("", "a b", "~x", "crt0.o", "a/b", "1", "12345678")]
        files = [
            PROGRAM, PROGRAM + bytes(512), program(0o410, text=bytes(6), data=words(7), bss=2),
            program(0o410, text=words(1) * 4096, data=words(7)), program(text=words(1), entry=3),
            program(text=words(1), relocation=bytes(2)), program(text=b"\1", data=b"\2\3"),
            program(text=words(1), symbols=b"".join(odd)), program(symbols=bytes(7)),
            program(text=words(1), symbols=entry, names=names),
            program(text=words(1), symbols=entry[:23], names=names), program(symbols=entry)[:-1],
            program(text=words(1), symbols=entry, names=words(0, 99)),
            *(words(it) + bytes(14) for it in (0o405, 0o411, 0o430, 0o431)), words(0o407),
        ]  # fmt: skip
        found = self.check(files)
        self.assertEqual(sum(isinstance(it, str) for it in found), 10)

    def test_each_byte_is_wrong_once_or_is_the_last(self) -> None:
        for data in (TAPE, PROGRAM):
            self.check(changed(data, at) for at in range(len(data)))
            self.check(data[:at] for at in range(len(data)))

    def test_what_is_neither(self) -> None:
        record = struct.pack("<I", 4)
        files = [
            b"", b"\0" * 9, b"no tape\n", b"\1", b"\x80\x90", b"\x1f\x8b\0", b"PK\3\4", b"\x7fELF",
            b"V3.5\nPDP-11 x", b"V3.5 VAX\n", b"\xe9" * 20, record + b"abcd" + record + bytes(4),
            record + b"abcd" + bytes(4), b"BZh9", b"\xfd7zXZ\0", b"\x28\xb5\x2f\xfd", b"\x1f\x9d",
        ]  # fmt: skip
        found = self.check(files)
        self.assertTrue(all(isinstance(it, str) for it in found), found)
        self.assertEqual(len(set(found)), 12)


class Symbols(ReadersCase):
    def check_texts(self, texts: Iterable[str]) -> None:
        given = list(texts)
        pages = self.called("symbolsInTexts", given)
        self.assertEqual(len(pages), len(given))
        for text, page in zip(given, pages):
            found = symbol_file(text)
            self.assertEqual(page, [found.kind, as_lists(found.symbols), found.skipped], text)

    def test_each_format(self) -> None:
        self.check_texts([*FORMATS, (MEDIA / "hello.lst").read_text()])
        ledger = ROOT / "examples" / "ledger"
        self.check_texts((ledger / it).read_text() for it in ("ledger.lst", "kernel.sym"))
        self.check_texts(it.replace("\n", "\r\n") for it in FORMATS)
        self.check_texts(it.lower() for it in FORMATS)

    def test_cut_at_each_byte(self) -> None:
        for text in FORMATS:
            self.check_texts(text[:at] for at in range(len(text)))

    def test_junk(self) -> None:
        chance = random.Random(3)
        letters = "".join(FORMATS)
        junk = ["".join(chance.choices(letters, k=chance.randrange(200))) for _ in range(2000)]
        places = [chance.randrange(len(MAP_OF_RT11)) for _ in junk]
        self.check_texts(junk)
        self.check_texts(MAP_OF_RT11[:at] + it + MAP_OF_RT11[at:] for it, at in zip(junk, places))

    def test_labels_alone(self) -> None:
        lines = ["0 Z:", "1 001000 000240 A: NOP", "2 B: C:", "; a comment", "3\tD:: ; of the loop"]
        lines += ["4 002000 000240 041 E: NOP", "F:", "6 NONE OF IT", "7 003000 G: .BLKW 5", "H:"]
        lines += ["9 003012 000240 NOP", "10 003014 000015 X = 15", "11 . = 4000"]
        self.check_texts("\n".join(lines[at:]) for at in range(len(lines)))

    def test_long_lines_take_no_time(self) -> None:
        """At most a minute of the processor, or on a slow one 40 times what far shorter ones take."""
        short = self.seconds_of(10_000)
        self.assertLess(self.seconds_of(200_000), max(60, 40 * short))

    def seconds_of(self, length: int) -> float:
        """What lines of about this length take of the processor."""
        before = processes.seconds(os.getpid())
        for part in ("A", "A 000001 ", "000001 ", "A:"):
            line = part * (length // len(part)) + "!" * (part == "A 000001 ")
            heads = ("", "RT-11 LINK  Load Map\n", "Global symbols:\n", "Symbol table\n")
            self.check_texts(head + line for head in heads)
        return processes.seconds(os.getpid()) - before


class Kinds(ReadersCase):
    def test_by_name_or_by_bytes(self) -> None:
        listing, session = FORMATS[1].encode(), b"core 1000 5\nregs 5\n"
        image = bytes([7, 1]) + bytes(RK05_BYTES - 2)
        wanted = (
            ("a.lda", b"", "program"), ("a.bin", TAPE, "program"), ("a.bin", PROGRAM, "program"),
            ("a.bin", words(5), "core"), ("a.core", TAPE, "core"), ("a.ptap", TAPE, "tape"),
            ("a", TAPE, "program"), ("a.out", PROGRAM, "program"), ("hello", PROGRAM, "program"),
            ("a.session", TAPE, "session"), ("a.txt", listing, "session"),
            ("a", session, "session"), ("list", listing, "symbols"), ("a.lst", b"", "symbols"),
            ("a", MAP_OF_RT11.encode(), "symbols"), ("a.gz", b"\x1f\x8b", "other"),
            ("a", bytes(4), "other"),
            ("v6", image, "disk"), ("boot.dsk", PROGRAM, "disk"), ("a.args", b"", "arguments"),
        )  # fmt: skip
        files = [[name, in_base64(data)] for name, data, _ in wanted]
        self.assertEqual(self.called("kindsOfFiles", files), [it[2] for it in wanted])
