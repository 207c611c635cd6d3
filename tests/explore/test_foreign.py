"""Files that are something else, and files that are junk."""
import gzip
import random

from .explore_case import ROOT
from .media import FAULT, PROGRAM, TAPE, Media, words

MEDIA = ROOT / "examples" / "media"


class Foreign(Media):
    """Files that are named, with what to do."""

    def kinds(self) -> list[tuple[str, bytes, str]]:
        record = words(4, 0) + b"abcd" + words(4, 0)
        odd = words(3, 0) + b"abc\0" + words(3, 0)
        marks = words(0, 0) * 2
        return [
            ("gzip", gzip.compress(words(1, 2, 3)), "a gzip: gunzip it first"),
            ("compress", b"\x1f\x9d\x90abc", "a file of compress: uncompress it first"),
            ("bzip2", b"BZh91AY&SY", "a bzip2: bunzip2 it first"),
            ("xz", b"\xfd7zXZ\0\0", "an xz: unxz it first"),
            ("zstd", b"\x28\xb5\x2f\xfd\0\0", "a zstd: unzstd it first"),
            ("zip", b"PK\3\4\0\0", "a zip: unzip it first"),
            ("elf", b"\x7fELF\2\1", "an ELF file, a program of another system: "),
            ("save", b"V4.0\nPDP-11\n32b data\n\0\0", "a SIMH SAVE file: "),
            ("tap", record * 2 + marks, "a .tap of SIMH, a magnetic tape: "),
            ("odd.tap", odd + marks, "a .tap of SIMH, a magnetic tape: "),
            ("boot", b"\xe9" * 32, "a tape of the bootstrap loader"),
        ]

    def test_each_command_names_them(self) -> None:
        for name, data, said in self.kinds():
            self.put(name, data)
            self.put("it.ini", f"attach rk0 {name}\n".encode())
            lines = f"load {name}\nload {name} at 0\nsymbols {name}\nimport {name}\nimport it.ini\n"
            written = self.explore(f"{lines}patches\nregs 0\n").splitlines()
            self.assertEqual(written[4:6], ["0 commands taken: 0 patches", "1 left out:"])
            for line in (*written[:4], written[6]):
                self.assertIn(f"{name} is {said}", line)
            self.assertEqual(written[7], "patches 0")

    def test_a_warning_if_pdp11_would_take_them(self) -> None:
        for name, data, said in self.kinds():
            self.put(name, data + bytes(len(data) % 2))
            for option in ("--core", "--disk", "--tape"):
                self.explore("", option, name)
                path = self.folder / name
                self.assertIn(f"explore: {option} {path}: this looks like {said}", self.error)

    def test_a_warning_for_what_load_reads(self) -> None:
        for data, said in ((TAPE, "an absolute-loader tape"), (PROGRAM, "an a.out")):
            self.put("it", data + bytes(len(data) % 2))
            self.explore("", "--core", "it")
            self.assertIn(f"this looks like {said}: `load` reads it", self.error)
            self.explore("", "--tape", "it")
            self.assertEqual(self.error, "")

    def test_no_warning_without_reason(self) -> None:
        for data in (bytes(512), words(4, 0, 4, 0, 4, 1), words(0, 1, 6, 0), words(0o407, 99, 1)):
            self.put("it", data)
            self.explore("", "--core", "it", "--disk", "it")
            self.assertEqual(self.error, "")
        self.explore("", "--disk", "examples/boot-rk0.disk")
        self.assertEqual(self.error, "")


class Junk(Media):
    """Random bytes, and good files with random changes: a line each, and no traceback."""

    def files(self) -> list[bytes]:
        chance = random.Random(51)
        good = [it.read_bytes() for it in sorted(MEDIA.glob("hello.*"))]
        good += [TAPE, PROGRAM, b"set cpu 256k\nd 1000 5\nboot rk0\nattach rk0 x\n"]
        files = [chance.randbytes(chance.randrange(200)) for _ in range(100)]
        begins = [b"\1\0", bytes(9) + b"\1\0", words(0o407), words(0o410), words(6, 0)]
        begins.append(b"V3.5\nPDP-11\n")
        for _ in range(150):
            files.append(chance.choice(begins) + chance.randbytes(chance.randrange(99)))
        for _ in range(250):
            data = bytearray(chance.choice(good))
            for _ in range(chance.randrange(1, 6)):
                at = chance.randrange(len(data))
                data[at : at + chance.randrange(3)] = chance.randbytes(chance.randrange(3))
            files.append(bytes(data))
        return files

    def test_no_traceback(self) -> None:
        files = [self.put(f"junk{at}", data) for at, data in enumerate(self.files())]
        lines = [
            f"{form} {name}{how}"
            for name in files
            for form, how in (("load", ""), ("load", " at 400"), ("symbols", ""), ("import", ""))
        ]
        written = self.explore("".join(f"{it}\n" for it in lines) + "regs 0\n")
        self.assertEqual(self.error, "")
        self.assertNotIn(FAULT, written)
        self.assertNotIn("Traceback", written)
        self.assertIn("PC 0", written.splitlines()[-1])

    def test_symbols_of_any_form(self) -> None:
        chance = random.Random(52)
        self.put("names", b"A 10\nB+ 20\n$X 30\n.Y 40\n_z=50\n% 60\n")
        parts = "A $X .Y _z % + - 10 8 \\ é ( * x = @".split()
        forms = (
            "until PC {} to 9",
            "next {} to 9",
            "list {} 2 at 0",
            "dump {} 2 at 0",
            "dump user {} 2 at 0",
            "last 3 user {}",
            "next kernel {} to 9",
            "mem 0 {} 1",
            "core {} 5",
            "first core {} = 5 to 9",
            "last 3 {}",
            "page {} to 3",
            "load names at {}",
            "writes 0 5 {}",
            "first 0 5 at {}",
            "sweep tick from 0 to 1: mem 3 {} 1",
        )
        lines = [
            chance.choice(forms).format("".join(chance.choices(parts, k=chance.randrange(1, 4))))
            for _ in range(300)
        ]
        written = self.explore("symbols names\n" + "".join(f"{it}\n" for it in lines))
        self.assertEqual(self.error, "")
        self.assertNotIn(FAULT, written)
