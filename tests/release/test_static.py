"""What tools/release-static links, of objects in C that call what those of the programs call."""
import shutil
import subprocess
import unittest

from .linked import LACKING, MUSL, SCRIPT, Linked, chosen

OBJECT = """\
#include <stddef.h>
long rattle_arg(unsigned long, char *, unsigned long);
long rattle_arg_count(void);
int rattle_errno(void);
long __write(int, const void *, size_t);
void (*__sysv_signal(int, void (*)(int)))(int);
const unsigned *__x86_get_cpuid_feature_leaf(unsigned);
void *rattle_alloc(unsigned long);
#ifdef WIDER
#define MORE __write(1, "", 0), __write(1, "", 0), __write(1, "", 0), __write(1, "", 0),
#else
#define MORE
#endif
#define NAMED(name) __asm__(name) __attribute__((noinline));
long before(long) NAMED("pdp_word::before") long other(long) NAMED("pdp_cpu::burst::<#0>")
long burst(long) NAMED(BURST) long after(long) NAMED("pdp_word::after")
long before(long it) { return MORE __write(9, "", it); }
long other(long it) { return before(it) + 1; }
long burst(long it) { return other(it) + 1; }
long after(long it) { return burst(it) - 2; }
int main(void) {
    char word[4];
    long number, length, sse2 = __x86_get_cpuid_feature_leaf(0)[7] >> 26 & 1;
    __sysv_signal(13, (void (*)(int))1);
    if (!sse2 || !rattle_alloc(1) || rattle_arg(3, word, 4) != -1 || rattle_arg_count() != 3)
        return 1;
    for (number = 1; (length = rattle_arg(number, word, sizeof word)) >= 0; number++)
        __write(1, word, length);
    return after(1) == -1 && rattle_errno() == 9 ? 7 : 1;
}
"""
BURST, PLACE = chosen()
NAMES = f'-DBURST="{BURST}"'


class Static(Linked):
    @unittest.skipIf(LACKING, LACKING)
    def test_a_program_that_needs_no_library(self) -> None:
        self.with_kit()
        for name in "pdp11", "disassemble":
            self.built(name, OBJECT, NAMES)
        made = self.run_in("tools/release-static", "made", kit=True)
        self.assertEqual((made.stdout, made.returncode), ("made/disassemble\nmade/pdp11\n", 0))
        program = self.tree / "made" / "pdp11"
        self.assertNotIn(b"ld-linux", program.read_bytes())
        ran = subprocess.run([program, "ab", "cd"], capture_output=True)
        self.assertEqual((ran.returncode, ran.stdout), (7, b"abcd"))

    @unittest.skipIf(LACKING, LACKING)
    def test_where_functions_begin(self) -> None:
        """At a multiple of 32, whatever is linked before them, except the burst with a place."""
        self.with_kit()
        for options in [NAMES], [NAMES, "-DWIDER"]:
            self.built("pdp11", OBJECT, *options)
            made = self.run_in("tools/release-static", "made", "pdp11", kit=True)
            self.assertEqual((made.stdout, made.returncode), ("made/pdp11\n", 0))
            places = self.places("made/pdp11")
            self.assertEqual(places[BURST], PLACE)
            for name in "pdp_word::before", "pdp_cpu::burst::<#0>", "pdp_word::after", "main":
                self.assertEqual((name, places[name]), (name, 0))

    @unittest.skipIf(LACKING, LACKING)
    def test_without_the_script(self) -> None:
        self.with_kit()
        self.built("pdp11", OBJECT, NAMES)
        (self.tree / SCRIPT).unlink()
        made = self.run_in("tools/release-static", "made", "pdp11", kit=True)
        self.assertEqual(made.returncode, 1)
        self.assertIn(f"cannot find linker script {SCRIPT}", made.stderr)

    def test_what_is_lacking(self) -> None:
        """The objects, which rt ci makes only of programs that it builds; and rt."""
        no_object = (77, "crates/disassemble/out has no object that rt ci just built\n")
        no_kit = (1, "release-static: rt isn't on PATH\n")
        for wanted in (no_object, no_kit):
            ended = self.run_in("tools/release-static")
            if not MUSL.is_file():
                wanted = (77, "Debian's musl-dev isn't installed\n")
            self.assertEqual((ended.returncode, self.said), wanted)
            for name in "disassemble", "pdp11":
                self.write(f"crates/{name}/out/{name}.o", "")

    @unittest.skipUnless(MUSL.is_file() and shutil.which("sha256sum"), "musl-dev isn't installed")
    def test_the_line_of_the_library(self) -> None:
        self.run_in("tools/release-static", "--library")
        self.assertRegex(self.said, "^musl-dev [^ ]+ [0-9a-f]{64}\n$")
