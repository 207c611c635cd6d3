/* What the objects of the programs call of glibc and of the kit's libos_c, and musl lacks. No proof
 * covers it. tools/release-static links it, with --wrap=main. */
#include <errno.h>
#include <signal.h>
#include <string.h>
#include <unistd.h>

/* The arguments. glibc gives them to the functions of .init_array too, where the kit takes them;
 * musl gives them to main alone. */
static int argument_count;
static char **arguments;

int __real_main(int count, char **words);

int __wrap_main(int count, char **words) {
    argument_count = count;
    arguments = words;
    return __real_main(count, words);
}

long rattle_arg_count(void) { return argument_count; }

long rattle_arg(unsigned long number, char *to, unsigned long most) {
    unsigned long length;
    if (number >= (unsigned long)argument_count) return -1;
    length = strlen(arguments[number]);
    memcpy(to, arguments[number], length < most ? length : most);
    return (long)length;
}

int rattle_errno(void) { return errno; }

void rattle_set_errno(int number) { errno = number; }

void (*__sysv_signal(int number, void (*action)(int)))(int) { return signal(number, action); }

ssize_t __write(int file, const void *from, size_t count) { return write(file, from, count); }

/* What the processor has, in the order of glibc's <sys/platform/x86.h>: four registers of CPUID for
 * each leaf, and which of these bits can be used. The programs ask for what needs no help of the
 * system, as SSE4.2 and POPCNT; so all that is there can be used. */
struct leaf { unsigned has[4], usable[4]; };

static void cpuid(unsigned leaf, unsigned part, unsigned to[4]) {
    __asm__("cpuid" : "=a"(to[0]), "=b"(to[1]), "=c"(to[2]), "=d"(to[3]) : "a"(leaf), "c"(part));
}

const struct leaf *__x86_get_cpuid_feature_leaf(unsigned number) {
    static const unsigned asked[][2] = {
        { 1, 0 }, { 7, 0 }, { 0x80000001u, 0 }, { 0xd, 1 }, { 0x80000007u, 0 }, { 0x80000008u, 0 },
        { 7, 1 }, { 0x19, 0 }, { 0x14, 0 },
    };
    static const struct leaf none;
    static struct leaf found[sizeof asked / sizeof *asked];
    unsigned has[4];
    if (number >= sizeof asked / sizeof *asked) return &none;
    cpuid(asked[number][0] & 0x80000000u, 0, has);
    if (has[0] < asked[number][0]) return &none;
    cpuid(asked[number][0], asked[number][1], found[number].has);
    memcpy(found[number].usable, found[number].has, sizeof found[number].usable);
    return &found[number];
}
