/* A library to preload (LD_PRELOAD): each request of a program for memory is refused in turn, in
   copies of the program that are made for it. At a request the program forks: the copy is refused
   this request, as if there were no memory left. If REFUSE_LATER is 1 it forks once more, and that
   copy is refused every later request too. A copy goes on to its end, on the same standard input
   from the same place, and with output of its own, which begins with what the program has written
   so far. The program itself is refused nothing. Its standard input and output must be files.
   REFUSE_FIRST, REFUSE_PAST and REFUSE_MOST are numbers of requests: the first REFUSE_FIRST are
   refused so, and of those past number REFUSE_PAST the first REFUSE_MOST.
   REFUSE_TOLD is a file descriptor. To it is written, of each copy, a line with the number of its
   request, 'alone' or 'later', its exit status (256 and the signal, if one ended it), the bytes of
   its output and of its standard error, and then these bytes; and at the program's end a line with
   the number of all requests.
   Requests are malloc, calloc, realloc to a size other than 0, aligned_alloc and posix_memalign,
   counted together from the program's start on. */
#define _GNU_SOURCE
#include <errno.h>
#include <fcntl.h>
#include <stddef.h>
#include <stdio.h>
#include <stdlib.h>
#include <string.h>
#include <sys/mman.h>
#include <sys/wait.h>
#include <unistd.h>

#define SECONDS 60

extern void *__libc_malloc(size_t size);
extern void *__libc_calloc(size_t count, size_t size);
extern void *__libc_realloc(void *old, size_t size);
extern void *__libc_memalign(size_t alignment, size_t size);

static long first, past, most, requests;
static int told = -1;
static int is_copy, refuses_later, has_later;

static long number_in(const char *name) {
    const char *text = getenv(name);
    return text ? atol(text) : -1;
}

__attribute__((constructor)) static void begin(void) {
    first = number_in("REFUSE_FIRST");
    past = number_in("REFUSE_PAST");
    most = number_in("REFUSE_MOST");
    told = (int)number_in("REFUSE_TOLD");
    has_later = number_in("REFUSE_LATER") == 1;
}

static void must(int holds) {
    if (!holds)
        _exit(125);
}

static void write_all(int to, const char *bytes, size_t count) {
    while (count > 0) {
        ssize_t done = write(to, bytes, count);
        must(done > 0);
        bytes += done;
        count -= (size_t)done;
    }
}

/* Copies the first `count` bytes of a file. */
static void copy(int from, int to, off_t count) {
    char bytes[4096];
    for (off_t at = 0; at < count;) {
        ssize_t got = pread(from, bytes, sizeof bytes, at);
        must(got > 0);
        if (got > count - at)
            got = (ssize_t)(count - at);
        write_all(to, bytes, (size_t)got);
        at += got;
    }
}

__attribute__((destructor)) static void end(void) {
    char line[32];
    if (told < 0 || is_copy)
        return;
    write_all(told, line, (size_t)snprintf(line, sizeof line, "%ld\n", requests));
}

/* What a copy does first. */
static void go_on_as_copy(int output, int error, int refuses) {
    int input = open("/proc/self/fd/0", O_RDONLY);
    must(input >= 0 && lseek(input, lseek(0, 0, SEEK_CUR), SEEK_SET) >= 0);
    must(dup2(input, 0) == 0 && dup2(output, 1) == 1 && dup2(error, 2) == 2);
    is_copy = 1;
    refuses_later = refuses;
    alarm(SECONDS);
}

/* Tells how a copy ended, with its output and standard error. */
static void tell(pid_t copied, int output, int error, const char *how) {
    int status;
    char line[128];
    must(waitpid(copied, &status, 0) == copied);
    status = WIFEXITED(status) ? WEXITSTATUS(status) : 256 + WTERMSIG(status);
    off_t written = lseek(output, 0, SEEK_END), erred = lseek(error, 0, SEEK_END);
    int length = snprintf(line, sizeof line, "%ld %s %d %ld %ld\n",
                          requests, how, status, (long)written, (long)erred);
    write_all(told, line, (size_t)length);
    copy(output, told, written);
    copy(error, told, erred);
}

/* Makes a copy that is refused this request. Returns 1 in the copy, and 0 in the program once the
   copy has ended. */
static int is_in_copy(int refuses) {
    int output = memfd_create("output", 0), error = memfd_create("error", 0);
    must(output >= 0 && error >= 0);
    copy(1, output, lseek(1, 0, SEEK_CUR));
    pid_t copied = fork();
    must(copied >= 0);
    if (copied == 0) {
        go_on_as_copy(output, error, refuses);
        return 1;
    }
    tell(copied, output, error, refuses ? "later" : "alone");
    close(output);
    close(error);
    return 0;
}

static int is_refused(void) {
    if (is_copy)
        return refuses_later;
    requests += 1;
    if (told < 0 || (requests > first && requests <= past) || requests - past > most)
        return 0;
    return is_in_copy(0) || (has_later && is_in_copy(1));
}

static int refuse(void) {
    if (!is_refused())
        return 0;
    errno = ENOMEM;
    return 1;
}

void *malloc(size_t size) {
    return refuse() ? NULL : __libc_malloc(size);
}

void *calloc(size_t count, size_t size) {
    return refuse() ? NULL : __libc_calloc(count, size);
}

void *realloc(void *old, size_t size) {
    return size != 0 && refuse() ? NULL : __libc_realloc(old, size);
}

void *aligned_alloc(size_t alignment, size_t size) {
    return refuse() ? NULL : __libc_memalign(alignment, size);
}

int posix_memalign(void **memory, size_t alignment, size_t size) {
    void *got = refuse() ? NULL : __libc_memalign(alignment, size);
    if (got == NULL)
        return ENOMEM;
    *memory = got;
    return 0;
}
