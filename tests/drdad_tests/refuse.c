// Laid in front of the C library: counts the allocations of a program, refuses the one of the number REFUSED, and at the
// end writes their count to the file descriptor 9. At those of the numbers FORKED, in rising order, the program forks: the
// fork has its allocation refused, WAITS seconds to end, and a file of that number in the current folder for its standard
// output, behind what was written before. The program waits, adds the status as four bytes, negative for a signal, goes on
// with the allocation granted, and ends behind the last number. Its standard input and output have to be regular files,
// both open to be read.
#define _GNU_SOURCE
#include <errno.h>
#include <fcntl.h>
#include <stdint.h>
#include <stdio.h>
#include <stdlib.h>
#include <sys/sendfile.h>
#include <sys/single_threaded.h>
#include <sys/syscall.h>
#include <sys/wait.h>
#include <unistd.h>

enum { BROKEN = 99 };

static unsigned long count, refused, forked;
static char *numbers;
static unsigned waits;

static unsigned long number_of(const char *name) {
    const char *text = getenv(name);
    return text ? strtoul(text, 0, 10) : 0;
}

static void take_next(void) { forked = numbers ? strtoul(numbers, &numbers, 10) : 0; }

__attribute__((constructor)) static void begin(void) {
    refused = number_of("REFUSED");
    waits = number_of("WAITS");
    numbers = getenv("FORKED");
    take_next();
    count = 0;
}

__attribute__((destructor)) static void end(void) {
    char line[32];
    int size = snprintf(line, sizeof line, "%lu\n", count);
    if (write(9, line, size) < 0) return;
}

void _exit(int status) {
    end();
    for (;;) syscall(SYS_exit_group, status);
}

static void needs(int is_well) {
    if (!is_well) syscall(SYS_exit_group, BROKEN);
}

// A file that begins with what the program has written.
static int begun_output(void) {
    char name[32];
    snprintf(name, sizeof name, "%lu", forked);
    int out = open(name, O_WRONLY | O_CREAT | O_EXCL, 0600);
    off_t written = lseek(1, 0, SEEK_CUR), from = 0;
    needs(out >= 0 && written >= 0);
    while (from < written) needs(sendfile(out, 1, &from, written - from) > 0);
    return out;
}

// Whether this is the fork. _Fork runs no handlers, which could allocate, and copies one thread alone.
static int is_fork(void) {
    int out = begun_output(), status;
    off_t place = lseek(0, 0, SEEK_CUR);
    needs(place >= 0 && __libc_single_threaded);
    pid_t child = _Fork();
    if (child == 0) {
        alarm(waits);
        needs(dup2(out, 1) == 1 && close(out) == 0);
        forked = 0;
        return 1;
    }
    needs(child > 0 && waitpid(child, &status, 0) == child);
    int32_t how = WIFEXITED(status) ? WEXITSTATUS(status) : -WTERMSIG(status);
    // The fork has read on, and both share one place in the input.
    needs(lseek(0, place, SEEK_SET) == place && write(out, &how, sizeof how) == sizeof how && close(out) == 0);
    take_next();
    if (!forked) syscall(SYS_exit_group, 0);
    return 0;
}

static int is_refused(void) {
    unsigned long number = __atomic_add_fetch(&count, 1, __ATOMIC_SEQ_CST);
    if (number != refused && !(number == forked && is_fork())) return 0;
    errno = ENOMEM;
    return 1;
}

extern void *__libc_malloc(size_t), *__libc_calloc(size_t, size_t), *__libc_realloc(void *, size_t),
    *__libc_memalign(size_t, size_t);

void *malloc(size_t size) { return is_refused() ? 0 : __libc_malloc(size); }
void *calloc(size_t number, size_t size) { return is_refused() ? 0 : __libc_calloc(number, size); }
void *realloc(void *old, size_t size) { return is_refused() ? 0 : __libc_realloc(old, size); }
void *aligned_alloc(size_t place, size_t size) { return is_refused() ? 0 : __libc_memalign(place, size); }
int posix_memalign(void **out, size_t place, size_t size) {
    if (is_refused()) return ENOMEM;
    return (*out = __libc_memalign(place, size)) ? 0 : ENOMEM;
}
