// Each sync of a program takes so many microseconds more as SYNC_DELAY_US says: `cc -shared -fPIC -o slow.so slow.c -ldl`, and LD_PRELOAD
// names it. A sync is fdatasync, fsync, and a write to a file that was opened with O_SYNC or O_DSYNC. Where SYNC_FREE is set, fdatasync of
// a file that is read too does nothing: those that drdad makes under its lock, since it flushes from outside of it by another opening.
#define _GNU_SOURCE
#include <dlfcn.h>
#include <fcntl.h>
#include <stdarg.h>
#include <stdlib.h>
#include <time.h>
#include <unistd.h>

enum { FILES = 65536 };

static unsigned char syncs_writes[FILES];

static void delay(void) {
    static long micros = -1;
    if (micros < 0) micros = getenv("SYNC_DELAY_US") ? atol(getenv("SYNC_DELAY_US")) : 0;
    struct timespec time = {micros / 1000000, micros % 1000000 * 1000};
    if (micros) nanosleep(&time, 0);
}

#define NEXT(name) ((__typeof__(&name))dlsym(RTLD_NEXT, #name))

#define SYNC(name) int name(int file) { \
    int done = NEXT(name)(file); \
    delay(); \
    return done; \
}
SYNC(fsync)

static int is_read(int file) { return (fcntl(file, F_GETFL) & O_ACCMODE) == O_RDWR; }

int fdatasync(int file) {
    if (getenv("SYNC_FREE") && is_read(file)) return 0;
    int done = NEXT(fdatasync)(file);
    delay();
    return done;
}

#define OPEN(name) int name(const char *path, int flags, ...) { \
    va_list mode; \
    va_start(mode, flags); \
    int file = NEXT(name)(path, flags, va_arg(mode, int)); \
    va_end(mode); \
    if (file >= 0 && file < FILES) syncs_writes[file] = !!(flags & (O_SYNC | O_DSYNC)); \
    return file; \
}
OPEN(open)
OPEN(open64)

static ssize_t written(int file, ssize_t done) {
    if (file >= 0 && file < FILES && syncs_writes[file]) delay();
    return done;
}

ssize_t write(int file, const void *bytes, size_t count) { return written(file, NEXT(write)(file, bytes, count)); }
ssize_t pwrite(int file, const void *bytes, size_t count, off_t at) { return written(file, NEXT(pwrite)(file, bytes, count, at)); }
ssize_t pwrite64(int file, const void *bytes, size_t count, off64_t at) { return written(file, NEXT(pwrite64)(file, bytes, count, at)); }
