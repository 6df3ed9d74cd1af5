// What plain C takes for the calls of the device that a store makes, each printed as how many there were and the microseconds:
//
//   append FILE COUNT LENGTH SIZE  as many records as a journal adds them: a write, a sync, a write of one byte, a sync
//   image FILE SIZE PAGES          an image and the switch to it: a read of a gate, a sync, the pages one by one, the header behind
//                                  the gate, a sync, the gate, a sync
//   read FILE AT PAGES             pages of 8,192 bytes from an offset on, one call each, with a look at every byte
//   write FILE AT PAGES            the same, written, and a sync
//   find FILE AT ROWS COUNT [FIRST SPAN]  the page of each of so many rows, 83 a page, in the order in which bench/table_pages seeks
//                                  them; with FIRST and SPAN those of so many rows that follow one another, sought before once
//   scan FILE AT ROWS              all pages, their rows copied one behind another, with the place where each ends
//   forget FILE                    the system forgets the file's pages; nothing is printed
//
// append and image make the file, which must not be there.
#define _GNU_SOURCE
#include <fcntl.h>
#include <stdint.h>
#include <stdio.h>
#include <stdlib.h>
#include <string.h>
#include <time.h>
#include <unistd.h>

enum { PAGE = 8192, HEAD = 6, ROWS_A_PAGE = 83 };

static const unsigned char OPEN = 0xA5;
static unsigned char page[PAGE];
static struct timespec from;

static void begin(void) { clock_gettime(CLOCK_MONOTONIC, &from); }

static int tell(uint64_t count) {
    struct timespec to;
    clock_gettime(CLOCK_MONOTONIC, &to);
    printf("%lu %ld\n", count, (to.tv_sec - from.tv_sec) * 1000000 + (to.tv_nsec - from.tv_nsec) / 1000);
    return 0;
}

static int put(int fd, const void *bytes, size_t count, off_t at) { return pwrite(fd, bytes, count, at) != (ssize_t)count; }

static int get(int fd, off_t at) { return pread(fd, page, PAGE, at) != PAGE; }

static int made(const char *path, off_t size) {
    int fd = open(path, O_RDWR | O_CREAT | O_EXCL | O_CLOEXEC, 0666);
    return fd < 0 || ftruncate(fd, size) || fsync(fd) ? -1 : fd;
}

static int append(const char *path, long count, long length, off_t size) {
    int fd = made(path, size);
    char *record = malloc(HEAD + length);
    if (fd < 0 || !record) return 1;
    memset(record, 7, HEAD + length);
    if (put(fd, "", 1, 0) || fdatasync(fd)) return 1;
    begin();
    off_t next = 0;
    for (long i = 0; i < count; i++, next += HEAD + length) {
        if (put(fd, record, HEAD + length, next + 1) || fdatasync(fd)) return 1;
        if (put(fd, &OPEN, 1, next) || fdatasync(fd)) return 1;
    }
    return tell(count);
}

static int image(const char *path, off_t size, long pages) {
    int fd = made(path, size);
    unsigned char gate;
    memset(page, 7, PAGE);
    off_t half = PAGE + (size / PAGE - 1) / 2 * PAGE;
    if (fd < 0 || put(fd, page, 4096, 8) || fdatasync(fd)) return 1;
    begin();
    if (pread(fd, &gate, 1, half) != 1 || fdatasync(fd)) return 1;
    for (long i = 1; i <= pages; i++)
        if (put(fd, page, PAGE, half + i * PAGE)) return 1;
    if (put(fd, page, PAGE - 1, half + 1) || fdatasync(fd)) return 1;
    if (put(fd, &OPEN, 1, half) || fdatasync(fd)) return 1;
    return tell(pages);
}

static int read_pages(int fd, off_t at, uint64_t pages) {
    volatile uint64_t sum = 0;
    begin();
    for (uint64_t i = 0; i < pages; i++, at += PAGE) {
        if (get(fd, at)) return 1;
        uint64_t of_page = 0;
        for (unsigned j = 0; j < PAGE; j++) of_page += page[j];
        sum += of_page;
    }
    return tell(pages);
}

static int write_pages(int fd, off_t at, uint64_t pages) {
    begin();
    for (uint64_t i = 0; i < pages; i++, at += PAGE) {
        memset(page, (int)i, PAGE);
        if (put(fd, page, PAGE, at)) return 1;
    }
    return fdatasync(fd) || tell(pages);
}

static int seek(int fd, off_t at, uint64_t first, uint64_t span, uint32_t count) {
    for (uint32_t i = 0; i < count; i++) {
        uint64_t number = first + (uint32_t)(i * 2654435761u) % span;
        if (get(fd, at + PAGE * (off_t)(number / ROWS_A_PAGE))) return 1;
    }
    return 0;
}

static int find(int fd, off_t at, uint64_t first, uint64_t span, uint32_t count, int sought_before) {
    if (sought_before && seek(fd, at, first, span, 10000)) return 1;
    begin();
    return seek(fd, at, first, span, count) || tell(count);
}

static int scan(int fd, off_t at, uint64_t rows) {
    unsigned char *bytes = 0;
    size_t *ends = 0, length = 0, room = 0, found = 0, places = 0;
    begin();
    for (uint64_t number = 0; number < (rows + ROWS_A_PAGE - 1) / ROWS_A_PAGE; number++) {
        if (get(fd, at + PAGE * (off_t)number)) return 1;
        const unsigned char *next = page + 3;
        for (unsigned left = page[1] << 8 | page[2]; left > 0; left--) {
            size_t size = next[0] << 8 | next[1];
            if (length + size > room && !(bytes = realloc(bytes, room = 2 * room + size))) return 1;
            if (found == places && !(ends = realloc(ends, (places = 2 * places + 8) * sizeof *ends))) return 1;
            memcpy(bytes + length, next + 2, size);
            ends[found++] = length += size;
            next += 2 + size;
        }
    }
    return tell(found);
}

int main(int argc, char **argv) {
    if (argc < 3) return 2;
    const char *what = argv[1], *path = argv[2];
    int64_t word[5] = {0};
    for (int i = 3; i < argc && i < 8; i++) word[i - 3] = atoll(argv[i]);
    if (!strcmp(what, "append") && argc == 6) return append(path, word[0], word[1], word[2]);
    if (!strcmp(what, "image") && argc == 5) return image(path, word[0], word[1]);
    int fd = open(path, (!strcmp(what, "write") ? O_RDWR : O_RDONLY) | O_CLOEXEC);
    if (fd < 0) return 1;
    if (!strcmp(what, "read") && argc == 5) return read_pages(fd, word[0], word[1]);
    if (!strcmp(what, "write") && argc == 5) return write_pages(fd, word[0], word[1]);
    if (!strcmp(what, "find") && argc == 6) return find(fd, word[0], 0, word[1], word[2], 0);
    if (!strcmp(what, "find") && argc == 8) return find(fd, word[0], word[3], word[4], word[2], 1);
    if (!strcmp(what, "scan") && argc == 5) return scan(fd, word[0], word[1]);
    if (!strcmp(what, "forget")) return fdatasync(fd) || posix_fadvise(fd, 0, 0, POSIX_FADV_DONTNEED);
    return 2;
}
