// A plain server with a thread for each conversation: for each so many bytes that come it sends so many back, by one read and one
// write where they come at once. In front of each write it takes the one lock that all conversations share, and gives it back; with
// a file it writes a record under the lock as a journal does: write, sync, write of a byte, sync. In groups the lock is held for the
// waiting alone: one conversation writes the records of all that wait, with the same four calls, while the next ones gather.
// Arguments: how many bytes come, how many are sent back, how many conversations there will be, and, where a record is written,
// the file's path, its bytes and those of a record, and `groups` where they are written in groups; then two numbers more, where of
// each conversation's exchanges only the last ones of so many write a record, as of a branch's five those that prepare and commit it.
// Prints `listening` and its port.
#define _GNU_SOURCE
#include <arpa/inet.h>
#include <fcntl.h>
#include <netinet/tcp.h>
#include <pthread.h>
#include <stdio.h>
#include <stdlib.h>
#include <string.h>
#include <unistd.h>

enum { ROOM = 65536, MOST = 1024 };

static pthread_mutex_t lock = PTHREAD_MUTEX_INITIALIZER;
static pthread_cond_t written = PTHREAD_COND_INITIALIZER;
static long come, sent, size, record;
static int file = -1, in_groups, leads;
static long exchanges = 1, writing = 1;
static long waiting, gathered, done;
static off_t next;
static char out[ROOM];

// The records of so many conversations are written; 0 where a call of the device fails.
static int write_records(long count) {
    static char bytes[ROOM];
    long length = count * record;
    if (next + length + 1 > size) next = 0;
    if (pwrite(file, bytes, length, next + 1) != length || fdatasync(file)) return 0;
    if (pwrite(file, "\xA5", 1, next) != 1 || fdatasync(file)) return 0;
    next += length;
    return 1;
}

// One conversation's record is written with those of all that wait; the lock is held, but not while the device is waited for.
static int write_in_group(void) {
    long mine = gathered;
    waiting++;
    while (done <= mine) {
        if (leads) {
            pthread_cond_wait(&written, &lock);
            continue;
        }
        long count = waiting, group = gathered++;
        leads = 1, waiting = 0;
        pthread_mutex_unlock(&lock);
        int is_written = write_records(count);
        pthread_mutex_lock(&lock);
        if (!is_written) return 0;
        leads = 0, done = group + 1;
        pthread_cond_broadcast(&written);
    }
    return 1;
}

// What is done under the lock in an exchange of this number; 0 where a call of the device fails.
static int work(long number) {
    if (file < 0 || number % exchanges < exchanges - writing) return 1;
    return in_groups ? write_in_group() : write_records(1);
}

static void *converse(void *given) {
    int fd = (int)(long)given;
    char *in = malloc(ROOM);
    long held = 0, number = 0;
    for (ssize_t count; in && (count = read(fd, in, ROOM)) > 0;) {
        for (held += count; held >= come; held -= come) {
            pthread_mutex_lock(&lock);
            int done = work(number++);
            pthread_mutex_unlock(&lock);
            if (!done || write(fd, out, sent) != sent) exit(4);
        }
    }
    free(in);
    close(fd);
    return 0;
}

static int listening(void) {
    int listener = socket(AF_INET, SOCK_STREAM, 0);
    struct sockaddr_in at = {.sin_family = AF_INET, .sin_addr = {htonl(INADDR_LOOPBACK)}};
    socklen_t length = sizeof at;
    if (listener < 0 || bind(listener, (struct sockaddr *)&at, length) || listen(listener, 128)) exit(3);
    if (getsockname(listener, (struct sockaddr *)&at, &length)) exit(3);
    printf("listening %d\n", ntohs(at.sin_port));
    fflush(stdout);
    return listener;
}

static void make_file(const char *path) {
    file = open(path, O_RDWR | O_CREAT | O_EXCL | O_CLOEXEC, 0666);
    if (file < 0 || ftruncate(file, size) || fsync(file)) exit(1);
}

int main(int argc, char **argv) {
    static pthread_t threads[MOST];
    if (argc < 4) return 2;
    come = atol(argv[1]), sent = atol(argv[2]);
    long count = atol(argv[3]);
    if (argc > 6) size = atol(argv[5]), record = atol(argv[6]), make_file(argv[4]);
    in_groups = argc > 7 && !strcmp(argv[7], "groups");
    if (argc > 9) exchanges = atol(argv[8]), writing = atol(argv[9]);
    if (come < 1 || exchanges < 1 || sent > ROOM || record * (in_groups ? count : 1) >= ROOM || count > MOST) return 2;
    int listener = listening(), one = 1;
    for (long at = 0; at < count; at++) {
        int fd = accept(listener, 0, 0);
        if (fd < 0) return 3;
        setsockopt(fd, IPPROTO_TCP, TCP_NODELAY, &one, sizeof one);
        if (pthread_create(&threads[at], 0, converse, (void *)(long)fd)) return 3;
    }
    for (long at = 0; at < count; at++) pthread_join(threads[at], 0);
    return 0;
}
