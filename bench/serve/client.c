// Sends commands over the loopback and waits for their replies, one exchange after the other: each exchange is one
// write, and then reads until as many bytes have come as were told.
// Arguments: the port, a file of exchanges, how many of them come before the clock starts, a file for the replies.
// An exchange in the file: the lengths of what is sent and of its replies, 4 bytes each, and the bytes that are sent.
// Prints the exchanges after those and the microseconds that they took.
#include <arpa/inet.h>
#include <netinet/tcp.h>
#include <stdio.h>
#include <stdlib.h>
#include <sys/time.h>
#include <time.h>
#include <unistd.h>

static unsigned number(const unsigned char *at) {
    return (unsigned)at[0] << 24 | (unsigned)at[1] << 16 | (unsigned)at[2] << 8 | at[3];
}

static unsigned char *whole(const char *path, size_t *size) {
    FILE *file = fopen(path, "rb");
    if (!file || fseek(file, 0, SEEK_END)) exit(2);
    *size = ftell(file);
    rewind(file);
    unsigned char *data = malloc(*size + 1);
    if (!data || fread(data, 1, *size, file) != *size || fclose(file)) exit(2);
    return data;
}

static int connected(int port) {
    int fd = socket(AF_INET, SOCK_STREAM, 0), one = 1;
    struct sockaddr_in to = {.sin_family = AF_INET, .sin_port = htons(port), .sin_addr = {htonl(INADDR_LOOPBACK)}};
    struct timeval wait = {.tv_sec = 10};
    if (fd < 0 || connect(fd, (struct sockaddr *)&to, sizeof to)) exit(3);
    setsockopt(fd, IPPROTO_TCP, TCP_NODELAY, &one, sizeof one);
    setsockopt(fd, SOL_SOCKET, SO_RCVTIMEO, &wait, sizeof wait);
    return fd;
}

int main(int argc, char **argv) {
    if (argc < 5) return 2;
    size_t size, taken = 0, room = 1 << 20;
    unsigned char *data = whole(argv[2], &size), *replies = malloc(room);
    long before = atol(argv[3]), done = 0;
    int fd = connected(atoi(argv[1])), status = 0;
    struct timespec from = {0}, to;
    clock_gettime(CLOCK_MONOTONIC, &from);
    for (size_t at = 0; at < size && !status; done++) {
        if (done == before) clock_gettime(CLOCK_MONOTONIC, &from);
        unsigned length = number(data + at), wanted = number(data + at + 4);
        if (taken + wanted > room) replies = realloc(replies, room = 2 * (taken + wanted));
        if (!replies || write(fd, data + at + 8, length) != length) status = 4;
        for (size_t end = taken + wanted; taken < end && !status;) {
            ssize_t count = read(fd, replies + taken, end - taken);
            if (count <= 0) status = 5;
            else taken += count;
        }
        at += 8 + length;
    }
    clock_gettime(CLOCK_MONOTONIC, &to);
    FILE *out = fopen(argv[4], "wb");
    if (!out || fwrite(replies, 1, taken, out) != taken || fclose(out)) return 6;
    printf("%ld %ld\n", done - before, (to.tv_sec - from.tv_sec) * 1000000 + (to.tv_nsec - from.tv_nsec) / 1000);
    return status;
}
