// A load of one kind over many connections to a server on the loopback, by its own protocol.
// Arguments: the port, with `postgres:` before it where the server is PostgreSQL; the database, the user, the password, the work, how many
// connections, the seconds that count (those before them that WARM says do not, one by default), a table, and how many rows it has. The
// work is one of:
//   create         makes the table, with a number K as its key and a text V, by one connection
//   fill           puts rows 0 and up into it, with texts of 92 bytes, a hundred in a chain and a thousand in a unit
//   ping           EXCSAT
//   insert         an INSERT of a new row and its commit, in one chain
//   select         a SELECT of a row by its key, picked at random, and its commit, in one chain
//   update         an UPDATE of a row of the connection's own and its commit, in one chain
//   mixed          four of `select`, of rows that no connection updates, and then one of `update`
//   branch:N       XA: an INSERT of a new row in a branch, prepared and then committed, which is the call N of SYNCCTL
//   echo:N:M       N bytes, which are answered by M (bench/serve/echo.c); database, user and password count for nothing
// Prints the exchanges a second, the microseconds of which 50, 99 and 99.9 of a hundred took no more, the bytes that the last one sent and
// had back, how many connections failed, the first of which is told on standard error, how many exchanges count, and the microseconds that
// the longest of them took.
#include "client.h"
#include <arpa/inet.h>
#include <netinet/tcp.h>
#include <pthread.h>
#include <stdarg.h>
#include <stdio.h>
#include <stdlib.h>
#include <string.h>
#include <time.h>
#include <unistd.h>

enum { KEYS_OF_A_CONNECTION = 30000000, OWN_ROWS = 1000, SELECTS_OF_MIXED = 4, FIRST_PLACES = 200000 };

const char *database, *user, *password, *table = "T";
int rows = 100000, commit_call;
uint64_t run_number;
static const Protocol *protocol = &of_drda;
static const char *work;
static int port, echo_sent, echo_back;
static double from, until;

static double now(void) {
    struct timespec time;
    clock_gettime(CLOCK_MONOTONIC, &time);
    return time.tv_sec + time.tv_nsec * 1e-9;
}

int fail(Connection *it, const char *form, ...) {
    va_list values;
    va_start(values, form);
    if (!it->failed) vsnprintf(it->said, sizeof it->said, form, values);
    va_end(values);
    it->failed = 1;
    return -1;
}

// ---- bytes that are sent and read

void put(Connection *it, const void *bytes, size_t count) {
    if (it->out + count > ROOM) exit(2);
    memcpy(it->sends + it->out, bytes, count);
    it->out += count;
}

void put_number(Connection *it, uint64_t number, int bytes) {
    for (int at = bytes - 1; at >= 0; at--) put(it, (unsigned char[]){number >> 8 * at}, 1);
}

unsigned number(const unsigned char *at, int bytes) {
    unsigned found = 0;
    while (bytes--) found = found << 8 | *at++;
    return found;
}

int read_whole(Connection *it, unsigned char *to, size_t count) {
    it->back += count;
    while (count) {
        if (it->taken == it->read) {
            ssize_t come = read(it->fd, it->reads, ROOM);
            if (come <= 0) return fail(it, "the connection broke");
            it->taken = 0, it->read = come;
        }
        size_t some = it->read - it->taken < count ? it->read - it->taken : count;
        memcpy(to, it->reads + it->taken, some);
        it->taken += some, to += some, count -= some;
    }
    return 0;
}

int send_all(Connection *it) {
    for (size_t done = 0; done < it->out;) {
        ssize_t gone = send(it->fd, it->sends + done, it->out - done, MSG_NOSIGNAL);
        if (gone <= 0) return fail(it, "the connection broke");
        done += gone;
    }
    it->sent = it->out;
    it->out = it->back = 0;
    return 0;
}

// ---- works

static int echo_one(Connection *it) {
    memset(it->sends, 1, echo_sent);
    it->out = echo_sent;
    return send_all(it) || read_whole(it, it->comes, echo_back) ? -1 : 0;
}

// Any row from one on.
static int select_from(Connection *it, int first) {
    it->seed = it->seed * 1103515245u + 12345u;
    return protocol->select(it, first + (it->seed >> 8) % (rows - first));
}

// No two connections have a row in common.
static int update_own(Connection *it, long at) { return protocol->update(it, (it->id * OWN_ROWS + at % OWN_ROWS) % rows); }

static int one(Connection *it, long at) {
    int key = it->id * KEYS_OF_A_CONNECTION + at;
    switch (work[0]) {
    case 'i': return protocol->insert(it, key);
    case 's': return select_from(it, 0);
    case 'u': return update_own(it, at);
    case 'm': return at % (SELECTS_OF_MIXED + 1) < SELECTS_OF_MIXED ? select_from(it, MOST * OWN_ROWS) : update_own(it, at / (SELECTS_OF_MIXED + 1));
    case 'b': return protocol->branch(it, key, at);
    case 'p': return protocol->ping(it);
    default: return echo_one(it);
    }
}

static void connect_to(Connection *it) {
    int yes = 1;
    struct sockaddr_in to = {.sin_family = AF_INET, .sin_port = htons(port), .sin_addr = {htonl(INADDR_LOOPBACK)}};
    it->fd = socket(AF_INET, SOCK_STREAM, 0);
    if (it->fd < 0 || connect(it->fd, (struct sockaddr *)&to, sizeof to)) {
        fail(it, "no connection");
        return;
    }
    setsockopt(it->fd, IPPROTO_TCP, TCP_NODELAY, &yes, sizeof yes);
}

// What stands before the exchanges that count.
static void get_ready(Connection *it, int id) {
    it->id = id;
    it->seed = id * 7 + 1;
    connect_to(it);
    if (it->failed || echo_sent || protocol->log_in(it)) return;
    const char *kinds = strchr("ibf", work[0]) ? "i" : work[0] == 's' ? "s" : work[0] == 'u' ? "u" : work[0] == 'm' ? "su" : "";
    while (*kinds && !protocol->prepare(it, *kinds)) kinds++;
}

// Keeps the time of an exchange. What grows here moves no bytes: the system lays its pages elsewhere.
static int keep(Connection *it, double seconds) {
    if (it->counted == it->places) {
        it->places = it->places ? 2 * it->places : FIRST_PLACES;
        double *times = realloc(it->times, it->places * sizeof *times);
        if (!times) return fail(it, "no memory");
        it->times = times;
    }
    it->times[it->counted++] = seconds;
    return 0;
}

static void *run(void *given) {
    Connection *it = given;
    double last = now();
    for (long at = 0; !it->failed && last < until; at++) {
        double began = last;
        if (one(it, at)) break;
        last = now();
        if (began >= from && last <= until && keep(it, last - began)) break;
    }
    return 0;
}

static int by_size(const void *one, const void *other) {
    double a = *(const double *)one, b = *(const double *)other;
    return a < b ? -1 : a > b;
}

// What came of all connections, on one line.
static int tell(Connection **all, int count, double seconds) {
    long counted = 0, taken = 0, failed = 0;
    for (int at = 0; at < count; at++) counted += all[at]->counted;
    double *times = malloc(sizeof *times * (counted + 1));
    if (!times) return 2;
    for (int at = 0; at < count; at++) {
        if (all[at]->counted) memcpy(times + taken, all[at]->times, all[at]->counted * sizeof *times);
        taken += all[at]->counted;
        if (all[at]->failed && !failed++) fprintf(stderr, "connection %d: %s\n", at, all[at]->said);
    }
    qsort(times, counted, sizeof *times, by_size);
    printf("%.0f", counted / seconds);
    static const int slower[] = {2, 100, 1000};
    for (int at = 0; at < 3; at++) printf(" %.0f", counted ? times[counted - 1 - counted / slower[at]] * 1e6 : 0);
    printf(" %zu %zu %ld %ld %.0f\n", all[0]->sent, all[0]->back, failed, counted, counted ? times[counted - 1] * 1e6 : 0);
    return failed > 0;
}

static int load(int count, double seconds) {
    static Connection *all[MOST];
    static pthread_t threads[MOST];
    const char *warm = getenv("WARM");
    for (int at = 0; at < count; at++) {
        all[at] = calloc(1, sizeof(Connection));
        if (!all[at]) return 2;
        get_ready(all[at], at);
    }
    from = now() + (warm ? atof(warm) : 1);
    until = from + seconds;
    for (int at = 0; at < count; at++) {
        if (pthread_create(&threads[at], 0, run, all[at])) return 2;
    }
    for (int at = 0; at < count; at++) pthread_join(threads[at], 0);
    return tell(all, count, seconds);
}

int main(int argc, char **argv) {
    if (argc < 8) return 2;
    const char *server = argv[1];
    if (!strncmp(server, "postgres:", 9)) protocol = &of_postgres, server += 9;
    port = atoi(server), database = argv[2], user = argv[3], password = argv[4], work = argv[5];
    int count = atoi(argv[6]);
    if (argc > 8) table = argv[8];
    if (argc > 9) rows = atoi(argv[9]);
    sscanf(work, "echo:%d:%d", &echo_sent, &echo_back);
    sscanf(work, "branch:%d", &commit_call);
    if (count < 1 || count > MOST || rows < 1 || (work[0] == 'm' && rows <= MOST * OWN_ROWS) || echo_sent > ROOM || echo_back > ROOM || (work[0] == 'p' && !protocol->ping)) return 2;
    struct timespec today;
    clock_gettime(CLOCK_REALTIME, &today);
    run_number = today.tv_sec * 1000ull + today.tv_nsec / 1000000;
    if (strcmp(work, "create") && strcmp(work, "fill")) return load(count, atof(argv[7]));
    Connection *it = calloc(1, sizeof *it);
    if (!it) return 2;
    get_ready(it, 0);
    if (!it->failed) work[0] == 'c' ? protocol->create(it) : protocol->fill(it);
    if (it->failed) fprintf(stderr, "%s: %s\n", work, it->said);
    return it->failed;
}
