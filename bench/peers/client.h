// A connection to a server, and what each protocol does over it (drda.c, postgres.c).
#include <stddef.h>
#include <stdint.h>

enum { MOST = 64, ROOM = 1 << 17, VALUE = 92 };

typedef struct {
    int fd, id, failed, key, xa_code;
    uint32_t seed;
    // What is to be sent, how much the last exchange sent and had back, and the lengths that are still open.
    size_t out, sent, back, object[4], depth, dss;
    // What was read, and where what is not taken yet begins and ends.
    size_t taken, read;
    unsigned char sends[ROOM], reads[ROOM], comes[ROOM];
    char said[160];
    // The seconds of each exchange that counts, how many they are, and how many have a place.
    double *times;
    long counted, places;
} Connection;

// What is done over a connection. Each is 0 where it went well; else it has said why (`fail`).
typedef struct {
    int (*log_in)(Connection *);
    // Makes the table.
    int (*create)(Connection *);
    // Statements are prepared: i an INSERT of a row, s a SELECT of a row, u an UPDATE of a row, each by the key.
    int (*prepare)(Connection *, char kind);
    // Puts rows into the table from 0 on.
    int (*fill)(Connection *);
    // A unit of one statement, with its commit.
    int (*insert)(Connection *, int key);
    int (*select)(Connection *, int key);
    int (*update)(Connection *, int key);
    // A global unit of one INSERT, prepared and then committed; `at` is its number.
    int (*branch)(Connection *, int key, long at);
    // The least that a server of DRDA can be asked; none over another protocol.
    int (*ping)(Connection *);
} Protocol;

extern const Protocol of_drda, of_postgres;
extern const char *database, *user, *password, *table;
extern int rows, commit_call;
extern uint64_t run_number;

int fail(Connection *it, const char *form, ...);
void put(Connection *it, const void *bytes, size_t count);
void put_number(Connection *it, uint64_t number, int bytes);
unsigned number(const unsigned char *at, int bytes);
int read_whole(Connection *it, unsigned char *to, size_t count);
int send_all(Connection *it);
