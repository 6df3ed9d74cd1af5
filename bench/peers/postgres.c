// Works over PostgreSQL's own protocol, with prepared statements and values in binary form.
#include "client.h"
#include <stdarg.h>
#include <stdio.h>
#include <string.h>

static void open_message(Connection *it, const char *kind) {
    put(it, kind, strlen(kind));
    it->dss = it->out;
    put_number(it, 0, 4);
}

static void close_message(Connection *it) {
    size_t length = it->out - it->dss;
    for (int at = 0; at < 4; at++) it->sends[it->dss + at] = length >> 8 * (3 - at);
}

static void put_text(Connection *it, const char *text) { put(it, text, strlen(text) + 1); }

// Sends what was put, and takes the answers until the server is ready for more.
static int take(Connection *it) {
    unsigned char head[5];
    if (send_all(it)) return -1;
    do {
        if (read_whole(it, head, 5)) return -1;
        size_t size = number(head + 1, 4) - 4;
        if (size > ROOM) return fail(it, "too long a message");
        if (read_whole(it, it->comes, size)) return -1;
        if (head[0] == 'E') fail(it, "%.*s", (int)(size < 120 ? size : 120), it->comes + 1);
        if (head[0] == 'D') it->key = (int)number(it->comes + 6, 4);
    } while (head[0] != 'Z');
    return -it->failed;
}

static int sync_and_take(Connection *it) {
    open_message(it, "S");
    close_message(it);
    return take(it);
}

static int ask(Connection *it, const char *form, ...) {
    char text[200];
    va_list values;
    va_start(values, form);
    vsnprintf(text, sizeof text, form, values);
    va_end(values);
    open_message(it, "Q");
    put_text(it, text);
    close_message(it);
    return take(it);
}

static int log_in(Connection *it) {
    open_message(it, "");
    put_number(it, 196608, 4);
    put_text(it, "user");
    put_text(it, user);
    put_text(it, "database");
    put_text(it, database);
    put_number(it, 0, 1);
    close_message(it);
    return take(it);
}

static int create(Connection *it) { return ask(it, "CREATE TABLE %s (K INTEGER NOT NULL PRIMARY KEY, V VARCHAR(600))", table); }

static int prepare(Connection *it, char kind) {
    const char name[] = {kind, 0};
    char text[200];
    const char *form = kind == 'i' ? "INSERT INTO %s VALUES ($1, $2)" : kind == 's' ? "SELECT K, V FROM %s WHERE K = $1" : "UPDATE %s SET V = $2 WHERE K = $1";
    snprintf(text, sizeof text, form, table);
    open_message(it, "P");
    put_text(it, name);
    put_text(it, text);
    put_number(it, 0, 2);
    close_message(it);
    return sync_and_take(it);
}

// Binds a key, and a text of this letter where there is one, and runs what was prepared.
static void put_run(Connection *it, const char *name, int key, char letter) {
    char value[VALUE];
    open_message(it, "B");
    put_text(it, "");
    put_text(it, name);
    put_number(it, 1, 2);
    put_number(it, 1, 2);
    put_number(it, letter ? 2 : 1, 2);
    put_number(it, 4, 4);
    put_number(it, key, 4);
    if (letter) {
        memset(value, letter, sizeof value);
        put_number(it, VALUE, 4);
        put(it, value, sizeof value);
    }
    put_number(it, 1, 2);
    put_number(it, 1, 2);
    close_message(it);
    open_message(it, "E");
    put_text(it, "");
    put_number(it, 0, 4);
    close_message(it);
}

static int fill(Connection *it) {
    for (int key = 0; key < rows; key++) {
        if (key % 1000 == 0 && ask(it, "BEGIN")) return -1;
        put_run(it, "i", key, 'v');
        int is_last = key == rows - 1;
        if ((key % 100 == 99 || is_last) && sync_and_take(it)) return -1;
        if ((key % 1000 == 999 || is_last) && ask(it, "COMMIT")) return -1;
    }
    return ask(it, "VACUUM ANALYZE %s", table);
}

static int insert(Connection *it, int key) {
    put_run(it, "i", key, 'v');
    return sync_and_take(it);
}

static int select_one(Connection *it, int key) {
    it->key = -1;
    put_run(it, "s", key, 0);
    if (sync_and_take(it)) return -1;
    return it->key == key ? 0 : fail(it, "row %d came for %d", it->key, key);
}

static int update(Connection *it, int key) {
    put_run(it, "u", key, 'u' + (it->seed++ & 3));
    return sync_and_take(it);
}

static int branch(Connection *it, int key, long at) {
    long run = run_number;
    if (ask(it, "BEGIN") || insert(it, key)) return -1;
    return ask(it, "PREPARE TRANSACTION 'g%ld_%d_%ld'", run, it->id, at) || ask(it, "COMMIT PREPARED 'g%ld_%d_%ld'", run, it->id, at) ? -1 : 0;
}

const Protocol of_postgres = {log_in, create, prepare, fill, insert, select_one, update, branch, 0};
