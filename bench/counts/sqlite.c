/* sqlite WORD COUNT: what bench/counts/measure asks of drdad, in SQLite in memory with prepared statements: COUNT rows put in,
   each in a transaction of its own (insert) or 1,000 a transaction (batch); COUNT look-ups by key among 10,000 rows, each in a
   transaction of its own up to 1,000 (point); COUNT rows of 96 bytes read from a table of 8,000 (scan), or tested there and none found (test). */
#include <sqlite3.h>
#include <stdio.h>
#include <stdlib.h>
#include <string.h>

static sqlite3 *db;

static void check(int code, int wanted)
{
    if (code != wanted) {
        fprintf(stderr, "sqlite: %s\n", sqlite3_errmsg(db));
        exit(1);
    }
}

static void run(const char *text) { check(sqlite3_exec(db, text, NULL, NULL, NULL), SQLITE_OK); }

static sqlite3_stmt *prepared(const char *text)
{
    sqlite3_stmt *statement;
    check(sqlite3_prepare_v2(db, text, -1, &statement, NULL), SQLITE_OK);
    return statement;
}

/* A number below 2^30, which no other number below 2^30 gives. */
static int scattered(long number) { return (int)(number * 2654435761L % (1L << 30)); }

static void put(sqlite3_stmt *statement, long number, const char *text, int length)
{
    check(sqlite3_bind_int(statement, 1, scattered(number)), SQLITE_OK);
    check(sqlite3_bind_text(statement, 2, text, length, SQLITE_STATIC), SQLITE_OK);
    check(sqlite3_step(statement), SQLITE_DONE);
    check(sqlite3_reset(statement), SQLITE_OK);
}

static void fill(long rows, int length)
{
    static char text[100];
    memset(text, 'a', sizeof text);
    sqlite3_stmt *statement = prepared("INSERT INTO t (k, v) VALUES (?, ?)");
    run("BEGIN");
    for (long number = 0; number < rows; number++)
        put(statement, number, text, length);
    run("COMMIT");
    check(sqlite3_finalize(statement), SQLITE_OK);
}

static void insert(long count, long a_unit)
{
    sqlite3_stmt *statement = prepared("INSERT INTO t (k, v) VALUES (?, ?)");
    sqlite3_stmt *begin = prepared("BEGIN"), *commit = prepared("COMMIT");
    for (long number = 0; number < count; number++) {
        if (number % a_unit == 0) {
            check(sqlite3_step(begin), SQLITE_DONE);
            check(sqlite3_reset(begin), SQLITE_OK);
        }
        put(statement, number, "apple", 5);
        if (number % a_unit == a_unit - 1) {
            check(sqlite3_step(commit), SQLITE_DONE);
            check(sqlite3_reset(commit), SQLITE_OK);
        }
    }
}

static void point(long count)
{
    sqlite3_stmt *statement = prepared("SELECT v FROM t WHERE k = ?");
    for (long number = 0; number < count; number++) {
        check(sqlite3_bind_int(statement, 1, scattered(number * 7919 % 10000)), SQLITE_OK);
        check(sqlite3_step(statement), SQLITE_ROW);
        if (sqlite3_column_bytes(statement, 0) != 20)
            exit(2);
        check(sqlite3_step(statement), SQLITE_DONE);
        check(sqlite3_reset(statement), SQLITE_OK);
    }
}

static void scan(long count)
{
    sqlite3_stmt *statement = prepared("SELECT k, v FROM t ORDER BY k");
    long seen = 0;
    while (seen < count) {
        while (sqlite3_step(statement) == SQLITE_ROW) {
            seen += sqlite3_column_int(statement, 0) >= 0;
            if (sqlite3_column_bytes(statement, 1) != 88 || !sqlite3_column_text(statement, 1))
                exit(2);
        }
        check(sqlite3_reset(statement), SQLITE_OK);
    }
}

static void test(long count)
{
    sqlite3_stmt *statement = prepared("SELECT k FROM t WHERE v IS NOT NULL AND w > 5");
    for (long seen = 0; seen < count; seen += 8000) {
        check(sqlite3_step(statement), SQLITE_DONE);
        check(sqlite3_reset(statement), SQLITE_OK);
    }
}

int main(int argc, char **words)
{
    long count = argc == 3 ? atol(words[2]) : 0;
    check(sqlite3_open(":memory:", &db), SQLITE_OK);
    run("CREATE TABLE t (k INTEGER NOT NULL PRIMARY KEY, v VARCHAR(100) NOT NULL, w BIGINT)");
    if (argc == 3 && strcmp(words[1], "insert") == 0) {
        insert(count, 1);
    } else if (argc == 3 && strcmp(words[1], "batch") == 0) {
        insert(count, 1000);
    } else if (argc == 3 && strcmp(words[1], "point") == 0) {
        fill(10000, 20);
        point(count);
    } else if (argc == 3 && strcmp(words[1], "scan") == 0) {
        fill(8000, 88);
        scan(count);
    } else if (argc == 3 && strcmp(words[1], "test") == 0) {
        fill(8000, 80);
        test(count);
    } else {
        fprintf(stderr, "sqlite insert|batch|point|scan|test COUNT\n");
        return 2;
    }
    return 0;
}
