// Works over DRDA: drdad and Derby are sent the same bytes.
#include "client.h"
#include <stdio.h>
#include <string.h>

enum { OF_INSERT = 1, OF_SELECT, OF_UPDATE, OF_NOTHING = 9 };
enum { ENDS_CHAIN = 0x01, ENDS_COMMAND = 0x41, HAS_DATA = 0x51, LAST_DATA = 0x03, DATA = 0x43 };

// ---- bytes that are sent

static void set_length(Connection *it, size_t begin) {
    it->sends[begin] = (it->out - begin) >> 8;
    it->sends[begin + 1] = it->out - begin;
}

static void open_dss(Connection *it, int form, int correlator) {
    it->dss = it->out;
    put_number(it, 0xD000 | form, 4);
    put_number(it, correlator, 2);
}

static void close_dss(Connection *it) { set_length(it, it->dss); }

static void open_object(Connection *it, int code) {
    it->object[it->depth++] = it->out;
    put_number(it, code, 4);
}

static void close_object(Connection *it) { set_length(it, it->object[--it->depth]); }

static void put_bytes(Connection *it, int code, const void *bytes, size_t count) {
    put_number(it, (4 + count) << 16 | code, 4);
    put(it, bytes, count);
}

static void put_value(Connection *it, int code, uint64_t value, int bytes) {
    put_number(it, (uint64_t)(4 + bytes) << 16 | code, 4);
    put_number(it, value, bytes);
}

// A name of at most 18 letters with blanks behind it, in code page 500 or as it is.
static void put_name(Connection *it, int code, const char *name, int width, int is_ebcdic) {
    unsigned char bytes[18];
    memset(bytes, is_ebcdic ? 0x40 : ' ', sizeof bytes);
    for (int at = 0; name[at] && at < 18; at++) {
        unsigned char letter = name[at], folded = letter & 0xDF, of_nine = (folded - 'A') % 9;
        int is_digit = letter >= '0' && letter <= '9', is_small = letter >= 'a';
        unsigned char third = folded < 'J' ? 0xC1 : folded < 'S' ? 0xD1 : 0xE2;
        unsigned char page_500 = is_digit ? letter - '0' + 0xF0 : third + (folded >= 'S' ? folded - 'S' : of_nine) - (is_small ? 0x40 : 0);
        bytes[at] = is_ebcdic ? page_500 : letter;
    }
    put_bytes(it, code, bytes, width ? width : (int)strlen(name));
}

// ---- replies

// A parameter in an object's contents, or none.
static const unsigned char *parameter(const unsigned char *contents, size_t size, unsigned code) {
    for (size_t at = 0; at + 4 <= size;) {
        unsigned length = number(contents + at, 2);
        if (number(contents + at + 2, 2) == code) return contents + at + 4;
        at += length < 4 ? 4 : length;
    }
    return 0;
}

static void take_object(Connection *it, unsigned code, const unsigned char *data, size_t size) {
    const unsigned char *found;
    if (code == 0x2408 && size > 10 && !data[0]) {
        int sqlcode = (int)number(data + 1, 4);
        if (sqlcode < 0) fail(it, "SQLCODE %d", sqlcode);
    } else if (code == 0x241B && size > 6 && data[0] == 0xFF) {
        it->key = (int)number(data + 2, 4);
    } else if (code == 0x1248 && (found = parameter(data, size, 0x1904))) {
        it->xa_code = (int)number(found, 4);
    } else if (code == 0x1219 && (found = parameter(data, size, 0x11A4)) && *found) {
        fail(it, "SECCHKCD %02X", *found);
    } else if ((code >> 8 == 0x22 || code >> 8 == 0x12) && (found = parameter(data, size, 0x1149)) && number(found, 2) >= 8) {
        fail(it, "a message %04X", code);
    }
}

// Sends what was put, and takes the replies up to the end of their chain.
static int exchange(Connection *it) {
    unsigned char header[6];
    if (send_all(it)) return -1;
    do {
        if (read_whole(it, header, 6)) return -1;
        size_t size = number(header, 2) - 6;
        if (header[0] & 0x80 || size > ROOM) return fail(it, "a reply of more than a segment");
        if (read_whole(it, it->comes, size)) return -1;
        for (size_t at = 0; at + 4 <= size;) {
            size_t length = number(it->comes + at, 2);
            if (length < 4 || at + length > size) return fail(it, "a reply of another form");
            take_object(it, number(it->comes + at + 2, 2), it->comes + at + 4, length - 4);
            at += length;
        }
    } while (header[3] & 0x40);
    return -it->failed;
}

// ---- commands

static void put_attributes(Connection *it, int form) {
    static const unsigned short levels[] = {0x1403, 7, 0x2407, 7, 0x240F, 7, 0x1440, 7, 0x1C08, 1208, 0x1C01, 7};
    open_dss(it, form, 1);
    open_object(it, 0x1041);
    put_name(it, 0x115E, "load", 0, 1);
    put_name(it, 0x116D, "load", 0, 1);
    put_name(it, 0x115A, "DNC10140", 0, 1);
    open_object(it, 0x1404);
    for (int at = 0; at < 12; at++) put_number(it, levels[at], 2);
    close_object(it);
    put_name(it, 0x1147, "LOAD", 0, 1);
    close_object(it);
    close_dss(it);
}

static void access_security(Connection *it) {
    open_dss(it, ENDS_CHAIN, 2);
    open_object(it, 0x106D);
    put_value(it, 0x11A2, 3, 2);
    put_name(it, 0x2110, database, 18, 1);
    close_object(it);
    close_dss(it);
}

static void check_security(Connection *it) {
    open_dss(it, ENDS_COMMAND, 1);
    open_object(it, 0x106E);
    put_value(it, 0x11A2, 3, 2);
    put_name(it, 0x2110, database, 18, 0);
    put_bytes(it, 0x11A0, user, strlen(user));
    put_bytes(it, 0x11A1, password, strlen(password));
    close_object(it);
    close_dss(it);
}

static void access_database(Connection *it) {
    static const unsigned char token[] = "\xD5\xC6\xF0\xF0\xF0\xF0\xF0\xF1\x2E\xD6\xF0\xC3\xC4\xC3\1\2\3\4\5";
    open_dss(it, ENDS_CHAIN, 2);
    open_object(it, 0x2001);
    put_name(it, 0x2110, database, 18, 0);
    put_value(it, 0x210F, 0x2407, 2);
    put_bytes(it, 0x112E, "DNC10140", 8);
    put_bytes(it, 0x002F, "QTDSQLASC", 9);
    put_bytes(it, 0x2135, token, 19);
    open_object(it, 0x0035);
    put_value(it, 0x119C, 1208, 2);
    put_value(it, 0x119D, 1200, 2);
    put_value(it, 0x119E, 1208, 2);
    close_object(it);
    close_object(it);
    close_dss(it);
}

static void put_section(Connection *it, int section) {
    open_object(it, 0x2113);
    char names[54];
    memset(names, ' ', sizeof names);
    memcpy(names, database, strlen(database) > 18 ? 18 : strlen(database));
    memcpy(names + 18, "NULLID", 6);
    memcpy(names + 36, "SYSLN000", 8);
    put(it, names, sizeof names);
    put(it, "SYSLVL01", 8);
    put_number(it, section, 2);
    close_object(it);
}

static void open_command(Connection *it, int form, int correlator, int code, int section) {
    open_dss(it, form, correlator);
    open_object(it, code);
    put_section(it, section);
}

static void close_command(Connection *it) {
    close_object(it);
    close_dss(it);
}

// A command with a statement, and the end of its unit.
static int run_statement(Connection *it, int code, int section, int parameter, int value, const char *form) {
    char text[200];
    snprintf(text, sizeof text, form, table);
    open_command(it, HAS_DATA, 1, code, section);
    put_value(it, parameter, value, 1);
    close_command(it);
    open_dss(it, DATA, 1);
    open_object(it, 0x2414);
    put_number(it, strlen(text), 5);
    put(it, text, strlen(text));
    put_number(it, 0xFF, 1);
    close_command(it);
    open_dss(it, ENDS_CHAIN, 2);
    open_object(it, 0x200E);
    close_command(it);
    return exchange(it);
}

// SQLDTA: a key, and a text of this letter where there is one, behind the key or before it.
static void put_data(Connection *it, int form, int correlator, int key, char letter, int is_text_first) {
    static const unsigned char key_and_text[] = {9, 0x76, 0xD0, 3, 0, 4, 0x3F, 2, 0x58, 6, 0x71, 0xE4, 0xD0, 0, 1};
    static const unsigned char text_and_key[] = {9, 0x76, 0xD0, 0x3F, 2, 0x58, 3, 0, 4, 6, 0x71, 0xE4, 0xD0, 0, 1};
    static const unsigned char key_alone[] = {6, 0x76, 0xD0, 3, 0, 4, 6, 0x71, 0xE4, 0xD0, 0, 1};
    char text[VALUE];
    memset(text, letter, sizeof text);
    open_dss(it, form, correlator);
    open_object(it, 0x2412);
    if (letter) put_bytes(it, 0x0010, is_text_first ? text_and_key : key_and_text, sizeof key_and_text);
    else put_bytes(it, 0x0010, key_alone, sizeof key_alone);
    open_object(it, 0x147A);
    put_number(it, 0, 1);
    for (int place = 0; place < 2; place++) {
        if (place == is_text_first) {
            put_number(it, 0, 1);
            put_number(it, key, 4);
        } else if (letter) {
            put_number(it, VALUE, 3);
            put(it, text, sizeof text);
        }
    }
    close_object(it);
    close_command(it);
}

// EXCSQLSTT of what was prepared in a section.
static void put_change(Connection *it, int correlator, int form_of_data, int section, int key, char letter) {
    open_command(it, HAS_DATA, correlator, 0x200B, section);
    put_value(it, 0x2105, 0xF1, 1);
    close_command(it);
    put_data(it, form_of_data, correlator, key, letter, section == OF_UPDATE);
}

static void put_query(Connection *it, int key) {
    open_command(it, HAS_DATA, 1, 0x200C, OF_SELECT);
    put_value(it, 0x2114, 32767, 4);
    put_value(it, 0x215D, 1, 1);
    close_command(it);
    put_data(it, DATA, 1, key, 0, 0);
}

static void put_commit(Connection *it, int correlator) {
    open_dss(it, ENDS_CHAIN, correlator);
    open_object(it, 0x200E);
    close_command(it);
}

static int call_xa(Connection *it, int call, long branch, unsigned flags) {
    open_dss(it, ENDS_CHAIN, 1);
    open_object(it, 0x1055);
    put_value(it, 0x1187, call, 1);
    open_object(it, 0x1801);
    put_number(it, 1, 4);
    put_number(it, 8, 4);
    put_number(it, 8, 4);
    put_number(it, run_number, 8);
    put_number(it, (uint64_t)it->id << 32 | branch, 8);
    close_object(it);
    put_value(it, 0x1903, flags, 4);
    close_command(it);
    it->xa_code = -99;
    if (exchange(it)) return -1;
    return it->xa_code ? fail(it, "call %d of XA: %d", call, it->xa_code) : 0;
}

// ---- what a protocol does

static int ping(Connection *it) {
    put_attributes(it, ENDS_CHAIN);
    return exchange(it);
}

static int log_in(Connection *it) {
    put_attributes(it, ENDS_COMMAND);
    access_security(it);
    if (exchange(it)) return -1;
    check_security(it);
    access_database(it);
    return exchange(it);
}

static int create(Connection *it) {
    return run_statement(it, 0x200A, OF_NOTHING, 0x2105, 0xF1, "CREATE TABLE %s (K INTEGER NOT NULL, V VARCHAR(600), PRIMARY KEY (K))");
}

static int prepare(Connection *it, char kind) {
    int section = kind == 'i' ? OF_INSERT : kind == 's' ? OF_SELECT : OF_UPDATE;
    const char *form = kind == 'i' ? "INSERT INTO %s VALUES (?, ?)" : kind == 's' ? "SELECT K, V FROM %s WHERE K = ?" : "UPDATE %s SET V = ? WHERE K = ?";
    return run_statement(it, 0x200D, section, 0x2116, 0xF0, form);
}

// A hundred rows in a chain, and a thousand in a unit.
static int fill(Connection *it) {
    for (int key = 0; key < rows; key++) {
        int place = key % 100 + 1, is_last = place == 100 || key == rows - 1;
        put_change(it, place, is_last ? LAST_DATA : DATA, OF_INSERT, key, 'v');
        if (is_last && exchange(it)) return -1;
        if (key % 1000 != 999 && key != rows - 1) continue;
        put_commit(it, 1);
        if (exchange(it)) return -1;
    }
    return 0;
}

static int change(Connection *it, int section, int key, char letter) {
    put_change(it, 1, DATA, section, key, letter);
    put_commit(it, 2);
    return exchange(it);
}

static int insert(Connection *it, int key) { return change(it, OF_INSERT, key, 'v'); }

static int update(Connection *it, int key) { return change(it, OF_UPDATE, key, 'u' + (it->seed++ & 3)); }

static int select_one(Connection *it, int key) {
    it->key = -1;
    put_query(it, key);
    put_commit(it, 2);
    if (exchange(it)) return -1;
    return it->key == key ? 0 : fail(it, "row %d came for %d", it->key, key);
}

// Start, EXCSQLSTT, end, prepare, and commit, which is the call `commit_call` of SYNCCTL.
static int branch(Connection *it, int key, long at) {
    if (call_xa(it, 0x09, at, 0)) return -1;
    put_change(it, 1, LAST_DATA, OF_INSERT, key, 'v');
    if (exchange(it)) return -1;
    return call_xa(it, 0x0B, at, 0x04000000) || call_xa(it, 0x01, at, 0) || call_xa(it, commit_call, at, 0) ? -1 : 0;
}

const Protocol of_drda = {log_in, create, prepare, fill, insert, select_one, update, branch, ping};
