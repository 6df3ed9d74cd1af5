"""python3 -m drdad.dump HOST:PORT/RDB --user USER TABLE..: writes SQL on standard output that makes the tables anew, as they are at
one moment: of each, in order of names, its CREATE TABLE and its rows in order of keys, with a \\commit for the shell before a unit
grows too large. The last line counts what was written. One unit reads all the tables: until it has ended, what others want to write
there is refused (-913). Status 0; 1 where a table can't be read, 2 where no connection came."""
import argparse, contextlib, random, sys, time

from . import connect
from .errors import Error
from .type_objects import BINARY, NUMBER
from .units import ROWS_AT_ONCE, in_units
from .words import add_user, address, password_of

# SQLCODEs (docs/SQL.md).
IS_ASSIGNED_WRONGLY, IS_THERE, IS_CLAIMED = -104, -803, -913
BITS = {"SMALLINT": 16, "INTEGER": 32, "BIGINT": 64}
# A made-up text or bytes are so long where their column takes it.
MADE_UP = 12
PAUSES = 0.005, 0.05
WAITS = 10.0


def words_of(arguments):
    parser = argparse.ArgumentParser(prog="python3 -m drdad.dump", description="Writes SQL that makes tables anew.")
    parser.add_argument("address", type=address, metavar="HOST:PORT/RDB", help="where the server listens, and the name of its database")
    parser.add_argument("tables", nargs="+", metavar="TABLE", help="a table that is written")
    parser.add_argument("--wait", type=float, default=WAITS, metavar="SECONDS", help="how long others' claims are waited for (10)")
    add_user(parser)
    return parser.parse_args(arguments)


# ---- spelling

def spelled(value):
    """A value as the literal that stands for it."""
    if value is None:
        return "NULL"
    if isinstance(value, bytes):
        return f"X'{value.hex().upper()}'"
    return str(value) if isinstance(value, int) else "'" + value.replace("'", "''") + "'"


def spelled_column(item):
    """A column of a description as CREATE TABLE has it."""
    length = "" if item[1] in BITS else f"({item[3]})"
    return f"{item[0]} {item[1]}{length}{'' if item[6] else ' NOT NULL'}"


def creation(table, columns, key):
    return f"CREATE TABLE {table} ({', '.join(map(spelled_column, columns))}, PRIMARY KEY ({', '.join(key)}))"


def insertion(table, row):
    return f"INSERT INTO {table} VALUES ({', '.join(map(spelled, row))})"


# ---- keys

def made_up(item):
    """Some value that the column takes, which hardly any row has."""
    if item[1] == NUMBER:
        return random.getrandbits(BITS[item[1]]) - (1 << BITS[item[1]] - 1)
    data = random.randbytes(min(item[3], MADE_UP))
    return data if item[1] == BINARY else "".join(chr(ord("a") + one % 26) for one in data)


def two_made_up(item):
    """Two of them, the lower first."""
    while (first := made_up(item)) == (second := made_up(item)):
        pass
    return min(first, second), max(first, second)


def are_equal(values):
    """A condition that columns have these values."""
    return " AND ".join(f"{name} = {spelled(value)}" for name, value in values.items())


def key_names(cursor, table, columns):
    """The columns of the key, in the order of the table: those that no UPDATE may assign. The UPDATEs name one row, which is made
    up, so that no more than its key is claimed."""
    where = are_equal({item[0]: made_up(item) for item in columns})
    found = []
    for item in columns:
        try:
            cursor.execute(f"UPDATE {table} SET {item[0]} = {item[0]} WHERE {where}")
        except Error as refusal:
            if refusal.sqlcode != IS_ASSIGNED_WRONGLY:
                raise
            found.append(item[0])
    return found


def ordered_names(cursor, table, columns, names):
    """The columns of the key in its order. Of as many rows as it has columns, each high in another one and low in the others, that
    which is high in the last column comes first."""
    pairs = {item[0]: two_made_up(item) for item in columns if item[0] in names}
    keys = [{name: pair[name == high] for name, pair in pairs.items()} for high in names]
    for key in keys:
        row = [key.get(item[0], None if item[6] else made_up(item)) for item in columns]
        try:
            cursor.execute(insertion(table, row))
        except Error as refusal:
            if refusal.sqlcode != IS_THERE:
                raise
    where = " OR ".join(map(are_equal, keys))
    listed = cursor.execute(f"SELECT {', '.join(names)} FROM {table} WHERE {where}").fetchall()
    return [names[keys.index(dict(zip(names, row)))] for row in reversed(listed)]


def key_of(connection, table, columns):
    """The columns of the key, in its order. No answer of the server lists them, so they are tried, in a unit that is rolled back."""
    with connection.cursor() as cursor:
        names = key_names(cursor, table, columns)
        if len(names) > 1:
            names = ordered_names(cursor, table, columns, names)
    connection.rollback()
    return names


# ---- units

def patiently(connection, wait, work):
    """What the work gives, done again in another unit where others' claims are in its way, for so many seconds."""
    ends = time.monotonic() + wait
    while True:
        try:
            return work()
        except Error as refusal:
            if connection.is_open():
                connection.rollback()
            if refusal.sqlcode != IS_CLAIMED or time.monotonic() > ends:
                raise
            time.sleep(random.uniform(*PAUSES))


def claim_all(connection, schemas):
    """Has the unit claim to read each table whole: from here on they stay as they are until it ends."""
    with connection.cursor() as cursor:
        for table, (_, key) in schemas.items():
            cursor.execute(f"SELECT {key[0]} FROM {table} WHERE {key[0]} IS NULL").fetchall()


def rows_of(connection, table):
    with connection.cursor() as cursor:
        cursor.execute(f"SELECT * FROM {table}")
        while rows := cursor.fetchmany(ROWS_AT_ONCE):
            yield from rows


# ---- the dump

def statements(connection, table, columns, key):
    """The statements that make a table, in lists of one unit each."""
    yield [creation(table, columns, key)]
    for rows in in_units(rows_of(connection, table)):
        yield [insertion(table, row) for row in rows]


def schema_of(connection, table, wait):
    """The columns of a table, and the names of its key."""
    try:
        columns = connection.describe(f"SELECT * FROM {table}")
        return columns, patiently(connection, wait, lambda: key_of(connection, table, columns))
    except Error as refusal:
        raise type(refusal)(f"{table}: {refusal}", refusal.sqlcode, refusal.sqlstate) from refusal


def write_table(connection, table, schema, write):
    """Writes the units of a table, and gives how many rows they have."""
    count = -1
    for unit in statements(connection, table, *schema):
        count += len(unit)
        write("".join(f"{statement};\n" for statement in unit) + "\\commit\n")
    return count


@contextlib.contextmanager
def no_autocommit(connection):
    """Here the connection is not in autocommit mode; nothing of what is done here stays."""
    was, connection.autocommit = connection.autocommit, False
    try:
        yield
    finally:
        if connection.is_open():
            connection.rollback()
            connection.autocommit = was


def dump(connection, tables, write, say, wait=WAITS):
    """Writes SQL that makes the tables anew. The connection has no unit under way; `say` is told what is claimed, and how many rows each
    table has; others' claims are waited for so many seconds."""
    with no_autocommit(connection):
        write_all(connection, sorted({table.upper() for table in tables}), write, say, wait)


def write_all(connection, names, write, say, wait):
    doubts = connection.tpc_recover()
    schemas = {table: schema_of(connection, table, wait) for table in names}
    patiently(connection, wait, lambda: claim_all(connection, schemas))
    say(f"claims to read all of {', '.join(names)}: until the end others can't write there (-913)")
    write("".join(f"-- in doubt, and not in here: {xid}\n" for xid in doubts) + "\\autocommit off\n")
    total = 0
    for table, schema in schemas.items():
        count = write_table(connection, table, schema, write)
        say(f"{table}: rows {count}")
        total += count
    write(f"\\autocommit on\n-- the end: tables {len(names)}, rows {total}\n")


def run(connection_made, tables, wait=WAITS):
    """Writes the tables on standard output over a connection that is made for it. The status."""
    sys.stdout.reconfigure(encoding="utf-8", newline="\n")
    try:
        connection = connection_made()
    except (Error, OSError, UnicodeError) as failure:
        print(f"drdad: {failure}", file=sys.stderr)
        return 2
    with connection:
        try:
            dump(connection, tables, sys.stdout.write, lambda line: print(f"drdad: {line}", file=sys.stderr), wait)
        except (Error, OSError) as failure:
            print(f"drdad: {failure}", file=sys.stderr)
            return 1
    return 0


def main(arguments=None):
    words = words_of(arguments)
    return run(lambda: connect(*words.address, words.user, password_of(words), words.timeout), words.tables, words.wait)


if __name__ == "__main__":
    sys.exit(main())
