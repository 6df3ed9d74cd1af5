"""python3 -m drdad.move FROM TO --user USER TABLE..: fills tables of one database with the rows of another, as for a move to a larger
store. FROM and TO are HOST:PORT/RDB, and the user and the password are those of both. Each table has to be there, with the same
columns and no rows; what was moved is read back and compared. Status 0; 1 where something is in the way, 2 where no connection came."""
import argparse, itertools, sys

from . import connect
from .errors import Error, ProgrammingError
from .units import ROWS_AT_ONCE, in_units
from .words import add_user, address, password_of

BEHIND_THE_LAST = object()


def words_of(arguments):
    parser = argparse.ArgumentParser(prog="python3 -m drdad.move", description="Fills tables of one database with the rows of another.")
    parser.add_argument("source", type=address, metavar="FROM", help="HOST:PORT/RDB of the database that has the rows")
    parser.add_argument("target", type=address, metavar="TO", help="HOST:PORT/RDB of the database that gets them")
    parser.add_argument("tables", nargs="+", metavar="TABLE", help="a table, which stands in both")
    add_user(parser)
    return parser.parse_args(arguments)


def rows_of(connection, table):
    with connection.cursor() as cursor:
        cursor.execute(f"SELECT * FROM {table}")
        while rows := cursor.fetchmany(ROWS_AT_ONCE):
            yield from rows


def check(source, target, table):
    """Whether the table can be filled: both have it with the same columns, and the one that is filled has no rows."""
    columns = source.describe(f"SELECT * FROM {table}")
    if columns != target.describe(f"SELECT * FROM {table}"):
        raise ProgrammingError(f"{table} has other columns there")
    if next(rows_of(target, table), None) is not None:
        raise ProgrammingError(f"{table} has rows there already")
    return columns


def move(source, target, table, say):
    """Copies the rows of a table in units, compares them with what then stands there, and gives how many they are."""
    columns = check(source, target, table)
    statement = f"INSERT INTO {table} VALUES ({', '.join('?' * len(columns))})"
    count = 0
    for some in in_units(rows_of(source, table)):
        target.cursor().executemany(statement, some)
        target.commit()
        count += len(some)
        say(f"{table}: {count} rows")
    pairs = itertools.zip_longest(rows_of(source, table), rows_of(target, table), fillvalue=BEHIND_THE_LAST)
    if any(one != other for one, other in pairs):
        raise ProgrammingError(f"{table} has other rows there now")
    return count


def show_progress(text):
    """A line that the next one writes over, where somebody looks."""
    if sys.stderr.isatty():
        print(f"\r{text}", end="", file=sys.stderr, flush=True)


def move_all(source, target, tables):
    if source.tpc_recover():
        raise ProgrammingError("units are in doubt where the rows are: decide them first")
    for table in tables:
        count = move(source, target, table, show_progress)
        show_progress("")
        print(f"{table}: {count} rows moved, and read back", flush=True)


def main(arguments=None):
    words = words_of(arguments)
    try:
        password = password_of(words)
        source, target = (connect(*where, words.user, password, words.timeout) for where in (words.source, words.target))
    except (Error, OSError, UnicodeError) as failure:
        print(f"drdad: {failure}", file=sys.stderr)
        return 2
    with source, target:
        try:
            move_all(source, target, words.tables)
        except Error as failure:
            print(f"drdad: {failure}", file=sys.stderr)
            return 1
    return 0


if __name__ == "__main__":
    sys.exit(main())
