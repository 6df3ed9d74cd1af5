"""Many rows, in units that the server takes."""
import sys

from .errors import Error, ProgrammingError
from .units import in_units


def load(connection, table, rows, columns, progress):
    """Connection.load()."""
    if connection.unit_state() != "idle":
        raise ProgrammingError("load() comes behind a commit or a rollback")
    tells = show if progress is True else progress or (lambda count: None)
    count, cursor, autocommit = 0, connection.cursor(), connection.autocommit
    connection.autocommit = False
    try:
        for some in in_units(rows):
            cursor.executemany(_insert(table, columns, len(some[0])), some)
            connection.commit()
            count += len(some)
            tells(count)
    except Error as failure:
        _leave(connection, failure, count)
        raise
    except BaseException:
        if connection.is_open():
            connection.rollback()
        raise
    finally:
        if connection.is_open():
            connection.autocommit = autocommit
        if progress is True and count:
            show(None)
    return count


def _insert(table, columns, width):
    names = f" ({', '.join(columns)})" if columns else ""
    return f"INSERT INTO {table}{names} VALUES ({', '.join('?' * width)})"


def _leave(connection, failure, count):
    """The unit of the failure is rolled back, and the failure says which rows are in."""
    if connection.is_open():
        connection.rollback()
    failure.loaded, failure.done = count, [range(count)] if count else []
    where = ""
    if failure.row is not None:
        failure.row += count
        where = f"row {failure.row}: "
    failure.args = (f"{where}{failure.said}; {count} rows are in",)


def show(count):
    """A line that the next one writes over, where somebody looks."""
    if sys.stderr.isatty():
        print("\r" if count is None else f"\r{count} rows", end="" if count is not None else "\n", file=sys.stderr, flush=True)
