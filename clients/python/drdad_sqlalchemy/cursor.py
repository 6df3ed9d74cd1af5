"""A cursor over that of the client that takes IN, `!=`, ORDER BY, LIMIT and OFFSET as well (statements.py)."""
import itertools

from .statements import read


class Cursor:
    """What a statement says beyond the server's grammar is made here; all else is the client's cursor. `key` has the names of the
    key columns of its table in capitals, where they are known: a list of whole keys is then read key by key, in one unit."""

    def __init__(self, cursor, key=()):
        self._cursor, self._key = cursor, key
        self._begin()

    def _begin(self):
        self._rows = self._width = self._count = None

    def __getattr__(self, name):
        return getattr(self._cursor, name)

    @property
    def description(self):
        described = self._cursor.description
        return described and described[:self._width]

    @property
    def rowcount(self):
        """As of the client's cursor; of changes also once it is closed."""
        return self._cursor.rowcount if self._count is None else self._count

    def execute(self, operation, parameters=()):
        self._begin()
        statement = read(operation)
        if statement is not None and statement.is_select:
            self._gather(statement, tuple(parameters))
            return self
        self._cursor.execute(*(operation, parameters) if statement is None else statement.whole(parameters))
        if self._cursor.description is None:
            self._count = self._cursor.rowcount
        return self

    def executemany(self, operation, seq_of_parameters):
        self._begin()
        statement = read(operation)
        text = operation if statement is None else statement.whole(())[0]
        self._cursor.executemany(text, seq_of_parameters)
        self._count = self._cursor.rowcount
        return self

    def _gather(self, statement, parameters):
        """Brings all rows that the statement is answered."""
        first, end = statement.window(parameters)
        needed = None if statement.order else end
        rows = []
        for text, values in self._parts(statement, parameters):
            self._cursor.execute(text, values)
            rows += self._cursor.fetchall() if needed is None else self._cursor.fetchmany(needed - len(rows))
            if needed is not None and len(rows) >= needed:
                break
        names = [column[0] for column in self._cursor.description]
        unknown = [order.name for order in statement.order if order.name not in names]
        if unknown:
            raise self._cursor.connection.ProgrammingError(f"the rows have no column {unknown[0]} to be sorted by")
        self._width = len(names) - statement.hidden
        rows = statement.arranged(rows, names)[first:end]
        self._rows, self._count = iter(rows), len(rows)

    def _parts(self, statement, parameters):
        """Several statements read one state of the table only inside of one unit."""
        if self._cursor.connection.autocommit:
            return [statement.whole(parameters)]
        return statement.parts(parameters, self._key)

    def fetchone(self):
        return self._cursor.fetchone() if self._rows is None else next(self._rows, None)

    def fetchmany(self, size=None):
        if self._rows is None:
            return self._cursor.fetchmany(size)
        return list(itertools.islice(self._rows, self._cursor.arraysize if size is None else size))

    def fetchall(self):
        return self._cursor.fetchall() if self._rows is None else list(self._rows)
