"""Cursors: statements, their parameters, and the rows that they give."""
from __future__ import annotations

import functools, re
from collections.abc import Iterable, Sequence
from typing import TYPE_CHECKING, Any

from . import reasons, wire
from .errors import DataError, Error, InterfaceError, NotSupportedError, ProgrammingError
from .query import Query
from .threads import alone

if TYPE_CHECKING:
    from .connection import Connection

# So many rows of an executemany are sent in one chain.
ROWS_AT_ONCE = 1000

FIRST_WORD = re.compile(rb"[ \t\r\n]*([A-Za-z]*)")
BLANKS = b" \t\r\n"


def statement_of(operation):
    """The text of a statement, which has to be UTF-8 of at most 32,767 bytes, without a `;` at its end, and its first word."""
    if not isinstance(operation, str):
        raise ProgrammingError("a statement is a text")
    return _statement_of(operation)


@functools.lru_cache(maxsize=256)
def _statement_of(operation):
    try:
        text = operation.encode("utf-8")
    except UnicodeEncodeError as fault:
        raise DataError("the statement is not UTF-8") from fault
    if text.rstrip(BLANKS).endswith(b";"):
        text = text.rstrip(BLANKS)[:-1]
    if len(text) > wire.LONGEST_STATEMENT:
        raise ProgrammingError(f"the statement has {len(text)} bytes, and may have {wire.LONGEST_STATEMENT}")
    return text, first_word(text)


def first_word(text):
    """No statement has anything but blanks in front of its first word."""
    return FIRST_WORD.match(text)[1].upper()


def described_data(parameters):
    """The SQLDTA of parameters, as a list of one; of none an empty one. What no column takes is told here, before anything
    is sent."""
    if isinstance(parameters, (str, bytes, bytearray, dict, set, frozenset)):
        raise ProgrammingError("parameters are a sequence of values, one for each question mark")
    try:
        values = tuple(parameters)
    except TypeError as fault:
        raise ProgrammingError("parameters are a sequence of values, one for each question mark") from fault
    if len(values) > wire.MOST_PARAMETERS:
        raise ProgrammingError(f"{len(values)} parameters, and a statement takes at most {wire.MOST_PARAMETERS}")
    try:
        return [wire.parameters(values)] if values else []
    except UnicodeEncodeError as fault:
        raise DataError("a text is not UTF-8") from fault
    except ValueError as fault:
        raise DataError(str(fault)) from fault
    except TypeError as fault:
        raise NotSupportedError(str(fault)) from fault


def _runs(section, data):
    """The commands that run a section's statement with each of these parameters."""
    request = section.run_request()
    return [(request, *one) for one in data]


def _ranges(at, flags):
    """The places of the rows that were done: those before a place, and of those from there on those that are flagged."""
    found = [range(at)] if at else []
    for place, is_done in enumerate(flags, at):
        if is_done and found and found[-1].stop == place:
            found[-1] = range(found[-1].start, place + 1)
        elif is_done:
            found.append(range(place, place + 1))
    return found


class Cursor:
    """A statement at a time, and the rows that it gives. Its rows outlast a commit; a rollback, and the end of work in a
    global unit, take away those that have not come yet."""

    arraysize = 1
    lastrowid = None

    def __init__(self, connection: Connection):
        self._connection, self._alone, self._is_closed = connection, connection._alone, False
        self._query: Query | None = None
        self._description: list[tuple] | None = None
        self._count = -1

    @property
    def connection(self) -> Connection:
        return self._connection

    @property
    def closed(self) -> bool:
        """Whether it, or its connection, is closed."""
        return self._is_closed or self._connection.closed

    @property
    def description(self) -> list[tuple] | None:
        return self._description

    @property
    def rowcount(self) -> int:
        """Rows changed, or rows of the query; -1 where there was none, or while the server has more to send."""
        return self._count if self._query is None else self._query.count()

    @property
    def rownumber(self) -> int | None:
        """The place, from 0, of the row that is fetched next; None where there are no rows."""
        return None if self._query is None else self._query.number()

    def _check_open(self):
        if self._is_closed:
            raise InterfaceError("the cursor is closed")
        self._connection._check_open()

    def _begin(self):
        """Gives up the rows of the statement before."""
        query, self._query, self._description, self._count = self._query, None, None, -1
        if query is not None:
            self._connection._abandon(query)

    # ---- statements

    @alone
    def execute(self, operation: str, parameters: Sequence[Any] | None = ()) -> Cursor:
        """Runs a statement; its parameters are the values of its question marks. Gives the cursor itself."""
        self._check_open()
        text, word = statement_of(operation)
        data = described_data(parameters) if parameters else []
        self._connection._check_works()
        self._begin()
        try:
            self._run(text, word, data)
        except Error as failure:
            raise reasons.explained(failure, text) from failure.__cause__
        return self

    def _run(self, text, word, data):
        connection, sent = self._connection, data[0] if data else b""
        if word == b"SELECT":
            self._query = connection._open_again(text, sent)
            if self._query is None:
                self._open(text, data)
            self._description = list(self._query.section.description)
        elif data:
            count = connection._run_again(text, sent)
            if count is None:
                count = self._rows_of(connection._through(text, False, lambda section: _runs(section, [data]))[1])
            self._count = count
        else:
            count = self._rows_of(connection._work((wire.ddm(wire.EXCSQLIMM), wire.statement(text))))
            self._count = -1 if word == b"CREATE" else count

    @alone
    def executemany(self, operation: str, seq_of_parameters: Iterable[Sequence[Any]]) -> Cursor:
        """Runs a statement for each sequence of parameters, prepared once and sent in chains. In autocommit mode all of it is
        one unit. Otherwise, where one is refused, others before and behind it may have been done: `row` of the exception is the place
        of the first that was refused, `done` the places of those that are in the unit, as ranges."""
        self._check_open()
        text, word = statement_of(operation)
        if word == b"SELECT":
            raise ProgrammingError("executemany() gives no rows")
        data = [described_data(parameters) for parameters in seq_of_parameters]
        self._connection._check_works()
        self._begin()
        is_unit_of_its_own = self._connection.autocommit and not self._connection.is_global()
        try:
            with self._connection._one_unit():
                count = sum(self._run_some(text, data, at) for at in range(0, len(data), ROWS_AT_ONCE))
        except Error as failure:
            raise reasons.of_many(reasons.explained(failure, text), is_unit_of_its_own) from failure.__cause__
        self._count = -1 if word == b"CREATE" else count
        return self

    def _run_some(self, text, data, at):
        """Runs the statement for some of the rows, from one on, as one chain, and gives how many rows it changed."""
        some = data[at:at + ROWS_AT_ONCE]
        try:
            answers = self._connection._through(text, False, lambda section: _runs(section, some))[1]
        except Error as failure:
            if failure.place is not None and failure.place >= 0:
                failure.row = at + failure.place
                failure.done = _ranges(at, failure.done[-len(some):])
            raise
        return self._rows_of(answers)

    def _rows_of(self, answers):
        """How many rows were changed."""
        count, before, of_one = 0, None, 0
        with self._connection._judged():
            for answer in answers:
                if answer is not before:
                    before, of_one = answer, wire.card(wire.find(answer, wire.SQLCARD)).rows
                count += of_one
        return count

    def _open(self, text, data):
        connection = self._connection
        section, (answer,) = connection._through(text, True, lambda section: [(section.open_request(), *data)], keeps=True)
        with connection._judged():
            self._query = connection._opened(Query.opened(section, answer, connection._abandoned))

    # ---- rows

    def _rows(self):
        """The query under way."""
        self._check_open()
        if self._query is None:
            raise ProgrammingError("the last statement gave no rows")
        if self._query.is_lost:
            raise ProgrammingError("the rows that had not come are gone, with the rollback or the end of work in a global unit")
        return self._query

    def _fill(self, query, size):
        """Brings blocks until so many rows are in hand, or none remains; all where the size is None."""
        while query.is_open and (size is None or len(query.rows) - query.at < size):
            self._connection._continue(query)

    @alone
    def _take(self, size):
        query = self._rows()
        self._fill(query, size)
        return query.gives(size)

    def fetchone(self) -> tuple | None:
        query = self._query
        if query is not None and query.at < len(query.rows) and not query.is_lost and not self._is_closed:
            self._check_open()
            query.at += 1
            return query.rows[query.at - 1]
        return next(iter(self._take(1)), None)

    def fetchmany(self, size: int | None = None) -> list[tuple]:
        size = self.arraysize if size is None else size
        if size < 0:
            raise ProgrammingError("so many rows can't be fetched")
        return self._take(size)

    def fetchall(self) -> list[tuple]:
        return self._take(None)

    def __iter__(self) -> Cursor:
        return self

    def __next__(self) -> tuple:
        row = self.fetchone()
        if row is None:
            raise StopIteration
        return row

    # ---- the rest of PEP 249

    def setinputsizes(self, sizes: Any) -> None:
        """Does nothing: a parameter takes the room that it needs."""
        self._check_open()

    def setoutputsize(self, size: int, column: int | None = None) -> None:
        """Does nothing: values come whole."""
        self._check_open()

    @alone
    def close(self) -> None:
        """Gives up its rows, also those that the server has; once more does nothing."""
        if not self._is_closed:
            self._begin()
            self._is_closed = True
            self._connection._close_abandoned()

    def __enter__(self) -> Cursor:
        return self

    def __exit__(self, *_: Any) -> None:
        self.close()
