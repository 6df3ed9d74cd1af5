"""A client of drdad, the DRDA server, by PEP 249 (docs/CLIENT.md)."""
from __future__ import annotations

from collections.abc import Callable

from .addresses import completed
from .connection import Connection
from .cursor import Cursor
from .errors import (
    DatabaseError, DataError, Error, HeuristicError, IntegrityError, InterfaceError, InternalError, NotSupportedError, OperationalError,
    ProgrammingError, Warning,
)
from .pool import Pool
from .retrying import retry
from .type_objects import (
    BINARY, DATETIME, NUMBER, ROWID, STRING, Binary, Date, DateFromTicks, Time, TimeFromTicks, Timestamp, TimestampFromTicks, Xid,
)
from .version import __version__

__all__ = [
    "BINARY", "Binary", "Connection", "Cursor", "DATETIME", "DataError", "DatabaseError", "Date", "DateFromTicks",
    "Error", "HeuristicError", "IntegrityError", "InterfaceError", "InternalError", "NUMBER", "NotSupportedError",
    "OperationalError", "Pool", "ProgrammingError", "ROWID", "STRING", "Time", "TimeFromTicks", "Timestamp",
    "TimestampFromTicks", "Warning", "Xid", "__version__", "apilevel", "connect", "paramstyle", "retry", "threadsafety",
]

apilevel = "2.0"
threadsafety = 1
paramstyle = "qmark"


def connect(host: str | None = None, port: int | None = None, database: str | None = None, user: str | None = None,
            password: str | None = None, timeout: float | None = 10.0, autocommit: bool = False,
            watch: Callable | None = None) -> Connection:
    """A connection to a database: connect("drdad://ana@127.0.0.1:1527/SHOP", password="pw"), or by keywords. What is not said is taken
    from the URL that the environment variable DRDAD_URL has, the password from DRDAD_PASSWORD; the host is else 127.0.0.1 and the
    port 1527. `timeout` is how long, in seconds, the server may be silent, None for ever; `watch` is called with each DSS that goes
    out or comes in (`drdad.aloud` reads it)."""
    where = completed(host, port, database, user, password)
    return Connection(where.host, where.port, where.database, where.user, where.password, timeout, autocommit, watch)
