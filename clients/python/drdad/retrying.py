"""Units that are tried again where another one held what they wanted."""
from __future__ import annotations

import random, time
from collections.abc import Callable
from typing import TYPE_CHECKING, TypeVar

from .errors import Error

if TYPE_CHECKING:
    from .connection import Connection

Result = TypeVar("Result")

HELD = -913
FIRST_WAIT, LONGEST_WAIT = 0.005, 0.5


def retry(connection: Connection, function: Callable[[Connection], Result], seconds: float = 10.0) -> Result:
    """Calls function(connection) as a unit, commits, and gives what it gave. Where another unit holds what it wants (SQLCODE -913) it is
    rolled back, and called again after a wait by chance, each at most twice as long as the one before; the last such failure is
    raised once so many seconds have gone by. Any other failure is raised at once, and the unit rolled back."""
    ends, wait = time.monotonic() + seconds, FIRST_WAIT
    while True:
        try:
            given = function(connection)
            if not connection.is_global() and connection.unit_state() == "open":
                connection.commit()
            return given
        except BaseException as failure:
            _roll_back(connection)
            left = ends - time.monotonic()
            if not isinstance(failure, Error) or failure.sqlcode != HELD or left <= 0 or connection.closed:
                raise
        time.sleep(min(left, random.uniform(wait / 2, wait)))
        wait = min(2 * wait, LONGEST_WAIT)


def _roll_back(connection):
    if connection.closed:
        return
    if connection.is_global():
        connection.tpc_rollback()
    elif connection.unit_state() == "open":
        connection.rollback()
