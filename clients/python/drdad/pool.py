"""Connections for many threads."""
from __future__ import annotations

import contextlib, threading, time
from collections.abc import Iterator
from typing import Any

from .errors import Error, InterfaceError, OperationalError

MOST_OF_A_SERVER = 64


class Pool:
    """At most so many connections, made as they are wanted and kept: `with pool.connection() as connection:` is a unit of a thread, which
    is committed at its end, or rolled back where an exception comes. The other arguments are those of connect(). Threads wait for a
    connection for at most `wait` seconds. A server serves 64 connections in all."""

    def __init__(self, *arguments: Any, size: int = 8, wait: float = 30.0, **words: Any):
        from . import connect
        if not 0 < size <= MOST_OF_A_SERVER:
            raise InterfaceError(f"a pool has 1 to {MOST_OF_A_SERVER} connections")
        self._connect = lambda: connect(*arguments, **words)
        self._size, self._wait, self._lent = size, wait, 0
        self._free: list = []
        self._changed, self._is_closed = threading.Condition(), False

    @contextlib.contextmanager
    def connection(self) -> Iterator:
        """A connection for the body of a `with`."""
        connection = self._taken()
        try:
            yield connection
            if connection.unit_state() == "open" and not connection.is_global():
                connection.commit()
        finally:
            self._give_back(connection)

    def _taken(self):
        """A connection that is usable: one that was given back last, or a new one."""
        ends = time.monotonic() + self._wait
        with self._changed:
            while not self._free and self._lent >= self._size and not self._is_closed:
                if not self._changed.wait(ends - time.monotonic()):
                    raise OperationalError(f"all {self._size} connections of the pool were in use for {self._wait} s")
            if self._is_closed:
                raise InterfaceError("the pool is closed")
            self._lent += 1
            kept = self._free.pop() if self._free else None
        try:
            if kept is not None and kept.is_usable():
                return kept
            if kept is not None:
                kept.close()
            return self._connect()
        except BaseException:
            self._returned(None)
            raise

    def _give_back(self, connection):
        """What was not committed is rolled back; a connection that has a prepared unit, or is broken, is closed."""
        try:
            if not connection.closed and connection.unit_state() == "open":
                (connection.tpc_rollback if connection.is_global() else connection.rollback)()
            if connection.unit_state() != "idle":
                connection.close()
        except Error:
            connection.close()
        self._returned(connection)

    def _returned(self, connection):
        with self._changed:
            self._lent -= 1
            if connection is not None and not connection.closed and not self._is_closed:
                self._free.append(connection)
                connection = None
            self._changed.notify()
        if connection is not None:
            connection.close()

    def close(self) -> None:
        """Closes the connections; those that are in use are closed as they are given back."""
        with self._changed:
            self._is_closed, free, self._free = True, self._free, []
            self._changed.notify_all()
        for connection in free:
            connection.close()

    def __enter__(self) -> Pool:
        return self

    def __exit__(self, *_: Any) -> None:
        self.close()
