"""One thread at a time."""
import functools

from .errors import ProgrammingError


def alone(method):
    """What one thread does in a call of a connection or its cursors another one does not do at the same time: it is told so."""
    @functools.wraps(method)
    def guarded(self, *arguments, **words):
        if not self._alone.acquire(False):
            raise ProgrammingError("another thread is in a call of this connection: give each thread its own (drdad.Pool)")
        try:
            return method(self, *arguments, **words)
        finally:
            self._alone.release()
    return guarded
