"""The data manager: the branch of a transaction at one resource, which is a connection with the two-phase calls of PEP 249."""
import logging

import transaction

from .log import BrokenLog
from .xids import checked_name, xid_of

TOLD = logging.getLogger(__package__)
NOT_BEGUN, ACTIVE, PREPARED, ENDED = "not begun", "active", "prepared", "ended"
# Claims of another unit (drdad); a serialization failure and a deadlock (SQLSTATE, as psycopg2 tells it).
CLAIMED = -913
ROLLED_BACK_BY_OTHERS = ("40001", "40P01")


class Unit:
    """The branches of one transaction under one log: what they share is the decision."""

    def __init__(self, log):
        self.log, self.number = log, log.begin()
        self.branches, self.is_decided = {}, False
        self._left, self._is_done = set(), True

    @property
    def spelled(self):
        return self.log.spelled(self.number)

    def begin(self, branch):
        try:
            branch.begin()
        except BaseException:
            if not self.branches:
                self.log.leave(self.number, False)
            raise
        self.branches[branch.name] = branch

    def decide(self):
        """Writes the decision, once. Where nobody can tell whether it was written, it counts as decided: nothing is rolled back."""
        if self.is_decided:
            return
        self.is_decided = True
        try:
            self.log.commit(self.number, tuple(self.branches))
        except BaseException as failure:
            self.is_decided = isinstance(failure, BrokenLog)
            raise

    def leave(self, name, is_done):
        """A branch has ended here; where it is not done, `recover` ends it there."""
        self._left.add(name)
        self._is_done = self._is_done and is_done
        if self._left == set(self.branches):
            self.log.leave(self.number, self._is_done)


class Branch:
    """What Zope's transaction asks of a resource (transaction.interfaces.IDataManager). The first of a transaction's branches that is
    told to finish writes the decision: all resources have voted by then."""

    def __init__(self, name, connection, unit, transaction_manager):
        self.name, self.connection, self.unit = name, connection, unit
        self.transaction_manager = transaction_manager
        self._state = NOT_BEGUN

    def begin(self):
        self.connection.tpc_begin(xid_of(self.connection, self.unit.spelled, self.name))
        self._state = ACTIVE

    def __repr__(self):
        return f"<the branch of {self.unit.spelled} at {self.name}, {self._state}>"

    def sortKey(self):  # noqa: N802, by the letter of the interface
        """In front of resources of other kinds: the decision is on the device before any of them is told to finish."""
        return f"!drdad_transaction:{self.name}"

    def tpc_begin(self, _):
        """The branch has begun when it joined."""

    def commit(self, _):
        """The work was sent when it was done."""

    def tpc_vote(self, _):
        self.connection.tpc_prepare()
        self._state = PREPARED

    def tpc_finish(self, _):
        """Never fails behind the decision: a branch that can't be reached stays in doubt there until `recover`."""
        self.unit.decide()
        is_done = False
        try:
            self.connection.tpc_commit()
            is_done = True
        except Exception as failure:
            TOLD.error("%r is decided to commit, and in doubt until recover(): %s", self, failure)
        finally:
            self._end(is_done)

    def abort(self, _):
        """Rolls back, where nothing is decided; else it is left to `recover`. A branch that can't be reached is rolled back by its
        server, or by `recover`."""
        if self._state == ENDED:
            return
        try:
            if not self.unit.is_decided:
                self.connection.tpc_rollback()
        except Exception as failure:
            TOLD.warning("%r could not be told to roll back: %s", self, failure)
        finally:
            self._end(is_done=False)

    tpc_abort = abort

    def _end(self, is_done):
        self._state = ENDED
        self.unit.leave(self.name, is_done)

    def should_retry(self, failure):
        """Whether the same work can succeed in another transaction: other units stood in its way."""
        sqlcode, sqlstate = getattr(failure, "sqlcode", None), getattr(failure, "pgcode", None)
        original = getattr(failure, "orig", None)
        return sqlcode == CLAIMED or sqlstate in ROLLED_BACK_BY_OTHERS or (original is not None and self.should_retry(original))


def join(connection, name, log, transaction_manager=None):
    """Makes a connection take part in the current transaction, under a name that its database keeps for ever; what is done on it
    from here on is committed with the transaction, or rolled back. Of a connection that takes part already it does nothing. Local
    work has to be ended before. Gives the branch."""
    manager = transaction.manager if transaction_manager is None else transaction_manager
    current = manager.get()
    try:
        unit = current.data(log)
    except KeyError:
        unit = None
    there = unit and unit.branches.get(name)
    if there is None:
        return _joined(current, connection, checked_name(name), unit or Unit(log), manager)
    if there.connection is not connection:
        raise ValueError(f"another connection takes part under the name {name!r}")
    return there


def _joined(current, connection, name, unit, manager):
    branch = Branch(name, connection, unit, manager)
    unit.begin(branch)
    try:
        current.join(branch)
    except BaseException:
        branch.abort(current)
        raise
    current.set_data(unit.log, unit)
    return branch
