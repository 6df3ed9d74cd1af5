"""What was left in doubt is decided: committed where the log has the decision, and else rolled back."""
import logging
from collections import namedtuple

import drdad

from .xids import unit_of

TOLD = logging.getLogger(__package__)

# How a branch was decided: at which resource, of which unit, and whether it is committed there. `differs` where somebody had decided
# it the other way round by `drdad decide`.
Outcome = namedtuple("Outcome", "name unit is_committed differs")


def recover(log, connections):
    """Decides the branches of a log's units that are in doubt, and gives an Outcome of each. `connections` has a connection without
    work under way for each name of a resource. Units in flight are left alone, so that it can be called at any time: at the start
    of a process, when a resource is back, and now and then. A resource that can't be reached raises its error; call it again then."""
    is_settled = log.settled_units()
    outcomes = []
    for name, connection in connections.items():
        for xid in connection.tpc_recover():
            spelled = unit_of(xid, name)
            number = None if spelled is None else log.number_of(spelled)
            if number is not None and is_settled(number):
                outcomes.append(_decide(log, connection, name, xid, number))
    log.recovered(connections, is_settled)
    return outcomes


def _decide(log, connection, name, xid, number):
    is_committed = log.is_committed(number)
    try:
        (connection.tpc_commit if is_committed else connection.tpc_rollback)(xid)
    except drdad.HeuristicError as told:
        differs = told.is_committed != is_committed
        if differs:
            TOLD.critical("%s differs at %s: decided to %s, and %s", log.spelled(number), name,
                          "commit" if is_committed else "roll back", told)
        connection.tpc_forget(xid)
        return Outcome(name, log.spelled(number), told.is_committed, differs)
    return Outcome(name, log.spelled(number), is_committed, False)
