package org.drdad.jdbc;

import java.sql.SQLException;
import java.util.ArrayList;
import java.util.List;
import javax.transaction.xa.XAException;
import javax.transaction.xa.XAResource;
import javax.transaction.xa.Xid;

/** The calls of X/Open XA on a session (C193; JTA's XAResource). */
final class DrdadXAResource implements XAResource {
    private static final Xid[] NONE = {};

    private final Session session;

    DrdadXAResource(Session session) {
        this.session = session;
    }

    @Override
    public void start(Xid xid, int flags) throws XAException {
        try {
            session.start(XaCall.bytesOf(xid), flags);
        } catch (SQLException fault) {
            throw failed(fault);
        }
    }

    @Override
    public void end(Xid xid, int flags) throws XAException {
        try {
            session.end(XaCall.bytesOf(xid), flags);
        } catch (SQLException fault) {
            throw failed(fault);
        }
    }

    @Override
    public int prepare(Xid xid) throws XAException {
        try {
            return session.decide(XaCall.PREPARE, XaCall.bytesOf(xid), TMNOFLAGS);
        } catch (SQLException fault) {
            throw rolledBack(xid, fault);
        }
    }

    @Override
    public void commit(Xid xid, boolean isOnePhase) throws XAException {
        try {
            session.decide(XaCall.COMMIT, XaCall.bytesOf(xid), isOnePhase ? TMONEPHASE : TMNOFLAGS);
        } catch (SQLException fault) {
            if (isOnePhase) {
                throw rolledBack(xid, fault);
            }
            throw hasNoRoom(fault) ? XaCall.failure(XAException.XA_RETRY, fault.getMessage(), fault) : failed(fault);
        }
    }

    @Override
    public void rollback(Xid xid) throws XAException {
        try {
            session.decide(XaCall.ROLL_BACK, XaCall.bytesOf(xid), TMNOFLAGS);
        } catch (SQLException fault) {
            throw failed(fault);
        }
    }

    @Override
    public void forget(Xid xid) throws XAException {
        try {
            session.decide(XaCall.FORGET, XaCall.bytesOf(xid), TMNOFLAGS);
        } catch (SQLException fault) {
            throw failed(fault);
        }
    }

    /** All branches in doubt where a scan starts, and none where it goes on: the server tells them at once. */
    @Override
    public Xid[] recover(int flags) throws XAException {
        if ((flags & ~(TMSTARTRSCAN | TMENDRSCAN)) != 0) {
            throw XaCall.refusal(XAException.XAER_INVAL);
        }
        if ((flags & TMSTARTRSCAN) == 0) {
            return NONE;
        }
        try {
            List<Xid> found = new ArrayList<>();
            for (Bytes bytes : session.recover()) {
                found.add(new ListedXid(bytes));
            }
            return found.toArray(NONE);
        } catch (SQLException fault) {
            throw failed(fault);
        } catch (WireFault fault) {
            throw failed(session.broken(fault));
        }
    }

    /**
     * Whether the other one is of this connection. Branches are not loosely coupled, and a branch is worked in by one
     * connection at a time: so that each connection has a branch of its own.
     */
    @Override
    public boolean isSameRM(XAResource other) {
        return other instanceof DrdadXAResource && ((DrdadXAResource) other).session == session;
    }

    @Override
    public int getTransactionTimeout() {
        return 0;
    }

    /** The server ends no branch by its age. */
    @Override
    public boolean setTransactionTimeout(int seconds) {
        return false;
    }

    /**
     * A prepare or a commit in one phase that found no room leaves the branch as it was. A manager that is told of an error
     * takes the branch for rolled back: so it is, before it is told.
     */
    private XAException rolledBack(Xid xid, SQLException fault) throws XAException {
        if (!hasNoRoom(fault)) {
            return failed(fault);
        }
        rollback(xid);
        return XaCall.failure(XAException.XA_RBROLLBACK, "the branch was rolled back: " + fault.getMessage(), fault);
    }

    private static boolean hasNoRoom(SQLException fault) {
        return Failures.NO_ROOM.equals(fault.getSQLState());
    }

    /** The manager has to come back by another connection where this one is closed. */
    private XAException failed(SQLException fault) {
        if (fault.getCause() instanceof XAException) {
            return (XAException) fault.getCause();
        }
        return XaCall.failure(session.isClosed() ? XAException.XAER_RMFAIL : XAException.XAER_RMERR, fault.getMessage(), fault);
    }
}
