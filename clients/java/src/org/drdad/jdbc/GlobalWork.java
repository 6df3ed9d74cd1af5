package org.drdad.jdbc;

import java.nio.ByteBuffer;
import java.sql.SQLException;
import java.util.List;
import javax.transaction.xa.XAException;
import javax.transaction.xa.XAResource;

/**
 * The calls of XA in a session that is locked. A start goes with the first statement, and an end with the prepare: nothing is kept
 * back that another answer than "done" is likely for. Another session of this process that needs to see it done has it done first
 * ({@link LiveBranches}).
 */
final class GlobalWork {
    private final Session session;
    private final Chains chains;
    private final Cursors cursors;
    private final WaitingCalls calls;
    private final LiveBranches live;

    GlobalWork(Session session, Chains chains, Cursors cursors, WaitingCalls calls, LiveBranches live) {
        this.session = session;
        this.chains = chains;
        this.cursors = cursors;
        this.calls = calls;
        this.live = live;
    }

    void start(ByteBuffer xid, int flags, boolean hasLocalWork) throws SQLException, XAException {
        chains.checkOpen();
        settle();
        boolean begins = flags == XAResource.TMNOFLAGS && live.begins(xid, session);
        XaCall call = new XaCall(XaCall.START, flags, xid);
        calls.forgetRefused();
        if (begins && !calls.isActive() && !hasLocalWork) {
            calls.add(call);
        } else {
            startAtOnce(call, begins);
        }
        calls.setActive(xid);
    }

    /** What waits is done before another branch begins; what it is refused for is told where it is asked for again. */
    private void settle() throws SQLException {
        try {
            flush();
        } catch (SQLException failure) {
            if (!(failure.getCause() instanceof XAException)) {
                throw failure;
            }
        }
    }

    private void startAtOnce(XaCall call, boolean begins) throws SQLException, XAException {
        boolean isStarted = false;
        try {
            refuse(chains.sync(call).xaCode);
            isStarted = true;
            live.holds(call.xid(), session);
        } finally {
            if (begins && !isStarted) {
                live.ends(call.xid());
            }
        }
    }

    void end(ByteBuffer xid, int flags) throws SQLException, XAException {
        chains.checkOpen();
        checkOurs(xid);
        boolean isOurs = calls.isActive(xid);
        XaCall call = new XaCall(XaCall.END, flags, xid);
        if (isOurs && (flags == XAResource.TMSUCCESS || flags == XAResource.TMFAIL)) {
            calls.add(call);
            live.holds(xid, session);
        } else {
            refuse(chains.sync(call).xaCode);
        }
        if (isOurs) {
            calls.setActive(null);
            cursors.lose();
        }
    }

    /** Asks for a prepare, or for one of the calls that end a branch: its code, which is 0 or 3. */
    int decide(int call, ByteBuffer xid, int flags) throws SQLException, XAException {
        chains.checkOpen();
        checkOurs(xid);
        int code = chains.sync(new XaCall(call, flags, xid)).xaCode;
        boolean hasEnded = call == XaCall.PREPARE ? code == XAResource.XA_RDONLY : code == XAResource.XA_OK;
        if (hasEnded || code == XAException.XA_RBROLLBACK || code == XAException.XAER_NOTA) {
            live.ends(xid);
        }
        refuse(code);
        return code;
    }

    /** The bytes of the XIDs of all branches in doubt. */
    List<Bytes> recover() throws SQLException, XAException {
        chains.checkOpen();
        Reply reply = chains.sync(new XaCall(XaCall.RECOVER, XAResource.TMSTARTRSCAN | XAResource.TMENDRSCAN, null));
        refuse(reply.xaCode);
        return reply.xids;
    }

    /** Does what waits for a chain. */
    void flush() throws SQLException {
        if (calls.count() > 0 && !chains.isClosed()) {
            chains.begin();
            chains.exchange(Chains.NO_TIMEOUT);
        }
    }

    /** A branch whose start was refused is known to somebody else alone: it is not touched. */
    private void checkOurs(ByteBuffer xid) throws XAException {
        if (calls.isRefused(xid)) {
            if (calls.isActive(xid)) {
                calls.setActive(null);
            }
            throw XaCall.refusal(XAException.XAER_NOTA);
        }
    }

    private static void refuse(int code) throws XAException {
        if (!XaCall.isDone(code)) {
            throw XaCall.refusal(code);
        }
    }
}
