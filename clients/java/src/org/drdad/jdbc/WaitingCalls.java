package org.drdad.jdbc;

import java.nio.ByteBuffer;
import java.sql.SQLException;
import java.util.ArrayList;
import java.util.List;
import javax.transaction.xa.XAException;

/**
 * The calls of XA that wait for the next chain, so that they take no round trip of their own, and the branch that a session works
 * in once they are done.
 */
final class WaitingCalls {
    private final List<XaCall> waiting = new ArrayList<>();
    private ByteBuffer active;
    /** A branch whose start had waited and was then refused, and why: it is none of ours, and nothing is done in it. */
    private ByteBuffer refused;
    private XAException refusal;

    int count() {
        return waiting.size();
    }

    void add(XaCall call) {
        waiting.add(call);
    }

    void write(CommandWriter chain) {
        for (XaCall call : waiting) {
            call.write(chain);
        }
    }

    /** Takes the answers to the calls, which stand in front, and tells whether one was refused. */
    boolean takeAnswers(Reply[] replies) throws WireFault {
        boolean isRefused = false;
        for (int at = 0; at < waiting.size(); at++) {
            if (!replies[at].hasXaCode) {
                throw new WireFault("SYNCCRD is missing");
            }
            if (!XaCall.isDone(replies[at].xaCode) && !isRefused) {
                isRefused = true;
                refused = waiting.get(at).xid();
                refusal = XaCall.refusal(replies[at].xaCode);
            }
        }
        waiting.clear();
        return isRefused;
    }

    /** What a statement is told in place of being run. */
    SQLException refusal() {
        return new SQLException("the branch could not be worked in: " + refusal.getMessage(), Failures.GLOBAL_UNIT, refusal);
    }

    /** Refuses work in a branch whose start was refused: it would be done outside of any. */
    void checkWorks() throws SQLException {
        if (active != null && active.equals(refused)) {
            throw refusal();
        }
    }

    boolean isActive() {
        return active != null;
    }

    boolean isActive(ByteBuffer xid) {
        return xid.equals(active);
    }

    /** The branch that is worked in from here on; null for none. */
    void setActive(ByteBuffer xid) {
        active = xid;
    }

    boolean isRefused(ByteBuffer xid) {
        return xid.equals(refused);
    }

    void forgetRefused() {
        refused = null;
    }
}
