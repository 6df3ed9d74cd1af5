package org.drdad.jdbc;

import java.nio.ByteBuffer;
import javax.transaction.xa.XAException;
import javax.transaction.xa.XAResource;
import javax.transaction.xa.Xid;

/** A call of X/Open XA as a SYNCCTL: its number, its flags, and the XID that it names. */
final class XaCall {
    /** The calls as SYNCTYPE numbers them. These are drdad's numbers; in other products 4 rolls back. */
    static final int PREPARE = 0x01, COMMIT = 0x04, FORGET = 0x06, ROLL_BACK = 0x07, START = 0x09, END = 0x0B, RECOVER = 0x0C;
    private static final int NULL_XID = -1, MOST_OF_PART = 64, HEADING = 12;

    private final int call;
    private final int flags;
    private final ByteBuffer xid;

    XaCall(int call, int flags, ByteBuffer xid) {
        this.call = call;
        this.flags = flags;
        this.xid = xid;
    }

    int call() { return call; }

    /** The XID that it names, or null. */
    ByteBuffer xid() { return xid; }

    void write(CommandWriter chain) {
        int at = chain.request(CodePoint.SYNCCTL);
        chain.object1(CodePoint.SYNCTYPE, call);
        if (xid != null) {
            chain.object(CodePoint.XID, xid.array());
        }
        chain.object4(CodePoint.XAFLAGS, flags);
        chain.end(at);
    }

    /** The bytes of an XID: its format number, the lengths of its two parts, and the parts. */
    static ByteBuffer bytesOf(Xid xid) throws XAException {
        byte[] global = xid == null ? null : xid.getGlobalTransactionId(), branch = xid == null ? null : xid.getBranchQualifier();
        if (global == null || branch == null || xid.getFormatId() == NULL_XID || global.length == 0
                || global.length > MOST_OF_PART || branch.length > MOST_OF_PART) {
            throw failure(XAException.XAER_INVAL, "an XID has a format other than -1, a global part of 1 to 64 bytes"
                    + " and a branch part of at most 64");
        }
        ByteBuffer bytes = ByteBuffer.allocate(HEADING + global.length + branch.length);
        return bytes.putInt(xid.getFormatId()).putInt(global.length).putInt(branch.length).put(global).put(branch).rewind();
    }

    static XAException failure(int code, String text) {
        XAException failure = new XAException(text);
        failure.errorCode = code;
        return failure;
    }

    static XAException failure(int code, String text, Throwable cause) {
        XAException failure = failure(code, text);
        failure.initCause(cause);
        return failure;
    }

    /** The exception of a code that the server answered. */
    static XAException refusal(int code) { return failure(code, "XA " + code + ": " + said(code)); }

    private static String said(int code) {
        switch (code) {
            case XAException.XA_HEURRB: return "the branch was rolled back heuristically, and is known until it is forgotten";
            case XAException.XA_HEURCOM: return "the branch was committed heuristically, and is known until it is forgotten";
            case XAException.XA_RBROLLBACK: return "the branch was rolled back, or has to be";
            case XAException.XAER_RMERR: return "a limit of the server is reached";
            case XAException.XAER_NOTA: return "the XID is not known";
            case XAException.XAER_INVAL: return "the XID, or a flag, is none that there is";
            case XAException.XAER_PROTO: return "the branch is in another state, or belongs to another connection";
            case XAException.XAER_DUPID: return "the XID is known already";
            case XAException.XAER_OUTSIDE: return "the connection has work outside of any branch";
            default: return "the call is refused";
        }
    }

    /** Whether a code is no refusal. */
    static boolean isDone(int code) { return code == XAResource.XA_OK || code == XAResource.XA_RDONLY; }
}
