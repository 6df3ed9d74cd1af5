package org.drdad.jdbc;

import java.util.Arrays;
import javax.transaction.xa.Xid;

/** An XID that the server listed. */
final class ListedXid implements Xid {
    private static final int HEADING = 12;

    private final int format;
    private final byte[] global;
    private final byte[] branch;

    ListedXid(Bytes bytes) throws WireFault {
        format = bytes.s4(0);
        global = bytes.copy(HEADING, bytes.s4(4));
        branch = bytes.copy(HEADING + global.length, bytes.s4(8));
    }

    @Override public int getFormatId() { return format; }
    @Override public byte[] getGlobalTransactionId() { return global.clone(); }
    @Override public byte[] getBranchQualifier() { return branch.clone(); }

    @Override
    public boolean equals(Object other) {
        return other instanceof ListedXid && format == ((ListedXid) other).format
                && Arrays.equals(global, ((ListedXid) other).global) && Arrays.equals(branch, ((ListedXid) other).branch);
    }

    @Override public int hashCode() { return 31 * (31 * format + Arrays.hashCode(global)) + Arrays.hashCode(branch); }
    @Override public String toString() { return format + ":" + Values.hexadecimal(global) + ":" + Values.hexadecimal(branch); }
}
