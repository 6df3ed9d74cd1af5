package org.drdad.jdbc;

import java.nio.charset.StandardCharsets;
import javax.transaction.xa.Xid;

/** An XID whose global part is a text. */
final class TestXid implements Xid {
    private final int format;
    private final byte[] global;
    private final byte[] branch;

    TestXid(String global) {
        this(7, global, "b");
    }

    TestXid(int format, String global, String branch) {
        this.format = format;
        this.global = global.getBytes(StandardCharsets.UTF_8);
        this.branch = branch.getBytes(StandardCharsets.UTF_8);
    }

    @Override
    public int getFormatId() {
        return format;
    }

    @Override
    public byte[] getGlobalTransactionId() {
        return global;
    }

    @Override
    public byte[] getBranchQualifier() {
        return branch;
    }
}
