package org.drdad.jdbc;

import java.nio.charset.StandardCharsets;
import java.util.Arrays;

/** A section of the conversation: its name, and what the server has prepared in it. It has one cursor at most. */
final class Section {
    private static final byte[] HELD = "WITH HOLD".getBytes(StandardCharsets.US_ASCII);
    private static final int NAME = 18, ABSENT = 0xFF, YES = 0xF1, NO = 0xF0, PARAMETERS = 1;

    private final byte[] name;
    private boolean isFresh = true;
    private SqlText text;
    /** The columns of its rows; null where they were not asked for. */
    private Column[] columns;

    Section(String rdb, int number) {
        String names = padded(rdb) + padded("NULLID") + padded("SYSSH200") + "TOKENTOK";
        byte[] front = names.getBytes(StandardCharsets.UTF_8);
        name = Arrays.copyOf(front, front.length + 2);
        name[front.length] = (byte) (number >>> 8);
        name[front.length + 1] = (byte) number;
    }

    private static String padded(String part) {
        return part + " ".repeat(NAME - part.length());
    }

    /** Whether nothing was ever prepared here: a prepare that is refused then leaves nothing to be run by mistake. */
    boolean isFresh() {
        return isFresh;
    }

    SqlText text() {
        return text;
    }

    Column[] columns() {
        return columns;
    }

    boolean has(SqlText wanted, boolean isDescribed) {
        return text != null && text.equals(wanted) && (columns != null || !isDescribed);
    }

    void forget() {
        text = null;
    }

    /** PRPSQLSTT, held, so that a commit leaves its cursor open. */
    void writePrepare(CommandWriter chain, SqlText wanted, boolean isDescribed) {
        isFresh = false;
        text = null;
        int at = begin(chain, CodePoint.PRPSQLSTT);
        chain.object1(CodePoint.RTNSQLDA, isDescribed ? YES : NO);
        chain.end(at);
        writeText(chain, CodePoint.SQLATTR, HELD);
        writeText(chain, CodePoint.SQLSTT, wanted.bytes());
    }

    /** The server has answered that the text is prepared here. */
    void hasPrepared(SqlText prepared, Reply answer) throws WireFault {
        columns = answer.described == null ? null : Column.read(answer.described);
        text = prepared;
    }

    /** EXCSQLSTT with a row of parameters, or none. */
    void writeRun(CommandWriter chain, byte[] row) {
        chain.end(begin(chain, CodePoint.EXCSQLSTT));
        writeRow(chain, row);
    }

    /** OPNQRY with a row of parameters, or none; the first block has about so many rows. */
    void writeOpen(CommandWriter chain, int fetchSize, byte[] row) {
        int at = begin(chain, CodePoint.OPNQRY);
        chain.object4(CodePoint.QRYBLKSZ, BlockSize.first(fetchSize, columns));
        chain.end(at);
        writeRow(chain, row);
    }

    /** CNTQRY of the cursor that is open. */
    void writeContinue(CommandWriter chain, Bytes instance, int blockSize) throws WireFault {
        int at = begin(chain, CodePoint.CNTQRY);
        chain.object4(CodePoint.QRYBLKSZ, blockSize);
        chain.object(CodePoint.QRYINSID, instance.copy(0, instance.size()));
        chain.end(at);
    }

    /** CLSQRY of the cursor that is open. */
    void writeClose(CommandWriter chain) {
        chain.end(begin(chain, CodePoint.CLSQRY));
    }

    /** DSCSQLSTT of the parameters. */
    void writeDescribeParameters(CommandWriter chain) {
        int at = begin(chain, CodePoint.DSCSQLSTT);
        chain.object1(CodePoint.TYPSQLDA, PARAMETERS);
        chain.end(at);
    }

    /** EXCSQLIMM of a text, which needs no section. */
    static void writeImmediate(CommandWriter chain, SqlText text) {
        chain.end(chain.request(CodePoint.EXCSQLIMM));
        writeText(chain, CodePoint.SQLSTT, text.bytes());
    }

    private int begin(CommandWriter chain, int command) {
        int at = chain.request(command);
        chain.object(CodePoint.PKGNAMCSN, name);
        return at;
    }

    private static void writeRow(CommandWriter chain, byte[] row) {
        if (row != null) {
            int at = chain.data(CodePoint.SQLDTA);
            chain.bytes(row);
            chain.end(at);
        }
    }

    private static void writeText(CommandWriter chain, int code, byte[] text) {
        int at = chain.data(code);
        chain.u1(0);
        chain.u4(text.length);
        chain.bytes(text);
        chain.u1(ABSENT);
        chain.end(at);
    }
}
