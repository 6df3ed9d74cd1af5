package org.drdad.jdbc;

import java.sql.SQLException;
import java.util.Arrays;

/** The values of the markers of a statement, and their bytes in an SQLDTA: the fields' description, and a row (FD:OCA). */
final class ParameterList {
    static final int LONGEST_VALUE = 2000;
    private static final byte UNSET = 0, NULL = 0x05, BIGINT = 0x16, BYTES = 0x28, TEXT = 0x3E;
    private static final int FIRST_TRIPLET = 0x76D0, NEXT_TRIPLET = 0x7F00, MOST_OF_TRIPLET = 84, FIELD = 3;
    private static final byte[] CLOSING = {6, 0x71, (byte) 0xE4, (byte) 0xD0, 0, 1};
    private static final int ROW_MARK = 0x00, IS_NULL = 0xFF;

    private final byte[] kinds;
    private final long[] numbers;
    private final byte[][] contents;
    private final CommandWriter out = new CommandWriter();

    ParameterList(int count) {
        kinds = new byte[count];
        numbers = new long[count];
        contents = new byte[count][];
    }

    int count() {
        return kinds.length;
    }

    void clear() {
        Arrays.fill(kinds, UNSET);
        Arrays.fill(contents, null);
    }

    /** Places are counted from 1, as JDBC has them. */
    void setNull(int place) throws SQLException {
        kinds[checked(place)] = NULL;
    }

    void setNumber(int place, long value) throws SQLException {
        kinds[checked(place)] = BIGINT;
        numbers[place - 1] = value;
    }

    void setText(int place, String value) throws SQLException {
        set(place, TEXT, value == null ? null : Utf8.bytes(value));
    }

    void setBytes(int place, byte[] value) throws SQLException {
        set(place, BYTES, value == null ? null : value.clone());
    }

    private void set(int place, byte kind, byte[] value) throws SQLException {
        int at = checked(place);
        if (value != null && value.length > LONGEST_VALUE) {
            throw Failures.data("the value has " + value.length + " bytes, and a column takes at most " + LONGEST_VALUE,
                    Failures.TOO_LONG);
        }
        kinds[at] = value == null ? NULL : kind;
        contents[at] = value;
    }

    private int checked(int place) throws SQLException {
        if (place < 1 || place > kinds.length) {
            throw Failures.data("parameter " + place + ": the statement has " + kinds.length + " markers", Failures.WRONG_PARAMETER);
        }
        return place - 1;
    }

    /** The contents of an SQLDTA, or null where there are no markers. */
    byte[] encoded() throws SQLException {
        if (kinds.length == 0) {
            return null;
        }
        for (int at = 0; at < kinds.length; at++) {
            if (kinds[at] == UNSET) {
                throw Failures.data("parameter " + (at + 1) + " has no value", Failures.WRONG_PARAMETER);
            }
        }
        out.reset();
        int description = out.open(CodePoint.FDODSC);
        for (int from = 0; from < kinds.length; from += MOST_OF_TRIPLET) {
            writeTriplet(from, Math.min(kinds.length, from + MOST_OF_TRIPLET));
        }
        out.bytes(CLOSING);
        out.close(description);
        int row = out.open(CodePoint.FDODTA);
        out.u1(ROW_MARK);
        for (int at = 0; at < kinds.length; at++) {
            writeValue(at);
        }
        out.close(row);
        return out.toBytes();
    }

    private void writeTriplet(int from, int to) {
        out.u1(FIELD + FIELD * (to - from));
        out.u2(from == 0 ? FIRST_TRIPLET : NEXT_TRIPLET);
        for (int at = from; at < to; at++) {
            out.u1(kinds[at]);
            out.u2(kinds[at] == BIGINT ? Long.BYTES : kinds[at] == NULL ? Short.BYTES : LONGEST_VALUE);
        }
    }

    private void writeValue(int at) {
        switch (kinds[at]) {
            case NULL: out.u1(IS_NULL); break;
            case BIGINT: out.u8(numbers[at]); break;
            default:
                out.u2(contents[at].length);
                out.bytes(contents[at]);
        }
    }
}
