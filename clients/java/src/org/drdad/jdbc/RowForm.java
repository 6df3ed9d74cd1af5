package org.drdad.jdbc;

import java.util.Arrays;

/** The fields of rows, as a QRYDSC describes them (FD:OCA, DRDA V5 volume 2). */
final class RowForm {
    private static final int INTEGER = 0x02, SMALLINT = 0x04, BIGINT = 0x16, NULLABLE = 1;
    private static final int FIXED_BYTES = 0x26, FIXED_TEXT = 0x30, FIXED_MIXED_TEXT = 0x3C;
    private static final int VARIABLE_BYTES = 0x28, LONG_BYTES = 0x2A;
    private static final int VARIABLE_TEXT = 0x32, LONG_TEXT = 0x34, VARIABLE_MIXED_TEXT = 0x3E, LONG_MIXED_TEXT = 0x40;
    private static final int FIRST_TRIPLET = 0x76, NEXT_TRIPLET = 0x7F, HEADING = 3, FIELD = 3;

    /** How the value of a field stands in a row: so many bytes, or a length of two bytes and then so many. */
    static final int VARIABLE = 0;

    /** The bytes of each field's values, or {@link #VARIABLE}. */
    final int[] sizes;
    /** Whether 00 or FF stands in front of a value of each field. */
    final boolean[] takesNull;

    private RowForm(int[] sizes, boolean[] takesNull) {
        this.sizes = sizes;
        this.takesNull = takesNull;
    }

    int count() {
        return sizes.length;
    }

    /** Reads the triplets of fields that a description begins with. */
    static RowForm read(Bytes data) throws WireFault {
        int[] sizes = new int[data.size() / FIELD];
        boolean[] takesNull = new boolean[sizes.length];
        int at = 0, count = 0;
        while (at < data.size() && data.u1(at + 1) == (at == 0 ? FIRST_TRIPLET : NEXT_TRIPLET)) {
            int end = at + data.u1(at);
            for (int field = at + HEADING; field < end; field += FIELD) {
                int type = data.u1(field);
                sizes[count] = sizeOf(type & ~NULLABLE, data.u2(field + 1));
                takesNull[count++] = (type & NULLABLE) != 0;
            }
            at = end == at ? data.size() : end;
        }
        return new RowForm(Arrays.copyOf(sizes, count), Arrays.copyOf(takesNull, count));
    }

    private static int sizeOf(int type, int length) throws WireFault {
        switch (type) {
            case SMALLINT: return 2;
            case INTEGER: return 4;
            case BIGINT: return 8;
            case FIXED_BYTES:
            case FIXED_TEXT:
            case FIXED_MIXED_TEXT: return length;
            case VARIABLE_BYTES:
            case LONG_BYTES:
            case VARIABLE_TEXT:
            case LONG_TEXT:
            case VARIABLE_MIXED_TEXT:
            case LONG_MIXED_TEXT: return VARIABLE;
            default: throw new WireFault(String.format("a field has the type %02X", type));
        }
    }
}
