package org.drdad.jdbc;

import java.nio.charset.Charset;
import java.nio.charset.StandardCharsets;
import java.sql.Types;

/** A column of rows, or a parameter, as the server describes it (SQLDARD), or as the driver makes it. */
final class Column {
    private static final int SMALLINT = 500, INTEGER = 496, BIGINT = 492, VARCHAR = 448, TAKES_NULL = 1;
    private static final int PRESENT = 0xFF, TEXTS_BEHIND_NAME = 5;
    private static final Charset UTF_8 = StandardCharsets.UTF_8;

    final String name;
    /** One of {@link java.sql.Types}. */
    final int type;
    /** The greatest length in bytes of a VARCHAR or VARBINARY. */
    final int length;
    final boolean takesNull;

    Column(String name, int type, int length, boolean takesNull) {
        this.name = name;
        this.type = type;
        this.length = length;
        this.takesNull = takesNull;
    }

    /** The columns, or the parameters, of an SQLDARD. */
    static Column[] read(Bytes data) throws WireFault {
        if (data.u1(0) != PRESENT || data.u1(1) != PRESENT) {
            throw new WireFault("SQLDARD has another form");
        }
        Column[] columns = new Column[data.u2(2)];
        int at = 4;
        for (int place = 0; place < columns.length; place++) {
            int nameAt = at + 21, size = data.u2(nameAt - 2);
            columns[place] = one(data, at, data.text(nameAt, size, UTF_8));
            at = nameAt + size;
            for (int text = 0; text < TEXTS_BEHIND_NAME; text++) {
                at += 2 + data.u2(at);
            }
            if (data.u2(at) != (PRESENT << 8 | PRESENT)) {
                throw new WireFault("a column of SQLDARD has another form");
            }
            at += 2;
        }
        return columns;
    }

    private static Column one(Bytes data, int at, String name) throws WireFault {
        int length = (int) data.s8(at + 4), type = data.u2(at + 12), set = data.u2(at + 14);
        boolean takesNull = (type & TAKES_NULL) != 0;
        switch (type & ~TAKES_NULL) {
            case SMALLINT: return new Column(name, Types.SMALLINT, length, takesNull);
            case INTEGER: return new Column(name, Types.INTEGER, length, takesNull);
            case BIGINT: return new Column(name, Types.BIGINT, length, takesNull);
            case VARCHAR: return new Column(name, set == 0 ? Types.VARBINARY : Types.VARCHAR, length, takesNull);
            default: throw new WireFault("a column has the type " + type);
        }
    }

    /** The name of the type in SQL. */
    String typeName() {
        switch (type) {
            case Types.SMALLINT: return "SMALLINT";
            case Types.INTEGER: return "INTEGER";
            case Types.BIGINT: return "BIGINT";
            case Types.VARBINARY: return "VARBINARY";
            case Types.BOOLEAN: return "BOOLEAN";
            default: return "VARCHAR";
        }
    }

    boolean isNumber() {
        return type == Types.SMALLINT || type == Types.INTEGER || type == Types.BIGINT;
    }

    /** Digits of a number, bytes of a text or of bytes. */
    int precision() {
        switch (type) {
            case Types.SMALLINT: return 5;
            case Types.INTEGER: return 10;
            case Types.BIGINT: return 19;
            case Types.BOOLEAN: return 1;
            default: return length;
        }
    }

    /** So many characters at most are wanted to show a value: the sign of a number counts, bytes are two digits each. */
    int displaySize() {
        return isNumber() ? precision() + 1 : type == Types.VARBINARY ? 2 * length : precision();
    }

    /** The class whose objects {@code getObject} gives. */
    Class<?> javaClass() {
        switch (type) {
            case Types.SMALLINT:
            case Types.INTEGER: return Integer.class;
            case Types.BIGINT: return Long.class;
            case Types.VARBINARY: return byte[].class;
            case Types.BOOLEAN: return Boolean.class;
            default: return String.class;
        }
    }

    /** No fewer bytes than a value takes in a row that is sent. */
    int bytesSent() {
        return 1 + (isNumber() ? length : 2 + length);
    }
}
