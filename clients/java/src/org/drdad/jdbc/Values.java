package org.drdad.jdbc;

import java.math.BigDecimal;
import java.math.BigInteger;
import java.nio.charset.StandardCharsets;
import java.sql.SQLException;
import java.sql.Types;

/** The values of a row as objects and numbers of Java. They are no NULL: who asks has looked. */
final class Values {
    private static final String DIGITS = "0123456789ABCDEF";

    private Values() {
    }

    static String text(Rows rows, int at, Column column) {
        switch (column.type) {
            case Types.VARCHAR: return rows.text(at);
            case Types.VARBINARY: return hexadecimal(rows.bytes(at));
            case Types.BOOLEAN: return rows.number(at) == 0 ? "false" : "true";
            default: return Long.toString(rows.number(at));
        }
    }

    static String hexadecimal(byte[] bytes) {
        StringBuilder text = new StringBuilder(2 * bytes.length);
        for (byte one : bytes) {
            text.append(DIGITS.charAt(one >> 4 & 0x0F)).append(DIGITS.charAt(one & 0x0F));
        }
        return text.toString();
    }

    /** A number is true where it is not 0; of texts 1 and true, 0 and false are truth values. */
    static boolean truth(Rows rows, int at, Column column) throws SQLException {
        if (column.type != Types.VARCHAR) {
            return number(rows, at, column) != 0;
        }
        String text = rows.text(at).trim();
        if (text.equals("1") || text.equalsIgnoreCase("true")) {
            return true;
        }
        if (text.equals("0") || text.equalsIgnoreCase("false")) {
            return false;
        }
        throw noConversion(column, "a truth value");
    }

    static long number(Rows rows, int at, Column column) throws SQLException {
        if (column.isNumber() || column.type == Types.BOOLEAN) {
            return rows.number(at);
        }
        BigInteger number = decimal(rows, at, column).toBigInteger();
        if (number.bitLength() >= Long.SIZE) {
            throw Failures.data("the number is out of the range of a long", Failures.RANGE);
        }
        return number.longValue();
    }

    static BigDecimal decimal(Rows rows, int at, Column column) throws SQLException {
        if (column.isNumber() || column.type == Types.BOOLEAN) {
            return BigDecimal.valueOf(rows.number(at));
        }
        try {
            if (column.type == Types.VARCHAR) {
                return new BigDecimal(rows.text(at).trim());
            }
        } catch (NumberFormatException ignored) {
            // Told below.
        }
        throw noConversion(column, "a number");
    }

    static byte[] bytes(Rows rows, int at, Column column) throws SQLException {
        switch (column.type) {
            case Types.VARBINARY: return rows.bytes(at);
            case Types.VARCHAR: return rows.text(at).getBytes(StandardCharsets.UTF_8);
            default: throw noConversion(column, "bytes");
        }
    }

    /** The value as an object of a class. */
    static Object object(Rows rows, int at, Column column, Class<?> wanted) throws SQLException {
        if (wanted == String.class) {
            return text(rows, at, column);
        }
        if (wanted == byte[].class) {
            return bytes(rows, at, column);
        }
        if (wanted == Boolean.class) {
            return truth(rows, at, column);
        }
        if (wanted == Object.class) {
            return object(rows, at, column, column.javaClass());
        }
        if (Number.class.isAssignableFrom(wanted)) {
            return numberObject(decimal(rows, at, column), wanted);
        }
        throw noConversion(column, wanted.getName());
    }

    private static Object numberObject(BigDecimal number, Class<?> wanted) throws SQLException {
        try {
            switch (wanted.getName()) {
                case "java.lang.Byte": return number.byteValueExact();
                case "java.lang.Short": return number.shortValueExact();
                case "java.lang.Integer": return number.intValueExact();
                case "java.lang.Long": return number.longValueExact();
                case "java.math.BigInteger": return number.toBigIntegerExact();
                case "java.lang.Float": return number.floatValue();
                case "java.lang.Double": return number.doubleValue();
                case "java.math.BigDecimal":
                case "java.lang.Number": return number;
                default:
            }
        } catch (ArithmeticException fault) {
            throw Failures.data("the number " + number + " is out of the range of " + wanted.getSimpleName(), Failures.RANGE);
        }
        throw Failures.notSupported("a number is not given as " + wanted.getName());
    }

    private static SQLException noConversion(Column column, String wanted) {
        return Failures.data("the value of the column " + column.name + ", a " + column.typeName() + ", is not " + wanted,
                Failures.CONVERSION);
    }
}
