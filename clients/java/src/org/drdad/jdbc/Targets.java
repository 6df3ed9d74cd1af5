package org.drdad.jdbc;

import java.math.BigDecimal;
import java.sql.SQLException;
import java.sql.Types;

/** What setObject() makes of a value that is to be of a type of java.sql.Types. */
final class Targets {
    private Targets() {
    }

    static Object converted(Object value, int type) throws SQLException {
        switch (type) {
            case Types.TINYINT:
            case Types.SMALLINT:
            case Types.INTEGER:
            case Types.BIGINT:
            case Types.NUMERIC:
            case Types.DECIMAL: return value instanceof String ? number((String) value) : value;
            case Types.BIT:
            case Types.BOOLEAN: return value instanceof String ? (Object) truth((String) value) : value;
            case Types.CHAR:
            case Types.VARCHAR:
            case Types.LONGVARCHAR:
            case Types.NCHAR:
            case Types.NVARCHAR:
            case Types.LONGNVARCHAR: return value instanceof Number || value instanceof Boolean ? value.toString() : value;
            case Types.BINARY:
            case Types.VARBINARY:
            case Types.LONGVARBINARY:
            case Types.JAVA_OBJECT:
            case Types.OTHER:
            case Types.NULL: return value;
            default: throw value == null ? Failures.notSupported("no column has the type " + type)
                    : RefusedParameters.noColumn(value.getClass().getName() + " as the type " + type);
        }
    }

    private static BigDecimal number(String text) throws SQLException {
        try {
            return new BigDecimal(text.trim());
        } catch (NumberFormatException fault) {
            throw Failures.data(text + " is no number", Failures.CONVERSION);
        }
    }

    private static boolean truth(String text) throws SQLException {
        if (text.equals("1") || text.equalsIgnoreCase("true")) {
            return true;
        }
        if (text.equals("0") || text.equalsIgnoreCase("false")) {
            return false;
        }
        throw Failures.data(text + " is no truth value", Failures.CONVERSION);
    }
}
