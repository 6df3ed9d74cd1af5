package org.drdad.jdbc;

import java.io.ByteArrayInputStream;
import java.io.StringReader;
import java.math.BigDecimal;
import java.math.BigInteger;
import java.nio.charset.StandardCharsets;
import java.sql.Connection;
import java.sql.Date;
import java.sql.JDBCType;
import java.sql.PreparedStatement;
import java.sql.ResultSet;
import java.sql.SQLDataException;
import java.sql.SQLException;
import java.sql.SQLFeatureNotSupportedException;
import java.sql.Timestamp;
import java.sql.Types;
import java.time.LocalDate;
import java.util.Arrays;

/** Which values of Java the parameters take, and what comes back. */
final class ParameterRules extends Rules {
    private final Server server;

    ParameterRules(Server server) {
        this.server = server;
    }

    /** Gives the first marker of a statement a value. */
    private interface Setting {
        void set(PreparedStatement statement) throws SQLException;
    }

    @Override
    void all() throws Exception {
        server.run("CREATE TABLE P (K INTEGER NOT NULL, S SMALLINT, I INTEGER, B BIGINT, V VARCHAR(2000), X VARBINARY(2000),"
                + " PRIMARY KEY (K))", "INSERT INTO P (K) VALUES (1)");
        try (Connection connection = server.connect()) {
            numbers(connection);
            texts(connection);
            refusals(connection);
        }
    }

    /** A value goes into a column, and comes back as this object. */
    private void goes(Connection connection, String column, Object wanted, Setting setting) {
        rule(column + " takes " + (wanted instanceof byte[] ? Arrays.toString((byte[]) wanted) : wanted), () -> {
            try (PreparedStatement change = connection.prepareStatement("UPDATE P SET " + column + " = ? WHERE K = 1");
                    PreparedStatement query = connection.prepareStatement("SELECT " + column + " FROM P")) {
                setting.set(change);
                same(1, change.executeUpdate());
                ResultSet rows = query.executeQuery();
                rows.next();
                same(wanted, rows.getObject(1));
                same(wanted == null, rows.wasNull());
            }
        });
    }

    private void numbers(Connection connection) {
        goes(connection, "S", 1, it -> it.setBoolean(1, true));
        goes(connection, "S", 0, it -> it.setObject(1, Boolean.FALSE));
        goes(connection, "S", -32768, it -> it.setShort(1, Short.MIN_VALUE));
        goes(connection, "S", 7, it -> it.setByte(1, (byte) 7));
        goes(connection, "S", null, it -> it.setNull(1, Types.SMALLINT));
        goes(connection, "I", Integer.MIN_VALUE, it -> it.setInt(1, Integer.MIN_VALUE));
        goes(connection, "I", 12, it -> it.setObject(1, "12", Types.INTEGER));
        goes(connection, "I", 13, it -> it.setObject(1, new BigDecimal("13.00"), Types.DECIMAL, 2));
        goes(connection, "I", 14, it -> it.setObject(1, "14", JDBCType.INTEGER));
        goes(connection, "I", null, it -> it.setObject(1, null));
        goes(connection, "B", Long.MAX_VALUE, it -> it.setLong(1, Long.MAX_VALUE));
        goes(connection, "B", Long.MIN_VALUE, it -> it.setBigDecimal(1, BigDecimal.valueOf(Long.MIN_VALUE)));
        goes(connection, "B", 5L, it -> it.setObject(1, BigInteger.valueOf(5)));
        goes(connection, "B", null, it -> it.setBigDecimal(1, null));
    }

    private void texts(Connection connection) {
        goes(connection, "V", "", it -> it.setString(1, ""));
        goes(connection, "V", "grün \u20ac \ud83d\ude00 '", it -> it.setString(1, "grün \u20ac \ud83d\ude00 '"));
        goes(connection, "V", "x".repeat(2000), it -> it.setString(1, "x".repeat(2000)));
        goes(connection, "V", "n", it -> it.setNString(1, "n"));
        goes(connection, "V", "c", it -> it.setObject(1, 'c'));
        goes(connection, "V", "12", it -> it.setObject(1, 12, Types.VARCHAR));
        goes(connection, "V", "abc", it -> it.setCharacterStream(1, new StringReader("abcdef"), 3));
        goes(connection, "V", "abcdef", it -> it.setCharacterStream(1, new StringReader("abcdef")));
        goes(connection, "V", "a", it -> it.setAsciiStream(1, new ByteArrayInputStream("a".getBytes(StandardCharsets.US_ASCII))));
        goes(connection, "V", "clob", it -> it.setClob(1, new StringReader("clob")));
        goes(connection, "V", null, it -> it.setString(1, null));
        goes(connection, "X", new byte[] {}, it -> it.setBytes(1, new byte[] {}));
        goes(connection, "X", new byte[] {0, -1, 39}, it -> it.setBytes(1, new byte[] {0, -1, 39}));
        goes(connection, "X", new byte[2000], it -> it.setObject(1, new byte[2000]));
        goes(connection, "X", new byte[] {1, 2}, it -> it.setBinaryStream(1, new ByteArrayInputStream(new byte[] {1, 2, 3}), 2));
        goes(connection, "X", new byte[] {4}, it -> it.setBlob(1, new ByteArrayInputStream(new byte[] {4})));
        goes(connection, "X", null, it -> it.setBytes(1, null));
    }

    /** A value is told to be none before anything is sent. */
    private void none(Connection connection, String name, Class<? extends SQLException> wanted, Setting setting) {
        rule("no column takes " + name, () -> {
            try (PreparedStatement change = connection.prepareStatement("UPDATE P SET B = ? WHERE K = 1")) {
                refused(wanted, () -> setting.set(change));
            }
        });
    }

    private void refusals(Connection connection) {
        none(connection, "a float", SQLFeatureNotSupportedException.class, it -> it.setFloat(1, 1));
        none(connection, "a double", SQLFeatureNotSupportedException.class, it -> it.setObject(1, 1.5));
        none(connection, "a date", SQLFeatureNotSupportedException.class, it -> it.setDate(1, new Date(0)));
        none(connection, "a timestamp", SQLFeatureNotSupportedException.class, it -> it.setObject(1, new Timestamp(0)));
        none(connection, "a LocalDate", SQLFeatureNotSupportedException.class, it -> it.setObject(1, LocalDate.EPOCH));
        none(connection, "an object of another class", SQLFeatureNotSupportedException.class, it -> it.setObject(1, new Object()));
        none(connection, "a number as a TIMESTAMP", SQLFeatureNotSupportedException.class, it -> it.setObject(1, 1, Types.TIMESTAMP));
        none(connection, "decimals", SQLDataException.class, it -> it.setBigDecimal(1, new BigDecimal("1.5")));
        none(connection, "a number past BIGINT", SQLDataException.class, it -> it.setObject(1, BigInteger.ONE.shiftLeft(63)));
        none(connection, "a text that is no number", SQLDataException.class, it -> it.setObject(1, "x", Types.INTEGER));
        none(connection, "2,001 bytes", SQLDataException.class, it -> it.setBytes(1, new byte[2001]));
        none(connection, "2,001 bytes of UTF-8", SQLDataException.class, it -> it.setString(1, "ä".repeat(1000) + "x"));
        none(connection, "2,001 bytes of a stream", SQLDataException.class,
                it -> it.setBinaryStream(1, new ByteArrayInputStream(new byte[5000])));
        for (String half : new String[] {"a\uD83Db", "\uD83D", "\uDE00", "\uDE00\uD83D"}) {
            none(connection, "half of a pair", SQLDataException.class, it -> it.setString(1, half));
        }
        none(connection, "the marker 0", SQLDataException.class, it -> it.setInt(0, 1));
        none(connection, "the marker 2", SQLDataException.class, it -> it.setInt(2, 1));
    }
}
