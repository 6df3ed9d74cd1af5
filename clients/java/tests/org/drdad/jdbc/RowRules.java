package org.drdad.jdbc;

import java.math.BigDecimal;
import java.sql.Connection;
import java.sql.PreparedStatement;
import java.sql.ResultSet;
import java.sql.ResultSetMetaData;
import java.sql.SQLDataException;
import java.sql.SQLException;
import java.sql.SQLFeatureNotSupportedException;
import java.sql.Statement;
import java.sql.Types;

/** java.sql.ResultSet and java.sql.ResultSetMetaData. */
final class RowRules extends Rules {
    private static final int MANY = 3000, WIDE = 2000, WIDE_BYTES = 1500;
    private final Server server;

    RowRules(Server server) {
        this.server = server;
    }

    /** Looks at a row. */
    private interface Look {
        Object at(ResultSet row) throws Exception;
    }

    @Override
    void all() throws Exception {
        server.run("CREATE TABLE R (K SMALLINT NOT NULL, B BIGINT, V VARCHAR(20), X VARBINARY(20), N INTEGER, PRIMARY KEY (K))",
                "INSERT INTO R VALUES (200, 5000000000, ' 12 ', X'00FF', NULL)");
        server.table("MANYROWS", MANY);
        wideTable();
        try (Connection connection = server.connect(); Statement statement = connection.createStatement()) {
            values(statement);
            places(statement);
            described(statement);
            blocks(connection);
        }
    }

    /** A table of more bytes than three blocks. */
    private void wideTable() throws SQLException {
        server.run("CREATE TABLE WIDE (K INTEGER NOT NULL, V VARCHAR(2000), PRIMARY KEY (K))");
        try (Connection connection = server.connect();
                PreparedStatement insert = connection.prepareStatement("INSERT INTO WIDE VALUES (?, ?)")) {
            for (int key = 0; key < WIDE; key++) {
                insert.setInt(1, key);
                insert.setString(2, "w".repeat(WIDE_BYTES));
                insert.addBatch();
                if (key % 400 == 399) {
                    insert.executeBatch();
                }
            }
        }
    }

    private void gives(Statement statement, String name, Object wanted, Look look) {
        rule(name, () -> {
            ResultSet row = statement.executeQuery("SELECT * FROM R");
            row.next();
            same(wanted, look.at(row));
        });
    }

    private void isRefused(Statement statement, String name, Look look) {
        rule(name + " is refused", () -> {
            ResultSet row = statement.executeQuery("SELECT * FROM R");
            row.next();
            refused(SQLDataException.class, () -> look.at(row));
        });
    }

    private void values(Statement statement) {
        gives(statement, "a SMALLINT as an Integer", 200, row -> row.getObject(1));
        gives(statement, "a SMALLINT as a short", (short) 200, row -> row.getShort("k"));
        gives(statement, "a SMALLINT as a text", "200", row -> row.getString(1));
        gives(statement, "a SMALLINT as a truth value", true, row -> row.getBoolean(1));
        gives(statement, "a SMALLINT as a Boolean", true, row -> row.getObject(1, Boolean.class));
        gives(statement, "a BIGINT as a Long", 5000000000L, row -> row.getObject("B"));
        gives(statement, "a BIGINT as a BigDecimal", new BigDecimal(5000000000L), row -> row.getBigDecimal(2));
        gives(statement, "a BIGINT as a double", 5e9, row -> row.getDouble(2));
        gives(statement, "a BIGINT as a BigInteger", java.math.BigInteger.valueOf(5000000000L),
                row -> row.getObject(2, java.math.BigInteger.class));
        gives(statement, "a text", " 12 ", row -> row.getString(3));
        gives(statement, "a text as a number", 12, row -> row.getInt(3));
        gives(statement, "a text as a Long", 12L, row -> row.getObject(3, Long.class));
        gives(statement, "a text as characters", (int) ' ', row -> row.getCharacterStream(3).read());
        gives(statement, "bytes", new byte[] {0, -1}, row -> row.getBytes(4));
        gives(statement, "bytes as a text", "00FF", row -> row.getString(4));
        gives(statement, "bytes as a stream", 2, row -> row.getBinaryStream(4).readAllBytes().length);
        gives(statement, "NULL as 0", 0, row -> row.getInt(5));
        gives(statement, "NULL as false", false, row -> row.getBoolean("N"));
        gives(statement, "NULL as null", null, row -> row.getObject(5, Integer.class));
        gives(statement, "wasNull() behind NULL", true, row -> row.getString(5) == null && row.wasNull());
        gives(statement, "wasNull() behind a value", false, row -> row.getString(5) == null && row.getInt(1) == 0 || row.wasNull());
        isRefused(statement, "200 as a byte", row -> row.getByte(1));
        isRefused(statement, "a BIGINT as an int", row -> row.getInt(2));
        isRefused(statement, "a BIGINT as an Integer", row -> row.getObject(2, Integer.class));
        isRefused(statement, "a text as a truth value", row -> row.getBoolean(3));
        isRefused(statement, "a number as bytes", row -> row.getBytes(1));
        isRefused(statement, "bytes as a number", row -> row.getLong(4));
        isRefused(statement, "a number as a thread", row -> row.getObject(1, Thread.class));
        rule("dates are no columns", () -> {
            ResultSet row = statement.executeQuery("SELECT * FROM R");
            row.next();
            refused(SQLFeatureNotSupportedException.class, () -> row.getDate(1));
            refused(SQLFeatureNotSupportedException.class, () -> row.getTimestamp("V"));
            refused(SQLFeatureNotSupportedException.class, () -> row.getBlob(4));
        });
    }

    private void places(Statement statement) {
        rule("where a result set stands", () -> {
            ResultSet rows = statement.executeQuery("SELECT * FROM MANYROWS WHERE K < 2");
            holds(rows.isBeforeFirst() && rows.getRow() == 0, "before the first");
            refused(SQLException.class, "24000", () -> rows.getInt(1));
            holds(rows.next() && rows.isFirst() && rows.getRow() == 1, "on the first");
            holds(rows.next() && !rows.isFirst() && rows.getRow() == 2, "on the second");
            holds(!rows.next() && rows.isAfterLast() && rows.getRow() == 0 && !rows.next(), "behind the last");
            refused(SQLException.class, "24000", () -> rows.getInt(1));
        });
        rule("an empty result set is neither before nor behind", () -> {
            ResultSet rows = statement.executeQuery("SELECT * FROM MANYROWS WHERE K = -1");
            holds(!rows.next() && !rows.isBeforeFirst() && !rows.isAfterLast(), "no rows");
        });
        rule("it goes forward only", () -> {
            ResultSet rows = statement.executeQuery("SELECT * FROM R");
            for (Call call : new Call[] {rows::first, rows::last, rows::previous, rows::beforeFirst, () -> rows.absolute(1),
                () -> rows.updateInt(1, 1), rows::deleteRow, rows::insertRow, rows::getCursorName}) {
                refused(SQLFeatureNotSupportedException.class, "0A504", call);
            }
            holds(!rows.rowUpdated(), "not updated");
        });
        rule("columns are found by their names, in letters of either case", () -> {
            ResultSet rows = statement.executeQuery("SELECT V, K FROM R");
            same(2, rows.findColumn("k"));
            refused(SQLException.class, "42703", () -> rows.findColumn("B"));
            rows.next();
            refused(SQLException.class, "42703", () -> rows.getInt(3));
            refused(SQLException.class, "42703", () -> rows.getInt(0));
        });
    }

    private void described(Statement statement) {
        rule("the columns of rows", () -> {
            ResultSetMetaData columns = statement.executeQuery("SELECT V, X, K, B FROM r").getMetaData();
            same(4, columns.getColumnCount());
            same("V", columns.getColumnLabel(1));
            same("R", columns.getTableName(1));
            same(Types.VARCHAR, columns.getColumnType(1));
            same("VARBINARY", columns.getColumnTypeName(2));
            same("java.lang.Integer", columns.getColumnClassName(3));
            same(19, columns.getPrecision(4));
            same(20, columns.getColumnDisplaySize(1));
            same(ResultSetMetaData.columnNoNulls, columns.isNullable(3));
            same(ResultSetMetaData.columnNullable, columns.isNullable(4));
            holds(columns.isSigned(3) && !columns.isSigned(1) && columns.isReadOnly(1) && !columns.isAutoIncrement(3), "as it is");
            refused(SQLException.class, () -> columns.getColumnName(5));
        });
    }

    private static int count(ResultSet rows) throws SQLException {
        int count = 0;
        while (rows.next()) {
            same(count, rows.getInt(1));
            same("row " + count, rows.getString(2));
            count++;
        }
        return count;
    }

    private void blocks(Connection connection) {
        for (int size : new int[] {0, 1, 7, 1000, Integer.MAX_VALUE}) {
            rule("all rows come with a fetch size of " + size, () -> {
                try (Statement statement = connection.createStatement()) {
                    statement.setFetchSize(size);
                    same(MANY, count(statement.executeQuery("SELECT K, V FROM MANYROWS")));
                }
            });
        }
        rule("result sets stand side by side, and outlast a commit", () -> {
            try (Connection other = server.connectInUnits(); Statement one = other.createStatement();
                    Statement two = other.createStatement()) {
                one.setFetchSize(1);
                ResultSet first = one.executeQuery("SELECT K, V FROM MANYROWS"), second = two.executeQuery("SELECT K, V FROM MANYROWS");
                other.commit();
                same(MANY, count(first));
                same(MANY, count(second));
            }
        });
        ahead();
        rule("rows that nobody read to the end leave no cursor behind", () -> {
            for (int round = 0; round < 100; round++) {
                try (Statement statement = connection.createStatement(); ResultSet rows = statement.executeQuery("SELECT * FROM MANYROWS")) {
                    holds(rows.next(), "a row");
                }
            }
        });
    }

    /** So many rows that a block is asked for while the one before is read. */
    private void ahead() {
        rule("what is asked while a block is on its way waits for it", () -> {
            try (Connection connection = server.connectInUnits(); Statement one = connection.createStatement();
                    Statement two = connection.createStatement()) {
                ResultSet rows = one.executeQuery("SELECT K, V FROM WIDE"), others = two.executeQuery("SELECT K, V FROM WIDE");
                for (int key = 0; key < WIDE; key++) {
                    holds(rows.next() && rows.getInt(1) == key && others.next() && others.getInt(1) == key, "row " + key);
                    holds(key % 300 != 0 || connection.isValid(10), "valid");
                }
                holds(!rows.next() && !others.next(), "the end");
            }
        });
        rule("a block that is on its way is passed over where nobody wants it", () -> {
            try (Connection connection = server.connectInUnits(); Statement statement = connection.createStatement()) {
                for (int stop : new int[] {80, WIDE / 2, WIDE - 10, WIDE}) {
                    ResultSet rows = statement.executeQuery("SELECT K, V FROM WIDE");
                    for (int key = 0; key < stop; key++) {
                        holds(rows.next(), "row " + key);
                    }
                    rows.close();
                    connection.commit();
                }
                ResultSet rows = statement.executeQuery("SELECT K, V FROM WIDE");
                for (int key = 0; key < WIDE / 2; key++) {
                    holds(rows.next(), "row " + key);
                }
                connection.rollback();
                holds(statement.executeQuery("SELECT K FROM WIDE WHERE K = 1").next(), "it runs again");
            }
        });
    }
}
