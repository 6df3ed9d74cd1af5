package org.drdad.jdbc;

import java.sql.Connection;
import java.sql.ResultSet;
import java.sql.SQLException;
import java.sql.SQLTransactionRollbackException;
import java.sql.Statement;

/** Units of work: commit, rollback, autocommit, and what another unit claims. */
final class UnitRules extends Rules {
    private static final int MANY = 3000;
    private final Server server;

    UnitRules(Server server) {
        this.server = server;
    }

    @Override
    void all() throws Exception {
        server.table("U", 3);
        server.table("LONGTABLE", MANY);
        ends();
        inside();
        claims();
        smallClaims();
        rows();
    }

    private String text(int key) throws SQLException {
        try (Connection connection = server.connect()) {
            ResultSet row = connection.createStatement().executeQuery("SELECT V FROM U WHERE K = " + key);
            row.next();
            return row.getString(1);
        }
    }

    private static int set(Connection connection, int key, String text) throws SQLException {
        try (Statement statement = connection.createStatement()) {
            return statement.executeUpdate("UPDATE U SET V = '" + text + "' WHERE K = " + key);
        }
    }

    private void ends() {
        rule("commit() keeps, rollback() does not", () -> {
            try (Connection connection = server.connectInUnits()) {
                set(connection, 0, "kept");
                connection.commit();
                set(connection, 0, "gone");
                connection.rollback();
                connection.rollback();
                connection.commit();
                same("kept", text(0));
            }
        });
        rule("with autocommit there is nothing to commit", () -> {
            try (Connection connection = server.connect()) {
                refused(SQLException.class, "25000", connection::commit);
                refused(SQLException.class, "25000", connection::rollback);
            }
        });
        rule("a change of autocommit commits", () -> {
            try (Connection connection = server.connectInUnits()) {
                set(connection, 0, "changed");
                connection.setAutoCommit(false);
                connection.setAutoCommit(true);
                same("changed", text(0));
            }
        });
    }

    private void inside() {
        rule("setReadOnly() has no place in a unit", () -> {
            try (Connection connection = server.connectInUnits()) {
                set(connection, 0, "x");
                refused(SQLException.class, "25001", () -> connection.setReadOnly(true));
                connection.rollback();
                connection.setReadOnly(true);
            }
        });
        rule("a refused statement leaves the unit", () -> {
            try (Connection connection = server.connectInUnits()) {
                set(connection, 0, "left");
                refused(SQLException.class, () -> connection.createStatement().executeUpdate("INSERT INTO U VALUES (1, 'x')"));
                refused(SQLException.class, () -> connection.createStatement().executeQuery("SELECT * FROM NONE"));
                connection.commit();
                same("left", text(0));
            }
        });
        rule("a table that was rolled back may come again in another form", () -> {
            try (Connection connection = server.connectInUnits(); Statement statement = connection.createStatement()) {
                statement.executeUpdate("CREATE TABLE AGAIN (K INTEGER NOT NULL, PRIMARY KEY (K))");
                same(1, statement.executeQuery("SELECT * FROM AGAIN").getMetaData().getColumnCount());
                connection.rollback();
                statement.executeUpdate("CREATE TABLE AGAIN (A VARCHAR(9) NOT NULL, B INTEGER, PRIMARY KEY (A))");
                same(2, statement.executeQuery("SELECT * FROM AGAIN").getMetaData().getColumnCount());
                connection.rollback();
            }
        });
    }

    private void claims() {
        rule("what another unit claims is told as a rollback, and the unit is rolled back", () -> {
            try (Connection one = server.connectInUnits(); Connection two = server.connectInUnits()) {
                set(one, 0, "one");
                set(two, 1, "two");
                SQLException told = refused(SQLTransactionRollbackException.class, "40001", () -> set(two, 0, "two"));
                same(-913, told.getErrorCode());
                set(one, 1, "one");
                two.rollback();
                one.commit();
                same("one", text(1));
                set(two, 1, "again");
                two.commit();
                same("again", text(1));
            }
        });
        rule("with autocommit the refused statement alone is over", () -> {
            try (Connection one = server.connectInUnits(); Connection two = server.connect()) {
                set(one, 0, "one");
                refused(SQLTransactionRollbackException.class, () -> two.createStatement().executeQuery("SELECT * FROM U"));
                one.rollback();
                holds(two.createStatement().executeQuery("SELECT * FROM U").next(), "a row");
            }
        });
    }

    private void smallClaims() {
        rule("a key in parentheses claims no more than its row", () -> {
            try (Connection one = server.connectInUnits(); Connection two = server.connectInUnits()) {
                one.createStatement().executeUpdate("UPDATE U SET V = 'a' WHERE ((K = 0))");
                same(1, two.createStatement().executeUpdate("UPDATE U SET V = 'b' WHERE (K = 1)"));
                one.rollback();
                two.rollback();
            }
        });
        rule("a query with autocommit leaves no claim behind, even before its rows are read", () -> {
            try (Connection one = server.connect(); Connection two = server.connect(); Statement statement = one.createStatement()) {
                statement.setFetchSize(1);
                ResultSet rows = statement.executeQuery("SELECT * FROM LONGTABLE");
                same(1, two.createStatement().executeUpdate("DELETE FROM LONGTABLE WHERE K = 0"));
                int count = 0;
                while (rows.next()) {
                    count++;
                }
                same(MANY, count);
            }
        });
    }

    private void rows() {
        rule("a rollback takes away the rows that have not come", () -> {
            try (Connection connection = server.connectInUnits(); Statement statement = connection.createStatement()) {
                statement.setFetchSize(1);
                ResultSet rows = statement.executeQuery("SELECT * FROM LONGTABLE");
                rows.next();
                connection.rollback();
                refused(SQLException.class, () -> {
                    while (rows.next()) {
                        rows.getInt(1);
                    }
                });
                holds(statement.executeQuery("SELECT * FROM LONGTABLE").next(), "it runs again");
            }
        });
    }
}
