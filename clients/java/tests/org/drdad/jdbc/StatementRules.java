package org.drdad.jdbc;

import java.sql.Connection;
import java.sql.PreparedStatement;
import java.sql.ResultSet;
import java.sql.SQLDataException;
import java.sql.SQLException;
import java.sql.SQLFeatureNotSupportedException;
import java.sql.SQLIntegrityConstraintViolationException;
import java.sql.SQLSyntaxErrorException;
import java.sql.Statement;
import java.sql.Types;

/** java.sql.Statement, and the runs of java.sql.PreparedStatement. */
final class StatementRules extends Rules {
    private static final int MANY = 200;
    private final Server server;

    StatementRules(Server server) {
        this.server = server;
    }

    @Override
    void all() throws Exception {
        server.table("S", 5);
        try (Connection connection = server.connect()) {
            results(connection);
            runs(connection);
            refusals(connection);
            settings(connection);
            closing(connection);
            sections(connection);
            prepared(connection);
            described(connection);
        }
    }

    private void results(Connection connection) {
        rule("execute() tells a query from a change", () -> {
            try (Statement statement = connection.createStatement()) {
                holds(statement.execute("SELECT * FROM S"), "a query");
                same(-1, statement.getUpdateCount());
                holds(statement.getResultSet() != null, "rows");
                holds(!statement.execute("UPDATE S SET V = 'x' WHERE K < 3"), "a change");
                same(3, statement.getUpdateCount());
                same(null, statement.getResultSet());
                holds(!statement.getMoreResults(), "no more");
                same(-1, statement.getUpdateCount());
            }
        });
        rule("CREATE TABLE changes no rows, and an UPDATE of no row none", () -> {
            try (Statement statement = connection.createStatement()) {
                same(0, statement.executeUpdate("CREATE TABLE MADE (K INTEGER NOT NULL, PRIMARY KEY (K))"));
                same(0, statement.executeUpdate("UPDATE S SET V = 'x' WHERE K = 99"));
                same(0L, statement.executeLargeUpdate("DELETE FROM S WHERE K = 99"));
            }
        });
        rule("there are no generated keys", () -> {
            try (Statement statement = connection.createStatement()) {
                statement.executeUpdate("INSERT INTO MADE VALUES (1)", Statement.RETURN_GENERATED_KEYS);
                try (ResultSet keys = statement.getGeneratedKeys()) {
                    holds(!keys.next(), "none");
                    same(0, keys.getMetaData().getColumnCount());
                }
            }
        });
    }

    private void runs(Connection connection) {
        rule("a run closes the rows of the run before", () -> {
            try (Statement statement = connection.createStatement()) {
                ResultSet before = statement.executeQuery("SELECT * FROM S");
                statement.executeQuery("SELECT * FROM S");
                holds(before.isClosed(), "closed");
            }
        });
        rule("at most so many rows", () -> {
            try (Statement statement = connection.createStatement()) {
                statement.setMaxRows(2);
                ResultSet rows = statement.executeQuery("SELECT * FROM S");
                holds(rows.next() && rows.next() && !rows.next(), "two rows");
            }
        });
    }

    private void refusals(Connection connection) {
        Object[][] refused = {
            {"SELECT * FROM NONE", SQLSyntaxErrorException.class, "42704", -204},
            {"SELECT X FROM S", SQLSyntaxErrorException.class, "42703", -206},
            {"SELECT A.K FROM S A", SQLSyntaxErrorException.class, "42601", -104},
            {"INSERT INTO S VALUES (0, 'x')", SQLIntegrityConstraintViolationException.class, "23505", -803},
            {"INSERT INTO S (V) VALUES ('x')", SQLIntegrityConstraintViolationException.class, "23502", -407},
            {"INSERT INTO S VALUES (3000000000, 'x')", SQLDataException.class, "22003", -413},
            {"UPDATE S SET V = '" + "x".repeat(601) + "' WHERE K = 1", SQLDataException.class, null, -433},
            {"UPDATE S SET V = 5 WHERE K = 1", SQLSyntaxErrorException.class, null, -401},
            {"CREATE TABLE S (K INTEGER NOT NULL, PRIMARY KEY (K))", SQLSyntaxErrorException.class, "42710", -601},
            {"", SQLSyntaxErrorException.class, "42601", -104},
        };
        for (Object[] one : refused) {
            String text = (String) one[0];
            rule("refused: " + text.substring(0, Math.min(40, text.length())), () -> {
                try (Statement statement = connection.createStatement()) {
                    SQLException told = refused(SQLException.class, () -> statement.execute(text));
                    same(one[1], told.getClass());
                    same(one[3], told.getErrorCode());
                    holds(one[2] == null || one[2].equals(told.getSQLState()), "SQLSTATE " + told.getSQLState());
                }
            });
        }
        rule("executeQuery() wants a query, executeUpdate() none, and nothing is done", () -> {
            try (Statement statement = connection.createStatement()) {
                refused(SQLException.class, () -> statement.executeQuery("DELETE FROM S"));
                refused(SQLException.class, () -> statement.executeUpdate("SELECT * FROM S"));
                holds(statement.executeQuery("SELECT * FROM S").next(), "the rows are there");
            }
        });
    }

    private void settings(Connection connection) {
        rule("settings are kept, and negative ones refused", () -> {
            try (Statement statement = connection.createStatement()) {
                statement.setFetchSize(10);
                statement.setMaxRows(20);
                statement.setQueryTimeout(30);
                statement.setMaxFieldSize(40);
                statement.setPoolable(true);
                same(100, statement.getFetchSize() + statement.getMaxRows() + statement.getQueryTimeout() + statement.getMaxFieldSize());
                holds(statement.isPoolable(), "poolable");
                for (Call call : new Call[] {() -> statement.setFetchSize(-1), () -> statement.setMaxRows(-1),
                    () -> statement.setQueryTimeout(-1), () -> statement.setMaxFieldSize(-1)}) {
                    refused(SQLException.class, call);
                }
            }
        });
        rule("what a statement gives", () -> {
            try (Statement statement = connection.createStatement()) {
                same(ResultSet.TYPE_FORWARD_ONLY, statement.getResultSetType());
                same(ResultSet.CONCUR_READ_ONLY, statement.getResultSetConcurrency());
                same(ResultSet.HOLD_CURSORS_OVER_COMMIT, statement.getResultSetHoldability());
                same(ResultSet.FETCH_FORWARD, statement.getFetchDirection());
                same(connection, statement.getConnection());
                same(null, statement.getWarnings());
                refused(SQLFeatureNotSupportedException.class, statement::cancel);
                refused(SQLFeatureNotSupportedException.class, () -> statement.setFetchDirection(ResultSet.FETCH_REVERSE));
                refused(SQLFeatureNotSupportedException.class, () -> statement.setCursorName("c"));
                refused(SQLFeatureNotSupportedException.class, () -> statement.getMoreResults(Statement.KEEP_CURRENT_RESULT));
            }
        });
    }

    private void closing(Connection connection) {
        rule("a statement that is closed closes its rows, and is refused", () -> {
            Statement statement = connection.createStatement();
            ResultSet rows = statement.executeQuery("SELECT * FROM S");
            statement.close();
            statement.close();
            holds(statement.isClosed() && rows.isClosed(), "closed");
            refused(SQLException.class, () -> statement.executeQuery("SELECT * FROM S"));
            refused(SQLException.class, rows::next);
        });
        rule("it closes itself with its rows where that is asked for", () -> {
            Statement statement = connection.createStatement();
            statement.closeOnCompletion();
            ResultSet rows = statement.executeQuery("SELECT * FROM S");
            holds(statement.isCloseOnCompletion() && !statement.isClosed(), "open");
            rows.close();
            holds(statement.isClosed(), "closed");
        });
    }

    private void sections(Connection connection) {
        rule("a refused text never runs what was prepared before", () -> {
            for (int round = 0; round < MANY; round++) {
                String text = "SELECT K FROM S WHERE K = " + round;
                try (Statement statement = connection.createStatement()) {
                    holds(statement.executeQuery(text).next() == round < 5, text);
                    refused(SQLSyntaxErrorException.class, () -> statement.executeQuery("SELECT NOSUCH FROM S WHERE K = 0"));
                }
            }
        });
        rule("many statements stay prepared side by side", () -> {
            PreparedStatement[] all = new PreparedStatement[MANY];
            for (int at = 0; at < MANY; at++) {
                all[at] = connection.prepareStatement("SELECT V FROM S WHERE K = ? AND K < " + (5 + at));
            }
            for (int at = 0; at < 2 * MANY; at++) {
                all[at % MANY].setInt(1, at % 5);
                holds(all[at % MANY].executeQuery().next(), "a row");
            }
        });
    }

    private void prepared(Connection connection) {
        rule("a statement runs again with other values", () -> {
            try (PreparedStatement statement = connection.prepareStatement("UPDATE S SET V = ? WHERE K = ?")) {
                for (int key = 0; key < 5; key++) {
                    statement.setString(1, "v" + key);
                    statement.setInt(2, key);
                    same(1, statement.executeUpdate());
                }
            }
        });
        rule("a refused value leaves the statement", () -> {
            try (PreparedStatement statement = connection.prepareStatement("INSERT INTO S VALUES (?, 'x')")) {
                statement.setInt(1, 0);
                refused(SQLIntegrityConstraintViolationException.class, "23505", statement::executeUpdate);
                statement.setInt(1, 70);
                same(1, statement.executeUpdate());
            }
        });
        rule("a marker without a value is told before anything is sent", () -> {
            try (PreparedStatement statement = connection.prepareStatement("UPDATE S SET V = ? WHERE K = ?")) {
                statement.setString(1, "x");
                refused(SQLDataException.class, "07002", statement::executeUpdate);
                statement.setInt(2, 1);
                statement.executeUpdate();
                statement.clearParameters();
                refused(SQLDataException.class, "07002", statement::executeUpdate);
            }
        });
        rule("a prepared statement takes no other text", () -> {
            try (PreparedStatement statement = connection.prepareStatement("SELECT * FROM S")) {
                refused(SQLException.class, () -> statement.executeQuery("SELECT * FROM S"));
                refused(SQLException.class, () -> statement.executeUpdate("DELETE FROM S"));
                refused(SQLException.class, () -> statement.execute("DELETE FROM S"));
                refused(SQLException.class, () -> statement.addBatch("DELETE FROM S"));
                refused(SQLException.class, statement::executeUpdate);
            }
        });
    }

    private void described(Connection connection) {
        rule("what is known before it runs", () -> {
            try (PreparedStatement query = connection.prepareStatement("SELECT V, K FROM S WHERE K = ? AND V = ?");
                    PreparedStatement change = connection.prepareStatement("UPDATE S SET V = ?")) {
                same("V", query.getMetaData().getColumnName(1));
                same(null, change.getMetaData());
                same(2, query.getParameterMetaData().getParameterCount());
                same(Types.INTEGER, query.getParameterMetaData().getParameterType(1));
                same("VARCHAR", query.getParameterMetaData().getParameterTypeName(2));
                same(600, change.getParameterMetaData().getPrecision(1));
                refused(SQLException.class, () -> query.getParameterMetaData().getParameterType(3));
            }
        });
        rule("129 markers are too many", () -> refused(SQLSyntaxErrorException.class, "54004",
                () -> connection.prepareStatement("INSERT INTO S VALUES (" + "?,".repeat(128) + "?)")));
    }
}
