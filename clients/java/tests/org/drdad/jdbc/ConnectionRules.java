package org.drdad.jdbc;

import java.sql.Connection;
import java.sql.DriverManager;
import java.sql.ResultSet;
import java.sql.SQLException;
import java.sql.SQLFeatureNotSupportedException;
import java.sql.SQLInvalidAuthorizationSpecException;
import java.sql.SQLNonTransientConnectionException;
import java.sql.SQLTransientConnectionException;
import java.util.ArrayList;
import java.util.List;
import java.util.Properties;

/** java.sql.Driver and java.sql.Connection. */
final class ConnectionRules extends Rules {
    private static final int MOST_CONVERSATIONS = 64;
    private final Server server;

    ConnectionRules(Server server) {
        this.server = server;
    }

    @Override
    void all() {
        opening();
        settings();
        absent();
        ends();
        rule("the 65th connection says what may be wrong", this::tooMany);
    }

    private void opening() {
        rule("DriverManager finds the driver by the URL", () -> {
            try (Connection connection = DriverManager.getConnection(server.url() + "?user=ana&password=pw")) {
                holds(connection.isValid(5), "valid");
            }
        });
        rule("another driver's URL is no fault", () -> {
            same(null, new DrdadDriver().connect("jdbc:other://x/y", new Properties()));
            same(false, new DrdadDriver().acceptsURL("jdbc:other://x/y"));
        });
        for (String url : new String[] {"jdbc:drdad:", "jdbc:drdad://x", "jdbc:drdad:x/y", "jdbc:drdad://x:y/Z", "jdbc:drdad://x:99999/Z",
            "jdbc:drdad://127.0.0.1/", "jdbc:drdad://127.0.0.1/N%20N", "jdbc:drdad://127.0.0.1/X?socketTimeout=a"}) {
            rule("no connection by " + url, () -> refused(SQLException.class, () -> DriverManager.getConnection(url)));
        }
        rule("a wrong password", () -> refused(SQLInvalidAuthorizationSpecException.class, "28000",
                () -> DriverManager.getConnection(server.url(), Server.USER, "other")));
        rule("a wrong user", () -> refused(SQLInvalidAuthorizationSpecException.class, "28000",
                () -> DriverManager.getConnection(server.url(), "other", Server.PASSWORD)));
        rule("another database", () -> refused(SQLNonTransientConnectionException.class, "08004",
                () -> DriverManager.getConnection("jdbc:drdad://127.0.0.1:" + server.port + "/OTHER", Server.USER, Server.PASSWORD)));
        rule("nobody listens", () -> refused(SQLTransientConnectionException.class, "08001",
                () -> DriverManager.getConnection("jdbc:drdad://127.0.0.1:1/SHOP")));
        rule("the properties that are asked for", () -> {
            same(4, new DrdadDriver().getPropertyInfo(server.url(), null).length);
            same("user", new DrdadDriver().getPropertyInfo(server.url(), null)[0].name);
        });
    }

    private void settings() {
        rule("a connection begins with autocommit, serializable, not read only", () -> {
            try (Connection connection = server.connect()) {
                holds(connection.getAutoCommit() && !connection.isReadOnly() && !connection.isClosed(), "as it begins");
                same(Connection.TRANSACTION_SERIALIZABLE, connection.getTransactionIsolation());
                same(ResultSet.HOLD_CURSORS_OVER_COMMIT, connection.getHoldability());
                same("SHOP", connection.getCatalog());
                same(null, connection.getSchema());
                same(null, connection.getWarnings());
                connection.clearWarnings();
            }
        });
        rule("each level of isolation is given as the one there is", () -> {
            try (Connection connection = server.connect()) {
                connection.setTransactionIsolation(Connection.TRANSACTION_READ_COMMITTED);
                same(Connection.TRANSACTION_SERIALIZABLE, connection.getTransactionIsolation());
                refused(SQLException.class, () -> connection.setTransactionIsolation(3));
                refused(SQLException.class, () -> connection.setTransactionIsolation(Connection.TRANSACTION_NONE));
            }
        });
        rule("what is kept without a meaning", () -> {
            try (Connection connection = server.connect()) {
                connection.setReadOnly(true);
                holds(connection.isReadOnly(), "read only");
                connection.setCatalog("other");
                connection.setSchema("other");
                connection.setClientInfo("ApplicationName", "x");
                same("x", connection.getClientInfo("ApplicationName"));
                connection.setNetworkTimeout(Runnable::run, 7000);
                same(7000, connection.getNetworkTimeout());
                refused(SQLException.class, () -> connection.setNetworkTimeout(Runnable::run, -1));
                holds(connection.getTypeMap().isEmpty(), "no types");
            }
        });
    }

    private void absent() {
        rule("what is not there has a state that pools take for no end", () -> {
            try (Connection connection = server.connect()) {
                for (Call call : new Call[] {connection::createBlob, connection::createClob, connection::setSavepoint,
                    () -> connection.prepareCall("x"), () -> connection.setHoldability(ResultSet.CLOSE_CURSORS_AT_COMMIT),
                    () -> connection.createStatement(ResultSet.TYPE_SCROLL_INSENSITIVE, ResultSet.CONCUR_READ_ONLY),
                    () -> connection.prepareStatement("x", ResultSet.TYPE_FORWARD_ONLY, ResultSet.CONCUR_UPDATABLE)}) {
                    refused(SQLFeatureNotSupportedException.class, "0A504", call);
                }
                holds(connection.isValid(5), "still there");
            }
        });
        rule("it unwraps to itself", () -> {
            try (Connection connection = server.connect()) {
                holds(connection.isWrapperFor(DrdadConnection.class), "a wrapper");
                same(connection, connection.unwrap(Connection.class));
                refused(SQLException.class, () -> connection.unwrap(String.class));
            }
        });
    }

    private void ends() {
        rule("close() again does nothing, and what follows is refused by 08003", () -> {
            Connection connection = server.connect();
            connection.close();
            connection.close();
            holds(connection.isClosed() && !connection.isValid(1), "closed");
            refused(SQLNonTransientConnectionException.class, "08003", connection::createStatement);
            refused(SQLNonTransientConnectionException.class, "08003", connection::commit);
        });
        rule("isValid() wants no negative time", () -> {
            try (Connection connection = server.connect()) {
                refused(SQLException.class, () -> connection.isValid(-1));
            }
        });
        rule("abort() ends it, and its statements", () -> {
            Connection connection = server.connect();
            java.sql.Statement statement = connection.createStatement();
            refused(SQLException.class, () -> connection.abort(null));
            connection.abort(Runnable::run);
            holds(connection.isClosed() && statement.isClosed(), "closed");
            refused(SQLException.class, () -> statement.executeQuery("SELECT * FROM T"));
        });
        rule("what was not committed is rolled back by close()", () -> {
            server.table("CLOSED", 1);
            try (Connection connection = server.connectInUnits()) {
                connection.createStatement().executeUpdate("DELETE FROM CLOSED WHERE K = 0");
            }
            try (Connection connection = server.connect()) {
                holds(eventually(connection), "the row is there");
            }
        });
    }

    /** The server rolls back once it has seen the end of the other connection. */
    private static boolean eventually(Connection connection) throws SQLException, InterruptedException {
        for (int tries = 0; tries < 100; tries++) {
            try (ResultSet rows = connection.createStatement().executeQuery("SELECT * FROM CLOSED WHERE K = 0")) {
                return rows.next();
            } catch (SQLException claimed) {
                Thread.sleep(20);
            }
        }
        return false;
    }

    private void tooMany() throws Exception {
        List<Connection> open = new ArrayList<>();
        try {
            SQLException told = refused(SQLTransientConnectionException.class, "08001", () -> {
                for (int count = 0; count <= MOST_CONVERSATIONS; count++) {
                    open.add(server.connect());
                }
            });
            holds(told.getMessage().contains("64 conversations"), told.getMessage());
        } finally {
            for (Connection connection : open) {
                connection.close();
            }
        }
        Thread.sleep(300);
    }
}
