package org.drdad.jdbc;

import java.sql.Connection;
import java.sql.SQLException;
import java.sql.Statement;
import java.util.ArrayList;
import java.util.List;
import javax.sql.ConnectionEvent;
import javax.sql.ConnectionEventListener;
import javax.sql.PooledConnection;

/** The sources of connections, and connections that a pool lends. */
final class SourceRules extends Rules {
    private final Server server;

    SourceRules(Server server) {
        this.server = server;
    }

    @Override
    void all() throws Exception {
        server.table("LENT", 1);
        sources();
        lending();
        breaking();
    }

    private void sources() {
        rule("a source by its URL", () -> {
            DrdadDataSource source = new DrdadDataSource();
            source.setUrl(server.url() + "?user=ana&password=pw");
            try (Connection connection = source.getConnection()) {
                holds(connection.isValid(5), "valid");
            }
            same(server.url(), source.getUrl());
        });
        rule("a source by its properties, and another user", () -> {
            DrdadDataSource source = new DrdadDataSource();
            source.setServerName("127.0.0.1");
            source.setPortNumber(server.port);
            source.setDatabaseName("SHOP");
            source.setUser("nobody");
            source.setLoginTimeout(5);
            refused(SQLException.class, source::getConnection);
            try (Connection connection = source.getConnection(Server.USER, Server.PASSWORD)) {
                holds(connection.isValid(5), "valid");
            }
            same(5, source.getLoginTimeout());
            same("SHOP", source.getDatabase());
        });
        rule("a source that a naming service has kept", () -> {
            Object made = new SourceFactory().getObjectInstance(server.xaSource().getReference(), null, null, null);
            same(server.url(), ((DrdadXADataSource) made).getUrl());
            same(Server.USER, ((DrdadXADataSource) made).getUser());
            same(null, new SourceFactory().getObjectInstance("x", null, null, null));
        });
    }

    /** Counts what a pool is told. */
    private static final class Told implements ConnectionEventListener {
        final List<String> events = new ArrayList<>();

        @Override
        public void connectionClosed(ConnectionEvent event) {
            events.add("closed");
        }

        @Override
        public void connectionErrorOccurred(ConnectionEvent event) {
            events.add("broken");
        }
    }

    private PooledConnection pooled(Told told) throws SQLException {
        DrdadConnectionPoolDataSource source = new DrdadConnectionPoolDataSource();
        source.setUrl(server.url());
        PooledConnection pooled = source.getPooledConnection(Server.USER, Server.PASSWORD);
        pooled.addConnectionEventListener(told);
        return pooled;
    }

    private void lending() {
        rule("a lent connection goes back rolled back, and as it was", () -> {
            Told told = new Told();
            PooledConnection pooled = pooled(told);
            Connection first = pooled.getConnection();
            Statement statement = first.createStatement();
            first.setAutoCommit(false);
            statement.executeUpdate("UPDATE LENT SET V = 'x' WHERE K = 0");
            first.close();
            first.close();
            same(List.of("closed"), told.events);
            holds(first.isClosed() && statement.isClosed(), "closed");
            Connection second = pooled.getConnection();
            holds(second.getAutoCommit() && second.isValid(5), "as it was");
            try (Connection other = server.connect()) {
                same(1, other.createStatement().executeUpdate("UPDATE LENT SET V = 'y' WHERE K = 0"));
            }
            second.close();
            pooled.close();
            refused(SQLException.class, pooled::getConnection);
        });
        rule("the next user takes the connection away", () -> {
            Told told = new Told();
            PooledConnection pooled = pooled(told);
            Connection first = pooled.getConnection(), second = pooled.getConnection();
            holds(first.isClosed() && second.isValid(5), "taken away");
            first.close();
            same(List.of(), told.events);
            pooled.close();
        });
    }

    private void breaking() {
        rule("a pool is told where the connection breaks", () -> {
            Told told = new Told();
            PooledConnection pooled = pooled(told);
            Connection connection = pooled.getConnection();
            pooled.close();
            refused(SQLException.class, () -> connection.createStatement().executeQuery("SELECT * FROM LENT"));
            try (Server other = new Server(AllRules.program, 2 << 20)) {
                DrdadConnectionPoolDataSource source = new DrdadConnectionPoolDataSource();
                source.setUrl(other.url());
                PooledConnection lost = source.getPooledConnection(Server.USER, Server.PASSWORD);
                lost.addConnectionEventListener(told);
                Connection lent = lost.getConnection();
                other.kill();
                same("08006", refused(SQLException.class, () -> lent.createStatement().executeQuery("SELECT * FROM LENT")).getSQLState());
                same(List.of("broken"), told.events);
            }
        });
    }
}
