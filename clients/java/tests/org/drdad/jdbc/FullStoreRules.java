package org.drdad.jdbc;

import java.sql.Connection;
import java.sql.PreparedStatement;
import java.sql.SQLException;
import java.sql.SQLTransientException;
import javax.sql.XAConnection;
import javax.transaction.xa.XAException;
import javax.transaction.xa.XAResource;

/** A store that has no room for a unit: the unit is rolled back wherever its user takes it for over. */
final class FullStoreRules extends Rules {
    private static final int ROWS = 480, SIZE = 1900;
    private final Server server;

    FullStoreRules(Server server) {
        this.server = server;
    }

    @Override
    void all() throws Exception {
        server.run("CREATE TABLE F (K INTEGER NOT NULL, V VARBINARY(2000), PRIMARY KEY (K))");
        try (Connection connection = server.connectInUnits()) {
            for (int round = 0; round < 2; round++) {
                fill(connection, ROWS * round, round == 0 ? ROWS : 30);
                try {
                    connection.commit();
                } catch (SQLException full) {
                    connection.rollback();
                }
            }
        }
        rule("a commit without room is transient, and the unit can be rolled back", () -> {
            try (Connection connection = server.connectInUnits()) {
                fill(connection, 10000, ROWS);
                refused(SQLTransientException.class, "57011", connection::commit);
                connection.rollback();
                same(false, connection.createStatement().executeQuery("SELECT K FROM F WHERE K = 10000").next());
                connection.commit();
            }
        });
        rule("a batch without room and with autocommit leaves nothing", () -> {
            try (Connection connection = server.connect()) {
                refused(SQLException.class, "57011", () -> fill(connection, 10000, ROWS));
                same(false, connection.createStatement().executeQuery("SELECT K FROM F WHERE K = 10000").next());
            }
        });
        rule("a commit in one phase without room is a rollback", () -> decided(true));
        rule("a prepare without room is a rollback", () -> decided(false));
    }

    private void decided(boolean isOnePhase) throws Exception {
        XAConnection connection = server.connectXa();
        try {
            XAResource resource = connection.getXAResource();
            TestXid xid = new TestXid("full" + isOnePhase);
            resource.start(xid, XAResource.TMNOFLAGS);
            fill(connection.getConnection(), 10000, ROWS);
            resource.end(xid, XAResource.TMSUCCESS);
            XAException told = refused(XAException.class, () -> {
                if (isOnePhase) {
                    resource.commit(xid, true);
                } else {
                    resource.prepare(xid);
                }
            });
            same(XAException.XA_RBROLLBACK, told.errorCode);
            same(XAException.XAER_NOTA, refused(XAException.class, () -> resource.rollback(xid)).errorCode);
        } finally {
            connection.close();
        }
    }

    private static void fill(Connection connection, int from, int count) throws SQLException {
        try (PreparedStatement insert = connection.prepareStatement("INSERT INTO F VALUES (?, ?)")) {
            for (int key = from; key < from + count; key++) {
                insert.setInt(1, key);
                insert.setBytes(2, new byte[SIZE]);
                insert.addBatch();
            }
            insert.executeBatch();
        }
    }
}
