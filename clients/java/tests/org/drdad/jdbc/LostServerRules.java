package org.drdad.jdbc;

import java.sql.Connection;
import java.sql.SQLException;
import java.sql.SQLNonTransientConnectionException;
import javax.sql.XAConnection;
import javax.transaction.xa.XAException;
import javax.transaction.xa.XAResource;

/** A server that is killed. */
final class LostServerRules extends Rules {
    private final String program;

    LostServerRules(String program) {
        this.program = program;
    }

    @Override
    void all() {
        rule("a connection to a server that is gone", () -> {
            try (Server server = new Server(program, 2 << 20)) {
                server.table("T", 1);
                Connection connection = server.connectInUnits();
                connection.createStatement().executeUpdate("DELETE FROM T WHERE K = 0");
                server.kill();
                refused(SQLNonTransientConnectionException.class, "08006", connection::commit);
                holds(connection.isClosed() && !connection.isValid(1), "closed");
                refused(SQLNonTransientConnectionException.class, "08003", connection::commit);
                connection.close();
            }
        });
        rule("isValid() finds that the server is gone", () -> {
            try (Server server = new Server(program, 2 << 20)) {
                Connection connection = server.connect();
                server.kill();
                holds(!connection.isValid(1), "gone");
            }
        });
        rule("a manager is told to come back by another connection", () -> {
            try (Server server = new Server(program, 2 << 20)) {
                XAConnection connection = server.connectXa();
                XAResource resource = connection.getXAResource();
                TestXid xid = new TestXid("lost");
                resource.start(xid, XAResource.TMNOFLAGS);
                resource.end(xid, XAResource.TMSUCCESS);
                server.kill();
                for (Call call : new Call[] {() -> resource.prepare(xid), () -> resource.commit(xid, true), () -> resource.rollback(xid),
                    () -> resource.recover(XAResource.TMSTARTRSCAN), () -> resource.start(xid, XAResource.TMNOFLAGS)}) {
                    same(XAException.XAER_RMFAIL, refused(XAException.class, call).errorCode);
                }
                refused(SQLException.class, connection::getConnection);
            }
        });
    }
}
