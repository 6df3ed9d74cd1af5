package org.drdad.jdbc;

import java.sql.Connection;
import java.sql.ResultSet;
import java.sql.SQLException;
import javax.sql.XAConnection;
import javax.transaction.xa.XAException;
import javax.transaction.xa.XAResource;
import javax.transaction.xa.Xid;

/** javax.transaction.xa.XAResource: what each call is answered, whatever the driver keeps back. */
final class XaRules extends Rules {
    private static final int NONE = XAResource.TMNOFLAGS, SUCCESS = XAResource.TMSUCCESS;
    private final Server server;
    private XAConnection one;
    private XAConnection two;
    private XAResource first;
    private XAResource second;
    private int numbers;

    XaRules(Server server) {
        this.server = server;
    }

    @Override
    void all() throws Exception {
        server.table("X", 10);
        branches();
        emptyBranches();
        severalBranches();
        refusals();
        unknown();
        orders();
        otherConnections();
        keptBack();
        between();
        connections();
        rows();
        recovery();
    }

    /** A case with two connections that have nothing under way. */
    private void branch(String name, Case body) {
        rule(name, () -> {
            one = server.connectXa();
            two = server.connectXa();
            first = one.getXAResource();
            second = two.getXAResource();
            try {
                body.run();
            } finally {
                one.close();
                two.close();
                settled();
            }
        });
    }

    /** Waits until the server has rolled back what the connections left, and rolls back what they left in doubt. */
    private void settled() throws Exception {
        XAConnection last = server.connectXa();
        try {
            for (Xid xid : last.getXAResource().recover(XAResource.TMSTARTRSCAN)) {
                last.getXAResource().rollback(xid);
            }
            Connection connection = last.getConnection();
            for (int tries = 0; tries < 200; tries++) {
                try {
                    connection.createStatement().executeUpdate("UPDATE X SET V = 'row' WHERE K < 10");
                    return;
                } catch (SQLException claimed) {
                    Thread.sleep(10);
                }
            }
        } finally {
            last.close();
        }
    }

    private TestXid xid() {
        return new TestXid("case " + numbers++);
    }

    private static void set(XAConnection connection, int key, String text) throws SQLException {
        same(1, connection.getConnection().createStatement().executeUpdate("UPDATE X SET V = '" + text + "' WHERE K = " + key));
    }

    private String text(int key) throws SQLException {
        try (Connection connection = server.connect()) {
            ResultSet row = connection.createStatement().executeQuery("SELECT V FROM X WHERE K = " + key);
            row.next();
            return row.getString(1);
        }
    }

    private static void answers(int code, Call call) throws Exception {
        same(code, refused(XAException.class, call).errorCode);
    }

    /** A branch that has changed a row, and was ended. */
    private TestXid worked(String text) throws Exception {
        TestXid xid = xid();
        first.start(xid, NONE);
        set(one, 0, text);
        first.end(xid, SUCCESS);
        return xid;
    }

    private void branches() {
        branch("prepare and commit", () -> {
            TestXid xid = worked("two phases");
            same(XAResource.XA_OK, first.prepare(xid));
            first.commit(xid, false);
            same("two phases", text(0));
        });
        branch("prepare and rollback", () -> {
            TestXid xid = worked("gone");
            same(XAResource.XA_OK, first.prepare(xid));
            first.rollback(xid);
            same("row", text(0));
        });
        branch("commit in one phase", () -> {
            first.commit(worked("one phase"), true);
            same("one phase", text(0));
        });
        branch("rollback before prepare", () -> {
            first.rollback(worked("gone"));
            same("row", text(0));
        });
    }

    private void emptyBranches() {
        branch("a branch that read alone is over with its prepare", () -> {
            TestXid xid = xid();
            first.start(xid, NONE);
            holds(one.getConnection().createStatement().executeQuery("SELECT * FROM X").next(), "a row");
            first.end(xid, SUCCESS);
            same(XAResource.XA_RDONLY, first.prepare(xid));
            answers(XAException.XAER_NOTA, () -> first.commit(xid, false));
        });
        branch("a branch without any work is over with its prepare", () -> {
            TestXid xid = xid();
            first.start(xid, NONE);
            first.end(xid, SUCCESS);
            same(XAResource.XA_RDONLY, first.prepare(xid));
        });
        branch("a branch that failed can be rolled back alone", () -> {
            TestXid xid = xid();
            first.start(xid, NONE);
            set(one, 0, "gone");
            first.end(xid, XAResource.TMFAIL);
            answers(XAException.XA_RBROLLBACK, () -> first.prepare(xid));
            same("row", text(0));
        });
    }

    private void severalBranches() {
        branch("a branch that is suspended and resumed, with local work between", () -> {
            TestXid xid = xid();
            first.start(xid, NONE);
            set(one, 0, "resumed");
            first.end(xid, XAResource.TMSUSPEND);
            set(one, 1, "local");
            first.start(xid, XAResource.TMRESUME);
            set(one, 2, "resumed");
            first.end(xid, SUCCESS);
            first.rollback(xid);
            same("row", text(0));
            same("local", text(1));
            same("row", text(2));
        });
        branch("branches one after the other, decided later", () -> {
            TestXid[] all = new TestXid[5];
            for (int at = 0; at < all.length; at++) {
                all[at] = xid();
                first.start(all[at], NONE);
                set(one, at, "later");
                first.end(all[at], SUCCESS);
            }
            for (TestXid xid : all) {
                first.commit(xid, true);
            }
            same("later", text(4));
        });
    }

    private void refusals() {
        branch("XIDs that are none", () -> {
            for (Xid wrong : new Xid[] {null, new TestXid(-1, "g", "b"), new TestXid(1, "", "b"), new TestXid(1, "g".repeat(65), "b"),
                new TestXid(1, "g", "b".repeat(65))}) {
                answers(XAException.XAER_INVAL, () -> first.start(wrong, NONE));
                answers(XAException.XAER_INVAL, () -> first.prepare(wrong));
            }
            TestXid longest = new TestXid(-7, "g".repeat(64), "b".repeat(64));
            first.start(longest, NONE);
            set(one, 0, "x");
            first.end(longest, SUCCESS);
            first.rollback(longest);
        });
        branch("flags that are none", () -> {
            answers(XAException.XAER_INVAL, () -> first.start(xid(), XAResource.TMFAIL));
            answers(XAException.XAER_INVAL, () -> first.recover(XAResource.TMJOIN));
            TestXid xid = xid();
            first.start(xid, NONE);
            answers(XAException.XAER_INVAL, () -> first.end(xid, XAResource.TMJOIN));
            first.end(xid, SUCCESS);
        });
    }

    private void unknown() {
        branch("calls on an XID that is not known", () -> {
            answers(XAException.XAER_NOTA, () -> first.start(xid(), XAResource.TMJOIN));
            answers(XAException.XAER_NOTA, () -> first.end(xid(), SUCCESS));
            answers(XAException.XAER_NOTA, () -> first.prepare(xid()));
            answers(XAException.XAER_NOTA, () -> first.commit(xid(), false));
            answers(XAException.XAER_NOTA, () -> first.commit(xid(), true));
            answers(XAException.XAER_NOTA, () -> first.rollback(xid()));
            answers(XAException.XAER_NOTA, () -> first.forget(xid()));
        });
        branch("an XID that is known", () -> {
            TestXid xid = xid();
            first.start(xid, NONE);
            answers(XAException.XAER_DUPID, () -> second.start(xid, NONE));
            answers(XAException.XAER_PROTO, () -> first.start(xid(), NONE));
            first.end(xid, SUCCESS);
            answers(XAException.XAER_DUPID, () -> first.start(xid, NONE));
            first.rollback(xid);
            first.start(xid, NONE);
            first.end(xid, SUCCESS);
            first.rollback(xid);
        });
    }

    private void orders() {
        branch("local work comes first", () -> {
            Connection connection = one.getConnection();
            connection.setAutoCommit(false);
            connection.createStatement().executeQuery("SELECT * FROM X").close();
            answers(XAException.XAER_OUTSIDE, () -> first.start(xid(), NONE));
            connection.commit();
            first.start(xid(), NONE);
        });
        branch("calls in another order", () -> {
            TestXid xid = xid();
            first.start(xid, NONE);
            set(one, 0, "x");
            answers(XAException.XAER_PROTO, () -> first.prepare(xid));
            answers(XAException.XAER_PROTO, () -> first.commit(xid, true));
            first.end(xid, SUCCESS);
            answers(XAException.XAER_PROTO, () -> first.commit(xid, false));
            answers(XAException.XAER_PROTO, () -> first.forget(xid));
            same(XAResource.XA_OK, first.prepare(xid));
            answers(XAException.XAER_PROTO, () -> first.prepare(xid));
            answers(XAException.XAER_PROTO, () -> first.commit(xid, true));
            answers(XAException.XAER_PROTO, () -> first.start(xid, XAResource.TMJOIN));
            first.commit(xid, false);
        });
    }

    private void otherConnections() {
        branch("another connection prepares and commits, whatever was kept back", () -> {
            TestXid xid = worked("elsewhere");
            same(XAResource.XA_OK, second.prepare(xid));
            second.commit(xid, false);
            same("elsewhere", text(0));
        });
        branch("another connection joins what was ended", () -> {
            TestXid xid = worked("joined");
            second.start(xid, XAResource.TMJOIN);
            set(two, 1, "joined");
            second.end(xid, SUCCESS);
            first.commit(xid, true);
            same("joined", text(0));
            same("joined", text(1));
        });
        branch("another connection can't join what is under way", () -> {
            TestXid xid = xid();
            first.start(xid, NONE);
            answers(XAException.XAER_PROTO, () -> second.start(xid, XAResource.TMJOIN));
        });
        branch("a prepared branch outlives its connection, another one does not", () -> {
            TestXid prepared = worked("kept");
            first.prepare(prepared);
            TestXid lost = xid();
            first.start(lost, NONE);
            set(one, 1, "lost");
            first.end(lost, SUCCESS);
            one.close();
            answers(XAException.XAER_RMFAIL, () -> first.commit(prepared, false));
            second.commit(prepared, false);
            same("kept", text(0));
            for (int tries = 0; tries < 200; tries++) {
                if (refused(XAException.class, () -> second.prepare(lost)).errorCode == XAException.XAER_NOTA) {
                    return;
                }
                Thread.sleep(10);
            }
            throw new AssertionError("the branch of a lost connection stays");
        });
    }

    /**
     * A connection by the host's other name: the driver takes it for one to another server, so that, as in another process, nobody
     * sees there what is kept back here.
     */
    private XAConnection elsewhere() throws SQLException {
        DrdadXADataSource source = server.xaSource();
        source.setHost("localhost");
        return source.getXAConnection();
    }

    private void keptBack() {
        branch("a start that is refused behind its statement does nothing, and lets nothing be done", () -> {
            TestXid xid = worked("prepared");
            first.prepare(xid);
            XAConnection other = elsewhere();
            XAResource late = other.getXAResource();
            late.start(xid, NONE);
            Connection connection = other.getConnection();
            refused(SQLException.class, "2D521", () -> connection.createStatement().executeUpdate("UPDATE X SET V = 'no' WHERE K = 5"));
            refused(SQLException.class, "2D521", () -> connection.createStatement().executeUpdate("UPDATE X SET V = 'no' WHERE K = 6"));
            holds(!connection.getAutoCommit(), "autocommit is off");
            same("row", text(5));
            answers(XAException.XAER_NOTA, () -> late.end(xid, SUCCESS));
            answers(XAException.XAER_NOTA, () -> late.rollback(xid));
            same(1, first.recover(XAResource.TMSTARTRSCAN).length);
            holds(connection.getAutoCommit(), "autocommit is on");
            connection.createStatement().executeUpdate("UPDATE X SET V = 'local' WHERE K = 5");
            same("local", text(5));
            TestXid next = xid();
            late.start(next, NONE);
            connection.createStatement().executeUpdate("UPDATE X SET V = 'next' WHERE K = 6");
            late.end(next, SUCCESS);
            late.commit(next, true);
            same("next", text(6));
            other.close();
            first.commit(xid, false);
        });
        branch("a start that is refused with nothing behind it is told by the prepare", () -> {
            TestXid xid = worked("prepared");
            first.prepare(xid);
            XAConnection other = elsewhere();
            other.getXAResource().start(xid, NONE);
            other.getXAResource().end(xid, SUCCESS);
            answers(XAException.XAER_DUPID, () -> other.getXAResource().prepare(xid));
            answers(XAException.XAER_NOTA, () -> other.getXAResource().rollback(xid));
            other.close();
            first.commit(xid, false);
            same("prepared", text(0));
        });
    }

    private void between() {
        branch("isValid() inside of a branch changes nothing", () -> {
            TestXid xid = xid();
            first.start(xid, NONE);
            Connection connection = one.getConnection();
            holds(connection.isValid(5), "valid");
            connection.createStatement().executeUpdate("UPDATE X SET V = 'valid' WHERE K = 0");
            holds(connection.isValid(5), "valid");
            first.end(xid, SUCCESS);
            holds(connection.isValid(5), "valid");
            first.commit(xid, true);
            same("valid", text(0));
        });
        branch("local work behind an end is no part of the branch", () -> {
            TestXid xid = worked("branch");
            set(one, 1, "local");
            first.rollback(xid);
            same("row", text(0));
            same("local", text(1));
        });
    }

    private void connections() {
        branch("inside of a branch its manager ends the unit", () -> {
            TestXid xid = xid();
            Connection connection = one.getConnection();
            first.start(xid, NONE);
            holds(!connection.getAutoCommit(), "no autocommit");
            connection.setAutoCommit(false);
            refused(SQLException.class, "2D521", connection::commit);
            refused(SQLException.class, "2D521", connection::rollback);
            refused(SQLException.class, "2D521", () -> connection.setAutoCommit(true));
            first.end(xid, SUCCESS);
            holds(connection.getAutoCommit(), "autocommit");
            first.rollback(xid);
        });
        branch("a connection that is closed inside of a branch leaves it", () -> {
            TestXid xid = xid();
            first.start(xid, NONE);
            Connection connection = one.getConnection();
            connection.createStatement().executeUpdate("UPDATE X SET V = 'closed' WHERE K = 0");
            connection.close();
            set(one, 1, "closed");
            first.end(xid, SUCCESS);
            first.commit(xid, true);
            same("closed", text(0));
            same("closed", text(1));
        });
    }

    private void rows() {
        branch("the end of work in a branch takes away the rows that have not come", () -> {
            String table = "XROWS" + numbers;
            server.table(table, 3000);
            TestXid xid = xid();
            first.start(xid, NONE);
            java.sql.Statement statement = one.getConnection().createStatement();
            statement.setFetchSize(1);
            ResultSet rows = statement.executeQuery("SELECT * FROM " + table);
            rows.next();
            first.end(xid, SUCCESS);
            refused(SQLException.class, () -> {
                while (rows.next()) {
                    rows.getInt(1);
                }
            });
            same(XAResource.XA_RDONLY, first.prepare(xid));
        });
        branch("what another branch claims is told as a rollback", () -> {
            TestXid xid = worked("claims");
            first.prepare(xid);
            TestXid other = xid();
            second.start(other, NONE);
            refused(java.sql.SQLTransactionRollbackException.class, () -> set(two, 0, "x"));
            holds(!two.getConnection().getAutoCommit(), "still in the branch");
            second.end(other, XAResource.TMFAIL);
            second.rollback(other);
            first.commit(xid, false);
        });
        branch("each connection is a resource of its own, without timeouts", () -> {
            holds(first.isSameRM(first) && !first.isSameRM(second), "its own");
            same(0, first.getTransactionTimeout());
            same(false, first.setTransactionTimeout(5));
        });
    }

    private void recovery() {
        branch("recover lists at the start of a scan alone, and gives XIDs as they were", () -> {
            TestXid xid = worked("doubt");
            first.prepare(xid);
            same(0, second.recover(NONE).length);
            same(0, second.recover(XAResource.TMENDRSCAN).length);
            Xid[] found = second.recover(XAResource.TMSTARTRSCAN | XAResource.TMENDRSCAN);
            same(1, found.length);
            same(xid.getFormatId(), found[0].getFormatId());
            same(xid.getGlobalTransactionId(), found[0].getGlobalTransactionId());
            same(xid.getBranchQualifier(), found[0].getBranchQualifier());
            second.commit(found[0], false);
            same(0, second.recover(XAResource.TMSTARTRSCAN).length);
            same("doubt", text(0));
        });
    }
}
