package org.drdad.jdbc;

import java.sql.Connection;
import java.sql.SQLException;
import java.util.List;
import java.util.concurrent.CopyOnWriteArrayList;
import javax.sql.ConnectionEvent;
import javax.sql.ConnectionEventListener;
import javax.sql.PooledConnection;
import javax.sql.StatementEventListener;

/** A session that a pool keeps: one user at a time has a connection to it, whose closing gives it back. */
class LentConnection implements PooledConnection {
    private final Session session;
    private final List<ConnectionEventListener> listeners = new CopyOnWriteArrayList<>();
    private DrdadConnection lent;

    LentConnection(Session session) { this.session = session; session.whenBroken(this::hasBroken); }
    final Session session() { return session; }

    /** A connection for the next user; the one before it is closed, and its local work rolled back. */
    @Override
    public final synchronized Connection getConnection() throws SQLException {
        if (session.isClosed()) {
            throw Failures.closed("the pooled connection");
        }
        if (lent != null) {
            lent.takeAway();
        }
        session.isGivenBack();
        lent = new DrdadConnection(session, this::isGivenBack);
        return lent;
    }

    private synchronized void isGivenBack(DrdadConnection connection) throws SQLException {
        if (connection != lent) {
            return;
        }
        lent = null;
        try {
            if (!session.isClosed()) {
                session.isGivenBack();
            }
        } finally {
            for (ConnectionEventListener listener : listeners) {
                listener.connectionClosed(new ConnectionEvent(this));
            }
        }
    }

    private void hasBroken(SQLException failure) {
        for (ConnectionEventListener listener : listeners) {
            listener.connectionErrorOccurred(new ConnectionEvent(this, failure));
        }
    }

    @Override public final void close() { session.close(); }
    @Override public final void addConnectionEventListener(ConnectionEventListener listener) { listeners.add(listener); }
    @Override public final void removeConnectionEventListener(ConnectionEventListener listener) { listeners.remove(listener); }

    /** The driver pools no statements, so that there is nothing to tell: what is prepared stays with the session. */
    @Override
    public final void addStatementEventListener(StatementEventListener listener) {
    }

    @Override
    public final void removeStatementEventListener(StatementEventListener listener) {
    }
}
