package org.drdad.jdbc;

import java.sql.SQLException;
import javax.sql.ConnectionPoolDataSource;
import javax.sql.PooledConnection;

/** A source of connections that a pool keeps and lends. */
public final class DrdadConnectionPoolDataSource extends CommonSource implements ConnectionPoolDataSource {
    /** With its properties as they are before they are set. */
    public DrdadConnectionPoolDataSource() {
    }

    @Override
    public PooledConnection getPooledConnection() throws SQLException { return new LentConnection(new Session(settings())); }

    @Override
    public PooledConnection getPooledConnection(String user, String password) throws SQLException {
        return new LentConnection(new Session(settings(user, password)));
    }
}
