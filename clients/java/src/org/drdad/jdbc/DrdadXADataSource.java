package org.drdad.jdbc;

import java.sql.SQLException;
import javax.sql.XAConnection;
import javax.sql.XADataSource;

/** A source of connections that work in global units, under a transaction manager. */
public final class DrdadXADataSource extends CommonSource implements XADataSource {
    /** With its properties as they are before they are set. */
    public DrdadXADataSource() {
    }

    @Override public XAConnection getXAConnection() throws SQLException { return new DrdadXAConnection(new Session(settings())); }

    @Override
    public XAConnection getXAConnection(String user, String password) throws SQLException {
        return new DrdadXAConnection(new Session(settings(user, password)));
    }
}
