package org.drdad.jdbc;

import java.sql.Connection;
import java.sql.SQLException;
import javax.sql.DataSource;

/** A source of connections, each of which is made anew. */
public final class DrdadDataSource extends CommonSource implements DataSource {
    /** With its properties as they are before they are set. */
    public DrdadDataSource() {
    }

    @Override public Connection getConnection() throws SQLException { return DrdadDriver.connection(settings()); }

    @Override
    public Connection getConnection(String user, String password) throws SQLException {
        return DrdadDriver.connection(settings(user, password));
    }

    @Override public boolean isWrapperFor(Class<?> wanted) { return wanted.isInstance(this); }

    @Override
    public <T> T unwrap(Class<T> wanted) throws SQLException {
        if (!isWrapperFor(wanted)) {
            throw Failures.misuse("this is no " + wanted.getName());
        }
        return wanted.cast(this);
    }
}
