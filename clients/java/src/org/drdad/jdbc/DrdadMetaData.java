package org.drdad.jdbc;

import java.sql.Connection;
import java.sql.ResultSet;
import java.sql.SQLException;

/** What is asked of the database: who it is, and its tables as far as they are named. The server can't list its tables. */
final class DrdadMetaData extends MetaDataLists {
    private final DrdadConnection connection;

    DrdadMetaData(DrdadConnection connection) { this.connection = connection; }
    @Override public Connection getConnection() { return connection; }
    @Override public String getURL() { return connection.session().settings().url(); }
    @Override public String getUserName() { return connection.session().settings().user; }

    /** The version and release of PRDID: RDA, and two digits each. */
    @Override public String getDatabaseProductVersion() { return getDatabaseMajorVersion() + "." + getDatabaseMinorVersion(); }
    @Override public int getDatabaseMajorVersion() { return digits(3); }
    @Override public int getDatabaseMinorVersion() { return digits(5); }
    private int digits(int at) { return Integer.parseInt(connection.session().product().substring(at, at + 2)); }
    @Override public boolean supportsTransactionIsolationLevel(int level) { return level == Connection.TRANSACTION_SERIALIZABLE; }
    @Override public boolean supportsResultSetType(int type) { return type == ResultSet.TYPE_FORWARD_ONLY; }

    @Override
    public boolean supportsResultSetConcurrency(int type, int concurrency) {
        return supportsResultSetType(type) && concurrency == ResultSet.CONCUR_READ_ONLY;
    }

    @Override
    public boolean supportsResultSetHoldability(int holdability) { return holdability == ResultSet.HOLD_CURSORS_OVER_COMMIT; }
    @Override Session session() throws SQLException { connection.checkOpen(); return connection.session(); }
}
