package org.drdad.jdbc;

import java.sql.Array;
import java.sql.Blob;
import java.sql.CallableStatement;
import java.sql.Clob;
import java.sql.Connection;
import java.sql.DatabaseMetaData;
import java.sql.NClob;
import java.sql.PreparedStatement;
import java.sql.ResultSet;
import java.sql.SQLClientInfoException;
import java.sql.SQLException;
import java.sql.SQLWarning;
import java.sql.SQLXML;
import java.sql.Savepoint;
import java.sql.Statement;
import java.sql.Struct;
import java.util.Collections;
import java.util.Map;
import java.util.Properties;
import java.util.concurrent.Executor;

/** A connection as the application has it: it is the session's only user, or one of several that a pool lets use it in turn. */
final class DrdadConnection extends Wrapping implements Connection {
    private static final int MILLISECONDS = 1000;

    /** Who has the session that a connection works on. */
    interface Owner {
        void isClosed(DrdadConnection connection) throws SQLException;
    }

    private final Session session;
    private final Owner owner;
    private volatile boolean isClosed;
    private boolean isReadOnly;
    private final Properties clientInfo = new Properties();

    DrdadConnection(Session session, Owner owner) { this.session = session; this.owner = owner; }
    Session session() { return session; }

    void checkOpen() throws SQLException {
        if (isClosed()) {
            throw Failures.closed("the connection");
        }
    }

    // The end.

    @Override
    public void close() throws SQLException {
        if (!isClosed) {
            isClosed = true;
            owner.isClosed(this);
        }
    }

    /** The session is taken away: it is given to another user. */
    void takeAway() { isClosed = true; }
    @Override public boolean isClosed() { return isClosed || session.isClosed(); }

    @Override
    public boolean isValid(int seconds) throws SQLException {
        DrdadStatement.checkCount("a timeout", seconds);
        return !isClosed() && session.isAlive((int) Math.min(Integer.MAX_VALUE, (long) seconds * MILLISECONDS));
    }

    @Override
    public void abort(Executor executor) throws SQLException {
        if (executor == null) {
            throw Failures.misuse("abort() wants an executor");
        }
        isClosed = true;
        executor.execute(session::close);
    }

    // Statements.

    @Override public Statement createStatement() throws SQLException { checkOpen(); return new DrdadStatement(this); }

    @Override
    public Statement createStatement(int type, int concurrency) throws SQLException {
        checkRows(type, concurrency, ResultSet.HOLD_CURSORS_OVER_COMMIT);
        return createStatement();
    }

    @Override
    public Statement createStatement(int type, int concurrency, int holdability) throws SQLException {
        checkRows(type, concurrency, holdability);
        return createStatement();
    }

    @Override
    public PreparedStatement prepareStatement(String sql) throws SQLException {
        checkOpen();
        return new DrdadPreparedStatement(this, sql);
    }

    @Override
    public PreparedStatement prepareStatement(String sql, int type, int concurrency) throws SQLException {
        checkRows(type, concurrency, ResultSet.HOLD_CURSORS_OVER_COMMIT);
        return prepareStatement(sql);
    }

    @Override
    public PreparedStatement prepareStatement(String sql, int type, int concurrency, int holdability) throws SQLException {
        checkRows(type, concurrency, holdability);
        return prepareStatement(sql);
    }

    @Override public PreparedStatement prepareStatement(String sql, int keys) throws SQLException { return prepareStatement(sql); }

    @Override
    public PreparedStatement prepareStatement(String sql, int[] columns) throws SQLException { return prepareStatement(sql); }

    @Override
    public PreparedStatement prepareStatement(String sql, String[] columns) throws SQLException { return prepareStatement(sql); }

    private static void checkRows(int type, int concurrency, int holdability) throws SQLException {
        if (type != ResultSet.TYPE_FORWARD_ONLY || concurrency != ResultSet.CONCUR_READ_ONLY) {
            throw Failures.notSupported("result sets go forward only, and are read only");
        }
        checkHoldability(holdability);
    }

    private static void checkHoldability(int holdability) throws SQLException {
        if (holdability != ResultSet.HOLD_CURSORS_OVER_COMMIT) {
            throw Failures.notSupported("result sets stay open over a commit");
        }
    }

    private static SQLException noProcedures() { return Failures.notSupported("the server has no procedures"); }
    @Override public CallableStatement prepareCall(String sql) throws SQLException { throw noProcedures(); }

    @Override
    public CallableStatement prepareCall(String sql, int type, int concurrency) throws SQLException { throw noProcedures(); }

    @Override
    public CallableStatement prepareCall(String sql, int type, int concurrency, int holdability) throws SQLException {
        throw noProcedures();
    }

    @Override public String nativeSQL(String sql) throws SQLException { checkOpen(); return SqlText.of(sql).text(); }

    // Units of work.

    @Override public void setAutoCommit(boolean wanted) throws SQLException { checkOpen(); session.setAutocommit(wanted); }
    @Override public boolean getAutoCommit() throws SQLException { checkOpen(); return session.isAutocommit(); }
    @Override public void commit() throws SQLException { checkEnds("commit()"); session.commit(); }
    @Override public void rollback() throws SQLException { checkEnds("rollback()"); session.rollback(); }

    private void checkEnds(String what) throws SQLException {
        checkOpen();
        if (session.isAutocommit()) {
            throw new SQLException(what + " has no place with autocommit: each statement is a unit", "25000");
        }
    }

    /** Units are serializable always, which is no less than any level that may be asked for. */
    @Override
    public void setTransactionIsolation(int level) throws SQLException {
        checkOpen();
        switch (level) {
            case TRANSACTION_READ_UNCOMMITTED:
            case TRANSACTION_READ_COMMITTED:
            case TRANSACTION_REPEATABLE_READ:
            case TRANSACTION_SERIALIZABLE: return;
            default: throw Failures.misuse("there is no isolation " + level);
        }
    }

    @Override public int getTransactionIsolation() throws SQLException { checkOpen(); return TRANSACTION_SERIALIZABLE; }
    private static SQLException noSavepoints() { return Failures.notSupported("the server has no savepoints"); }
    @Override public Savepoint setSavepoint() throws SQLException { throw noSavepoints(); }
    @Override public Savepoint setSavepoint(String name) throws SQLException { throw noSavepoints(); }
    @Override public void rollback(Savepoint savepoint) throws SQLException { throw noSavepoints(); }
    @Override public void releaseSavepoint(Savepoint savepoint) throws SQLException { throw noSavepoints(); }

    // Settings.

    /** A hint: the server takes changes all the same. */
    @Override
    public void setReadOnly(boolean wanted) throws SQLException {
        checkOpen();
        if (session.hasWork()) {
            throw new SQLException("setReadOnly() has no place inside of a unit", "25001");
        }
        isReadOnly = wanted;
    }

    @Override public boolean isReadOnly() throws SQLException { checkOpen(); return isReadOnly; }

    /** A connection has one database; another name is passed over, as JDBC has it. */
    @Override public void setCatalog(String catalog) throws SQLException { checkOpen(); }
    @Override public String getCatalog() throws SQLException { checkOpen(); return session.settings().database; }

    /** There are no schemas; a name is passed over. */
    @Override public void setSchema(String schema) throws SQLException { checkOpen(); }
    @Override public String getSchema() throws SQLException { checkOpen(); return null; }
    @Override public void setHoldability(int holdability) throws SQLException { checkOpen(); checkHoldability(holdability); }
    @Override public int getHoldability() throws SQLException { checkOpen(); return ResultSet.HOLD_CURSORS_OVER_COMMIT; }

    @Override
    public void setNetworkTimeout(Executor executor, int milliseconds) throws SQLException {
        checkOpen();
        DrdadStatement.checkCount("a timeout", milliseconds);
        session.setNetworkTimeout(milliseconds);
    }

    @Override public int getNetworkTimeout() throws SQLException { checkOpen(); return session.networkTimeout(); }
    @Override public SQLWarning getWarnings() throws SQLException { checkOpen(); return null; }
    @Override public void clearWarnings() throws SQLException { checkOpen(); }
    @Override public Map<String, Class<?>> getTypeMap() throws SQLException { checkOpen(); return Collections.emptyMap(); }

    @Override
    public void setTypeMap(Map<String, Class<?>> types) throws SQLException {
        checkOpen();
        if (types != null && !types.isEmpty()) {
            throw Failures.notSupported("there are no types of a user's own");
        }
    }

    @Override public DatabaseMetaData getMetaData() throws SQLException { checkOpen(); return new DrdadMetaData(this); }

    /** The server is told nothing of it. */
    @Override
    public void setClientInfo(String name, String value) throws SQLClientInfoException {
        checkTakesInfo();
        if (value == null) {
            clientInfo.remove(name);
        } else {
            clientInfo.setProperty(name, value);
        }
    }

    private void checkTakesInfo() throws SQLClientInfoException {
        if (isClosed()) {
            throw new SQLClientInfoException("the connection is closed", Failures.IS_CLOSED, Collections.emptyMap());
        }
    }

    @Override
    public void setClientInfo(Properties properties) throws SQLClientInfoException {
        checkTakesInfo();
        clientInfo.clear();
        for (String name : properties.stringPropertyNames()) {
            setClientInfo(name, properties.getProperty(name));
        }
    }

    @Override public String getClientInfo(String name) throws SQLException { checkOpen(); return clientInfo.getProperty(name); }
    @Override public Properties getClientInfo() throws SQLException { checkOpen(); return (Properties) clientInfo.clone(); }

    // What there is none of.

    private static SQLException noValues(String type) {
        return Failures.notSupported("no column has a " + type + ": columns are numbers, texts and bytes");
    }

    @Override public Clob createClob() throws SQLException { throw noValues("CLOB"); }
    @Override public Blob createBlob() throws SQLException { throw noValues("BLOB"); }
    @Override public NClob createNClob() throws SQLException { throw noValues("NCLOB"); }
    @Override public SQLXML createSQLXML() throws SQLException { throw noValues("XML"); }
    @Override public Array createArrayOf(String type, Object[] values) throws SQLException { throw noValues("array"); }
    @Override public Struct createStruct(String type, Object[] values) throws SQLException { throw noValues("structure"); }
}
