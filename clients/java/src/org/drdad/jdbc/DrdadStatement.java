package org.drdad.jdbc;

import java.sql.Connection;
import java.sql.ResultSet;
import java.sql.SQLException;
import java.sql.SQLWarning;
import java.sql.Statement;
import java.util.ArrayList;
import java.util.Collections;
import java.util.List;

/** A statement that is given as a text when it is run. */
class DrdadStatement extends Wrapping implements Statement {
    private static final int NO_COUNT = -1, MILLISECONDS = 1000;
    private static final Column[] NO_COLUMNS = {};

    final DrdadConnection connection;
    final Session session;
    private final List<SqlText> batch = new ArrayList<>();
    private DrdadResultSet result;
    private long updateCount = NO_COUNT;
    private long maxRows;
    private int fetchSize, queryTimeout, maxFieldSize;
    private boolean isClosed, closesOnCompletion, isPoolable;

    DrdadStatement(DrdadConnection connection) { this.connection = connection; session = connection.session(); }

    final void checkOpen() throws SQLException {
        if (isClosed) {
            throw Failures.misuse("the statement is closed");
        }
        connection.checkOpen();
    }

    static void checkCount(String what, long count) throws SQLException {
        if (count < 0) {
            throw Failures.misuse(what + " is 0 or more, and not " + count);
        }
    }

    // Runs.

    /** Gives up the results of the run before. */
    final void begin() throws SQLException {
        checkOpen();
        DrdadResultSet before = result;
        result = null;
        updateCount = NO_COUNT;
        if (before != null) {
            before.close();
        }
    }

    /** Milliseconds that a run may take; 0 is as long as the connection lets it. */
    final int timeout() { return (int) Math.min(Integer.MAX_VALUE, (long) queryTimeout * MILLISECONDS); }

    /** So many rows in a block are enough; 0 where nothing was said. */
    final int rowsAtOnce() {
        return maxRows > 0 && (fetchSize == 0 || maxRows < fetchSize) ? (int) Math.min(Integer.MAX_VALUE, maxRows) : fetchSize;
    }

    final void hasOpened(SqlText text, OpenQuery query) {
        result = new DrdadResultSet(this, new BlockRows(session, query), query.columns, text.table(), maxRows);
    }

    final void hasChanged(long rows) { updateCount = rows; }

    static void checkKind(SqlText text, boolean isQuery) throws SQLException {
        if (text.isQuery() != isQuery) {
            throw Failures.misuse(isQuery ? "the statement gives no rows: executeUpdate() runs it"
                    : "the statement gives rows: executeQuery() runs it");
        }
    }

    private void run(SqlText text) throws SQLException {
        begin();
        if (text.isQuery()) {
            hasOpened(text, session.open(text, null, rowsAtOnce(), timeout()));
        } else {
            hasChanged(session.run(text, timeout()));
        }
    }

    /** A result set is closed: with the last one a statement may close itself. */
    final void hasClosed(DrdadResultSet closed) throws SQLException {
        if (closesOnCompletion && closed == result) {
            close();
        }
    }

    @Override
    public boolean execute(String sql) throws SQLException {
        checkOpen();
        run(SqlText.of(sql));
        return result != null;
    }

    @Override
    public ResultSet executeQuery(String sql) throws SQLException {
        checkOpen();
        SqlText text = SqlText.of(sql);
        checkKind(text, true);
        run(text);
        return result;
    }

    @Override
    public long executeLargeUpdate(String sql) throws SQLException {
        checkOpen();
        SqlText text = SqlText.of(sql);
        checkKind(text, false);
        run(text);
        return updateCount;
    }

    @Override public int executeUpdate(String sql) throws SQLException { return (int) executeLargeUpdate(sql); }

    // Keys that the server makes: there are none, so that the list of them is empty.

    @Override public boolean execute(String sql, int keys) throws SQLException { return execute(sql); }
    @Override public boolean execute(String sql, int[] columns) throws SQLException { return execute(sql); }
    @Override public boolean execute(String sql, String[] columns) throws SQLException { return execute(sql); }
    @Override public int executeUpdate(String sql, int keys) throws SQLException { return executeUpdate(sql); }
    @Override public int executeUpdate(String sql, int[] columns) throws SQLException { return executeUpdate(sql); }
    @Override public int executeUpdate(String sql, String[] columns) throws SQLException { return executeUpdate(sql); }
    @Override public long executeLargeUpdate(String sql, int keys) throws SQLException { return executeLargeUpdate(sql); }
    @Override public long executeLargeUpdate(String sql, int[] columns) throws SQLException { return executeLargeUpdate(sql); }
    @Override public long executeLargeUpdate(String sql, String[] columns) throws SQLException { return executeLargeUpdate(sql); }

    @Override
    public ResultSet getGeneratedKeys() throws SQLException {
        checkOpen();
        return new DrdadResultSet(this, new ListedRows(Collections.emptyList()), NO_COLUMNS, "", 0);
    }

    // Results.

    @Override public ResultSet getResultSet() throws SQLException { checkOpen(); return result; }
    @Override public int getUpdateCount() throws SQLException { return (int) getLargeUpdateCount(); }
    @Override public long getLargeUpdateCount() throws SQLException { checkOpen(); return updateCount; }
    @Override public boolean getMoreResults() throws SQLException { return getMoreResults(CLOSE_CURRENT_RESULT); }

    @Override
    public boolean getMoreResults(int current) throws SQLException {
        checkOpen();
        if (current == KEEP_CURRENT_RESULT || current == CLOSE_ALL_RESULTS) {
            throw Failures.notSupported("a statement has one result");
        }
        if (current != CLOSE_CURRENT_RESULT) {
            throw Failures.misuse("getMoreResults() takes no " + current);
        }
        begin();
        return false;
    }

    // Batches.

    @Override public void addBatch(String sql) throws SQLException { checkOpen(); batch.add(SqlText.of(sql)); }
    @Override public void clearBatch() throws SQLException { checkOpen(); batch.clear(); }

    @Override
    public int[] executeBatch() throws SQLException {
        long[] counts = executeLargeBatch();
        int[] small = new int[counts.length];
        for (int at = 0; at < counts.length; at++) {
            small[at] = (int) counts[at];
        }
        return small;
    }

    @Override
    public long[] executeLargeBatch() throws SQLException {
        begin();
        List<SqlText> texts = new ArrayList<>(batch);
        batch.clear();
        return session.runAll(texts, timeout()).counts();
    }

    // Settings.

    @Override public int getMaxRows() throws SQLException { return (int) Math.min(Integer.MAX_VALUE, getLargeMaxRows()); }
    @Override public void setMaxRows(int most) throws SQLException { setLargeMaxRows(most); }
    @Override public long getLargeMaxRows() throws SQLException { checkOpen(); return maxRows; }

    @Override
    public void setLargeMaxRows(long most) throws SQLException {
        checkOpen();
        checkCount("the number of rows", most);
        maxRows = most;
    }

    @Override public int getFetchSize() throws SQLException { checkOpen(); return fetchSize; }

    @Override
    public void setFetchSize(int rows) throws SQLException {
        checkOpen();
        checkCount("a fetch size", rows);
        fetchSize = rows;
    }

    @Override public int getQueryTimeout() throws SQLException { checkOpen(); return queryTimeout; }

    /** Seconds that the server may be silent in a run; behind them the connection is closed. */
    @Override
    public void setQueryTimeout(int seconds) throws SQLException {
        checkOpen();
        checkCount("a timeout", seconds);
        queryTimeout = seconds;
    }

    @Override public int getMaxFieldSize() throws SQLException { checkOpen(); return maxFieldSize; }

    /** Values have at most 2,000 bytes, and come whole. */
    @Override
    public void setMaxFieldSize(int size) throws SQLException {
        checkOpen();
        checkCount("a size", size);
        maxFieldSize = size;
    }

    @Override public void setEscapeProcessing(boolean isWanted) throws SQLException { checkOpen(); }

    @Override
    public void cancel() throws SQLException {
        throw Failures.notSupported("a statement can't be cancelled; none waits for another one");
    }

    @Override public void setCursorName(String name) throws SQLException { throw Failures.notSupported("cursors have no names"); }

    @Override
    public void setFetchDirection(int direction) throws SQLException {
        checkOpen();
        if (direction != ResultSet.FETCH_FORWARD) {
            throw Failures.notSupported("result sets go forward only");
        }
    }

    @Override public int getFetchDirection() throws SQLException { checkOpen(); return ResultSet.FETCH_FORWARD; }
    @Override public int getResultSetConcurrency() throws SQLException { checkOpen(); return ResultSet.CONCUR_READ_ONLY; }
    @Override public int getResultSetType() throws SQLException { checkOpen(); return ResultSet.TYPE_FORWARD_ONLY; }
    @Override public int getResultSetHoldability() throws SQLException { checkOpen(); return ResultSet.HOLD_CURSORS_OVER_COMMIT; }
    @Override public SQLWarning getWarnings() throws SQLException { checkOpen(); return null; }
    @Override public void clearWarnings() throws SQLException { checkOpen(); }
    @Override public Connection getConnection() throws SQLException { checkOpen(); return connection; }
    @Override public void setPoolable(boolean wanted) throws SQLException { checkOpen(); isPoolable = wanted; }
    @Override public boolean isPoolable() throws SQLException { checkOpen(); return isPoolable; }
    @Override public void closeOnCompletion() throws SQLException { checkOpen(); closesOnCompletion = true; }
    @Override public boolean isCloseOnCompletion() throws SQLException { checkOpen(); return closesOnCompletion; }

    // The end.

    @Override
    public void close() throws SQLException {
        if (isClosed) {
            return;
        }
        isClosed = true;
        if (result != null) {
            result.close();
        }
    }

    @Override public boolean isClosed() { return isClosed || connection.isClosed(); }
}
