package org.drdad.jdbc;

import java.io.ByteArrayInputStream;
import java.io.InputStream;
import java.io.Reader;
import java.io.StringReader;
import java.math.BigDecimal;
import java.math.RoundingMode;
import java.nio.charset.StandardCharsets;
import java.sql.ResultSet;
import java.sql.ResultSetMetaData;
import java.sql.SQLException;
import java.sql.SQLWarning;
import java.sql.Statement;
import java.util.Map;

/** Rows one after the other, forward and read only. */
final class DrdadResultSet extends LabelledResultSet {
    private final DrdadStatement statement;
    private final Rows rows;
    private final Column[] columns;
    private final String table;
    private final long maxRows;
    private long row;
    private boolean isOnRow, isBehind, wasNull, isClosed;
    private int fetchSize;

    /** The rows of a statement, or of none; 0 rows at most is without a limit. */
    DrdadResultSet(DrdadStatement statement, Rows rows, Column[] columns, String table, long maxRows) {
        this.statement = statement;
        this.rows = rows;
        this.columns = columns;
        this.table = table;
        this.maxRows = maxRows;
    }

    // Rows.

    @Override
    public boolean next() throws SQLException {
        checkOpen();
        if (isBehind) {
            return false;
        }
        isOnRow = (maxRows == 0 || row < maxRows) && rows.next();
        if (isOnRow) {
            row++;
        } else {
            isBehind = true;
            rows.close();
        }
        return isOnRow;
    }

    @Override
    public void close() throws SQLException {
        if (isClosed) {
            return;
        }
        isClosed = true;
        isOnRow = false;
        rows.close();
        if (statement != null) {
            statement.hasClosed(this);
        }
    }

    @Override public boolean isClosed() { return isClosed || statement != null && statement.isClosed(); }

    @Override
    void checkOpen() throws SQLException {
        if (isClosed()) {
            throw Failures.misuse("the result set is closed");
        }
    }

    /** The place from 0 of a column that stands on a row, which notes whether it is NULL. */
    private int at(int column) throws SQLException {
        if (!isOnRow || isClosed()) {
            checkOpen();
            throw new SQLException("the result set is on no row", "24000");
        }
        if (column < 1 || column > columns.length) {
            throw new SQLException("there is no column " + column + ": there are " + columns.length, "42703");
        }
        wasNull = rows.isNull(column - 1);
        return column - 1;
    }

    @Override public boolean wasNull() throws SQLException { checkOpen(); return wasNull; }

    @Override
    public int findColumn(String label) throws SQLException {
        checkOpen();
        for (int at = 0; at < columns.length; at++) {
            if (columns[at].name.equalsIgnoreCase(label)) {
                return at + 1;
            }
        }
        throw new SQLException("there is no column " + label, "42703");
    }

    // Values.

    @Override
    public String getString(int column) throws SQLException {
        int at = at(column);
        return wasNull ? null : Values.text(rows, at, columns[at]);
    }

    @Override
    public boolean getBoolean(int column) throws SQLException {
        int at = at(column);
        return !wasNull && Values.truth(rows, at, columns[at]);
    }

    @Override public byte getByte(int column) throws SQLException { return (byte) number(column, Byte.MIN_VALUE, Byte.MAX_VALUE); }

    @Override
    public short getShort(int column) throws SQLException { return (short) number(column, Short.MIN_VALUE, Short.MAX_VALUE); }

    @Override
    public int getInt(int column) throws SQLException { return (int) number(column, Integer.MIN_VALUE, Integer.MAX_VALUE); }
    @Override public long getLong(int column) throws SQLException { return number(column, Long.MIN_VALUE, Long.MAX_VALUE); }

    private long number(int column, long least, long greatest) throws SQLException {
        int at = at(column);
        if (wasNull) {
            return 0;
        }
        long number = Values.number(rows, at, columns[at]);
        if (number < least || number > greatest) {
            throw Failures.data("the number " + number + " is out of the range " + least + " to " + greatest, Failures.RANGE);
        }
        return number;
    }

    @Override public float getFloat(int column) throws SQLException { return (float) getDouble(column); }

    @Override
    public double getDouble(int column) throws SQLException {
        BigDecimal number = getBigDecimal(column);
        return number == null ? 0 : number.doubleValue();
    }

    @Override
    public BigDecimal getBigDecimal(int column) throws SQLException {
        int at = at(column);
        return wasNull ? null : Values.decimal(rows, at, columns[at]);
    }

    @Override
    @Deprecated
    public BigDecimal getBigDecimal(int column, int scale) throws SQLException {
        BigDecimal number = getBigDecimal(column);
        return number == null ? null : number.setScale(scale, RoundingMode.HALF_UP);
    }

    @Override
    public byte[] getBytes(int column) throws SQLException {
        int at = at(column);
        return wasNull ? null : Values.bytes(rows, at, columns[at]);
    }

    @Override
    public Object getObject(int column) throws SQLException {
        int at = at(column);
        return wasNull ? null : getObject(column, columns[at].javaClass());
    }

    @Override public Object getObject(int column, Map<String, Class<?>> types) throws SQLException { return getObject(column); }

    @Override
    public <T> T getObject(int column, Class<T> wanted) throws SQLException {
        if (wanted == null) {
            throw Failures.misuse("no class was given");
        }
        int at = at(column);
        return wasNull ? null : wanted.cast(Values.object(rows, at, columns[at], wanted));
    }

    @Override
    public InputStream getBinaryStream(int column) throws SQLException {
        byte[] bytes = getBytes(column);
        return bytes == null ? null : new ByteArrayInputStream(bytes);
    }

    @Override
    public Reader getCharacterStream(int column) throws SQLException {
        String text = getString(column);
        return text == null ? null : new StringReader(text);
    }

    @Override
    public InputStream getAsciiStream(int column) throws SQLException {
        String text = getString(column);
        return text == null ? null : new ByteArrayInputStream(text.getBytes(StandardCharsets.US_ASCII));
    }

    @Override
    @Deprecated
    public InputStream getUnicodeStream(int column) throws SQLException {
        throw Failures.notSupported("getUnicodeStream() is deprecated: getCharacterStream() gives the text");
    }

    @Override public String getNString(int column) throws SQLException { return getString(column); }
    @Override public Reader getNCharacterStream(int column) throws SQLException { return getCharacterStream(column); }

    // Where it stands.

    @Override public boolean isBeforeFirst() throws SQLException { checkOpen(); return row == 0 && !isBehind; }
    @Override public boolean isAfterLast() throws SQLException { checkOpen(); return isBehind && row > 0; }
    @Override public boolean isFirst() throws SQLException { checkOpen(); return isOnRow && row == 1; }
    @Override public int getRow() throws SQLException { checkOpen(); return isOnRow ? (int) row : 0; }

    private SQLException forwardOnly() throws SQLException {
        checkOpen();
        return Failures.notSupported("the result set goes forward only, by next()");
    }

    @Override public boolean isLast() throws SQLException { throw forwardOnly(); }
    @Override public void beforeFirst() throws SQLException { throw forwardOnly(); }
    @Override public void afterLast() throws SQLException { throw forwardOnly(); }
    @Override public boolean first() throws SQLException { throw forwardOnly(); }
    @Override public boolean last() throws SQLException { throw forwardOnly(); }
    @Override public boolean absolute(int place) throws SQLException { throw forwardOnly(); }
    @Override public boolean relative(int count) throws SQLException { throw forwardOnly(); }
    @Override public boolean previous() throws SQLException { throw forwardOnly(); }

    // What it is.

    @Override public int getType() throws SQLException { checkOpen(); return ResultSet.TYPE_FORWARD_ONLY; }
    @Override public int getConcurrency() throws SQLException { checkOpen(); return ResultSet.CONCUR_READ_ONLY; }
    @Override public int getHoldability() throws SQLException { checkOpen(); return ResultSet.HOLD_CURSORS_OVER_COMMIT; }
    @Override public int getFetchDirection() throws SQLException { checkOpen(); return ResultSet.FETCH_FORWARD; }

    @Override
    public void setFetchDirection(int direction) throws SQLException {
        checkOpen();
        if (direction != ResultSet.FETCH_FORWARD) {
            throw forwardOnly();
        }
    }

    @Override public int getFetchSize() throws SQLException { checkOpen(); return fetchSize; }

    /** A hint: blocks have the size that the statement's fetch size gave them. */
    @Override
    public void setFetchSize(int size) throws SQLException {
        checkOpen();
        DrdadStatement.checkCount("a fetch size", size);
        fetchSize = size;
    }

    @Override public Statement getStatement() throws SQLException { checkOpen(); return statement; }
    @Override public ResultSetMetaData getMetaData() throws SQLException { checkOpen(); return new RowMetaData(columns, table); }
    @Override public String getCursorName() throws SQLException { throw Failures.notSupported("cursors have no names"); }
    @Override public SQLWarning getWarnings() throws SQLException { checkOpen(); return null; }
    @Override public void clearWarnings() throws SQLException { checkOpen(); }
}
