package org.drdad.jdbc;

import java.io.ByteArrayOutputStream;
import java.io.IOException;
import java.io.InputStream;
import java.io.InputStreamReader;
import java.io.Reader;
import java.math.BigDecimal;
import java.math.BigInteger;
import java.nio.charset.StandardCharsets;
import java.sql.ParameterMetaData;
import java.sql.ResultSet;
import java.sql.ResultSetMetaData;
import java.sql.SQLException;
import java.sql.SQLType;
import java.util.ArrayList;
import java.util.List;

/** A statement whose text stays; its markers are given values for each run. The server prepares it with the first run. */
final class DrdadPreparedStatement extends RefusedParameters {
    private final SqlText text;
    private final ParameterList parameters;
    private final List<byte[]> batch = new ArrayList<>();

    DrdadPreparedStatement(DrdadConnection connection, String sql) throws SQLException {
        super(connection);
        text = SqlText.of(sql);
        if (text.markers() > SqlText.MOST_MARKERS) {
            throw Failures.syntax("the statement has " + text.markers() + " markers, and may have " + SqlText.MOST_MARKERS, "54004");
        }
        parameters = new ParameterList(text.markers());
    }

    // Runs.

    @Override
    public boolean execute() throws SQLException {
        byte[] row = encoded();
        begin();
        if (!text.isQuery()) {
            hasChanged(session.run(text, row, timeout()));
            return false;
        }
        hasOpened(text, session.open(text, row, rowsAtOnce(), timeout()));
        return true;
    }

    private byte[] encoded() throws SQLException { checkOpen(); return parameters.encoded(); }

    @Override
    public ResultSet executeQuery() throws SQLException {
        checkOpen();
        checkKind(text, true);
        execute();
        return getResultSet();
    }

    @Override
    public long executeLargeUpdate() throws SQLException {
        checkOpen();
        checkKind(text, false);
        execute();
        return getLargeUpdateCount();
    }

    @Override public int executeUpdate() throws SQLException { return (int) executeLargeUpdate(); }
    @Override public void addBatch() throws SQLException { batch.add(encoded()); }
    @Override public void clearBatch() throws SQLException { checkOpen(); batch.clear(); }

    @Override
    public long[] executeLargeBatch() throws SQLException {
        begin();
        checkKind(text, false);
        List<byte[]> rows = new ArrayList<>(batch);
        batch.clear();
        return session.runAll(text, rows, timeout()).counts();
    }

    private static SQLException hasText() { return Failures.misuse("a prepared statement has its text already"); }
    @Override public boolean execute(String sql) throws SQLException { throw hasText(); }
    @Override public ResultSet executeQuery(String sql) throws SQLException { throw hasText(); }
    @Override public long executeLargeUpdate(String sql) throws SQLException { throw hasText(); }
    @Override public void addBatch(String sql) throws SQLException { throw hasText(); }

    // What it is.

    @Override
    public ResultSetMetaData getMetaData() throws SQLException {
        checkOpen();
        return text.isQuery() ? new RowMetaData(session.describe(text), text.table()) : null;
    }

    @Override
    public ParameterMetaData getParameterMetaData() throws SQLException {
        checkOpen();
        return new MarkerMetaData(session.describeParameters(text));
    }

    // Parameters.

    @Override public void clearParameters() throws SQLException { checkOpen(); parameters.clear(); }
    @Override public void setNull(int place, int type) throws SQLException { checkOpen(); parameters.setNull(place); }
    @Override public void setNull(int place, int type, String typeName) throws SQLException { setNull(place, type); }
    @Override public void setLong(int place, long value) throws SQLException { checkOpen(); parameters.setNumber(place, value); }
    @Override public void setInt(int place, int value) throws SQLException { setLong(place, value); }
    @Override public void setShort(int place, short value) throws SQLException { setLong(place, value); }
    @Override public void setByte(int place, byte value) throws SQLException { setLong(place, value); }

    /** A truth value is the number 1 or 0. */
    @Override public void setBoolean(int place, boolean value) throws SQLException { setLong(place, value ? 1 : 0); }

    @Override
    public void setBigDecimal(int place, BigDecimal value) throws SQLException {
        if (value == null) {
            setNull(place, 0);
            return;
        }
        try {
            setLong(place, value.longValueExact());
        } catch (ArithmeticException fault) {
            throw Failures.data("the number " + value + " has decimals, or is out of the range of BIGINT", Failures.RANGE);
        }
    }

    @Override public void setString(int place, String value) throws SQLException { checkOpen(); parameters.setText(place, value); }
    @Override public void setNString(int place, String value) throws SQLException { setString(place, value); }
    @Override public void setBytes(int place, byte[] value) throws SQLException { checkOpen(); parameters.setBytes(place, value); }

    @Override
    public void setObject(int place, Object value) throws SQLException {
        if (value == null) {
            setNull(place, 0);
        } else if (value instanceof String || value instanceof Character) {
            setString(place, value.toString());
        } else if (value instanceof Long || value instanceof Integer || value instanceof Short || value instanceof Byte) {
            setLong(place, ((Number) value).longValue());
        } else if (value instanceof BigDecimal || value instanceof BigInteger) {
            setBigDecimal(place, value instanceof BigDecimal ? (BigDecimal) value : new BigDecimal((BigInteger) value));
        } else if (value instanceof Boolean) {
            setBoolean(place, (Boolean) value);
        } else if (value instanceof byte[]) {
            setBytes(place, (byte[]) value);
        } else {
            throw noColumn(value.getClass().getName());
        }
    }

    /** The type that is named makes of a text a number, and of a number a text; others go by the value's class. */
    @Override
    public void setObject(int place, Object value, int type) throws SQLException {
        checkOpen();
        setObject(place, Targets.converted(value, type));
    }

    @Override
    public void setObject(int place, Object value, int type, int scale) throws SQLException { setObject(place, value, type); }

    @Override
    public void setObject(int place, Object value, SQLType type) throws SQLException {
        if (type == null || type.getVendorTypeNumber() == null) {
            throw Failures.misuse("no type was given");
        }
        setObject(place, value, type.getVendorTypeNumber());
    }

    @Override
    public void setObject(int place, Object value, SQLType type, int scale) throws SQLException { setObject(place, value, type); }

    // Streams are read at once: a value has at most 2,000 bytes.

    private static SQLException unread(IOException fault) {
        return new SQLException("the stream could not be read: " + fault.getMessage(), Failures.TOO_LONG, fault);
    }

    @Override
    public void setBinaryStream(int place, InputStream stream, long length) throws SQLException {
        if (stream == null) {
            setNull(place, 0);
            return;
        }
        ByteArrayOutputStream bytes = new ByteArrayOutputStream();
        try {
            bytes.write(stream.readNBytes((int) Math.min(length, ParameterList.LONGEST_VALUE + 1L)));
        } catch (IOException fault) {
            throw unread(fault);
        }
        setBytes(place, bytes.toByteArray());
    }

    @Override
    public void setBinaryStream(int place, InputStream stream, int length) throws SQLException {
        setBinaryStream(place, stream, (long) length);
    }

    @Override
    public void setBinaryStream(int place, InputStream stream) throws SQLException {
        setBinaryStream(place, stream, Long.MAX_VALUE);
    }

    @Override
    public void setCharacterStream(int place, Reader reader, long length) throws SQLException {
        if (reader == null) {
            setNull(place, 0);
            return;
        }
        char[] text = new char[(int) Math.min(length, ParameterList.LONGEST_VALUE + 1L)];
        int size = 0;
        try {
            for (int count = 0; count >= 0 && size < text.length; count = reader.read(text, size, text.length - size)) {
                size += count;
            }
        } catch (IOException fault) {
            throw unread(fault);
        }
        setString(place, new String(text, 0, size));
    }

    @Override
    public void setCharacterStream(int place, Reader reader, int length) throws SQLException {
        setCharacterStream(place, reader, (long) length);
    }

    @Override
    public void setCharacterStream(int place, Reader reader) throws SQLException {
        setCharacterStream(place, reader, Long.MAX_VALUE);
    }

    @Override
    public void setNCharacterStream(int place, Reader reader, long length) throws SQLException {
        setCharacterStream(place, reader, length);
    }

    @Override public void setNCharacterStream(int place, Reader reader) throws SQLException { setCharacterStream(place, reader); }

    @Override
    public void setAsciiStream(int place, InputStream stream, long length) throws SQLException {
        setCharacterStream(place, stream == null ? null : new InputStreamReader(stream, StandardCharsets.US_ASCII), length);
    }

    @Override
    public void setAsciiStream(int place, InputStream stream, int length) throws SQLException {
        setAsciiStream(place, stream, (long) length);
    }

    @Override
    public void setAsciiStream(int place, InputStream stream) throws SQLException { setAsciiStream(place, stream, Long.MAX_VALUE); }

    @Override
    @Deprecated
    public void setUnicodeStream(int place, InputStream stream, int length) throws SQLException {
        throw Failures.notSupported("setUnicodeStream() is deprecated: setCharacterStream() takes the text");
    }

    // Large objects that are given as streams are no other than these.

    @Override
    public void setClob(int place, Reader reader, long length) throws SQLException { setCharacterStream(place, reader, length); }
    @Override public void setClob(int place, Reader reader) throws SQLException { setCharacterStream(place, reader); }

    @Override
    public void setNClob(int place, Reader reader, long length) throws SQLException { setCharacterStream(place, reader, length); }
    @Override public void setNClob(int place, Reader reader) throws SQLException { setCharacterStream(place, reader); }

    @Override
    public void setBlob(int place, InputStream stream, long length) throws SQLException { setBinaryStream(place, stream, length); }
    @Override public void setBlob(int place, InputStream stream) throws SQLException { setBinaryStream(place, stream); }
}
