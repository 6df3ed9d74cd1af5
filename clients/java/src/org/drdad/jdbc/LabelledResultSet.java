package org.drdad.jdbc;

import java.io.InputStream;
import java.io.Reader;
import java.math.BigDecimal;
import java.net.URL;
import java.sql.Array;
import java.sql.Blob;
import java.sql.Clob;
import java.sql.Date;
import java.sql.NClob;
import java.sql.Ref;
import java.sql.RowId;
import java.sql.SQLException;
import java.sql.SQLXML;
import java.sql.Time;
import java.sql.Timestamp;
import java.util.Calendar;
import java.util.Map;

/** The part of a result set that goes by the names of columns, and by types that no column has. */
abstract class LabelledResultSet extends ReadOnlyResultSet {
    @Override public String getString(String label) throws SQLException { return getString(findColumn(label)); }
    @Override public boolean getBoolean(String label) throws SQLException { return getBoolean(findColumn(label)); }
    @Override public byte getByte(String label) throws SQLException { return getByte(findColumn(label)); }
    @Override public short getShort(String label) throws SQLException { return getShort(findColumn(label)); }
    @Override public int getInt(String label) throws SQLException { return getInt(findColumn(label)); }
    @Override public long getLong(String label) throws SQLException { return getLong(findColumn(label)); }
    @Override public float getFloat(String label) throws SQLException { return getFloat(findColumn(label)); }
    @Override public double getDouble(String label) throws SQLException { return getDouble(findColumn(label)); }
    @Deprecated
    @Override public BigDecimal getBigDecimal(String label, int more)
            throws SQLException { return getBigDecimal(findColumn(label), more); }
    @Override public byte[] getBytes(String label) throws SQLException { return getBytes(findColumn(label)); }
    @Override public Date getDate(String label) throws SQLException { return getDate(findColumn(label)); }
    @Override public Time getTime(String label) throws SQLException { return getTime(findColumn(label)); }
    @Override public Timestamp getTimestamp(String label) throws SQLException { return getTimestamp(findColumn(label)); }
    @Override public InputStream getAsciiStream(String label) throws SQLException { return getAsciiStream(findColumn(label)); }
    @Deprecated
    @Override public InputStream getUnicodeStream(String label) throws SQLException { return getUnicodeStream(findColumn(label)); }
    @Override public InputStream getBinaryStream(String label) throws SQLException { return getBinaryStream(findColumn(label)); }
    @Override public Object getObject(String label) throws SQLException { return getObject(findColumn(label)); }
    @Override public Reader getCharacterStream(String label) throws SQLException { return getCharacterStream(findColumn(label)); }
    @Override public BigDecimal getBigDecimal(String label) throws SQLException { return getBigDecimal(findColumn(label)); }
    @Override public Object getObject(String label, Map<String, Class<?>> more)
            throws SQLException { return getObject(findColumn(label), more); }
    @Override public Ref getRef(String label) throws SQLException { return getRef(findColumn(label)); }
    @Override public Blob getBlob(String label) throws SQLException { return getBlob(findColumn(label)); }
    @Override public Clob getClob(String label) throws SQLException { return getClob(findColumn(label)); }
    @Override public Array getArray(String label) throws SQLException { return getArray(findColumn(label)); }
    @Override public Date getDate(String label, Calendar more) throws SQLException { return getDate(findColumn(label), more); }
    @Override public Time getTime(String label, Calendar more) throws SQLException { return getTime(findColumn(label), more); }
    @Override public Timestamp getTimestamp(String label, Calendar more)
            throws SQLException { return getTimestamp(findColumn(label), more); }
    @Override public URL getURL(String label) throws SQLException { return getURL(findColumn(label)); }
    @Override public RowId getRowId(String label) throws SQLException { return getRowId(findColumn(label)); }
    @Override public NClob getNClob(String label) throws SQLException { return getNClob(findColumn(label)); }
    @Override public SQLXML getSQLXML(String label) throws SQLException { return getSQLXML(findColumn(label)); }
    @Override public String getNString(String label) throws SQLException { return getNString(findColumn(label)); }
    @Override public Reader getNCharacterStream(String label) throws SQLException { return getNCharacterStream(findColumn(label)); }
    @Override public <T> T getObject(String label, Class<T> more) throws SQLException { return getObject(findColumn(label), more); }

    private static SQLException noColumn(String type) {
        return Failures.notSupported("no column has a " + type + ": columns are numbers, texts and bytes");
    }

    @Override public Date getDate(int column) throws SQLException { throw noColumn("date"); }
    @Override public Date getDate(int column, Calendar calendar) throws SQLException { throw noColumn("date"); }
    @Override public Time getTime(int column) throws SQLException { throw noColumn("time"); }
    @Override public Time getTime(int column, Calendar calendar) throws SQLException { throw noColumn("time"); }
    @Override public Timestamp getTimestamp(int column) throws SQLException { throw noColumn("timestamp"); }
    @Override public Timestamp getTimestamp(int column, Calendar calendar) throws SQLException { throw noColumn("timestamp"); }
    @Override public Ref getRef(int column) throws SQLException { throw noColumn("reference"); }
    @Override public Blob getBlob(int column) throws SQLException { throw noColumn("BLOB"); }
    @Override public Clob getClob(int column) throws SQLException { throw noColumn("CLOB"); }
    @Override public NClob getNClob(int column) throws SQLException { throw noColumn("NCLOB"); }
    @Override public Array getArray(int column) throws SQLException { throw noColumn("array"); }
    @Override public URL getURL(int column) throws SQLException { throw noColumn("URL"); }
    @Override public RowId getRowId(int column) throws SQLException { throw noColumn("row ID"); }
    @Override public SQLXML getSQLXML(int column) throws SQLException { throw noColumn("XML"); }
}
