package org.drdad.jdbc;

import java.net.URL;
import java.sql.Array;
import java.sql.Blob;
import java.sql.Clob;
import java.sql.Date;
import java.sql.NClob;
import java.sql.PreparedStatement;
import java.sql.Ref;
import java.sql.RowId;
import java.sql.SQLException;
import java.sql.SQLXML;
import java.sql.Time;
import java.sql.Timestamp;
import java.util.Calendar;

/** The parameters of a prepared statement that no column takes. */
abstract class RefusedParameters extends DrdadStatement implements PreparedStatement {
    RefusedParameters(DrdadConnection connection) {
        super(connection);
    }

    /** Columns are numbers, texts and bytes. */
    static SQLException noColumn(String type) {
        return Failures.notSupported("no column takes a " + type + ": columns are numbers, texts and bytes");
    }

    @Override public void setFloat(int place, float value) throws SQLException { throw noColumn("float"); }
    @Override public void setDouble(int place, double value) throws SQLException { throw noColumn("double"); }
    @Override public void setDate(int place, Date value) throws SQLException { throw noColumn("date"); }
    @Override public void setTime(int place, Time value) throws SQLException { throw noColumn("time"); }
    @Override public void setTimestamp(int place, Timestamp value) throws SQLException { throw noColumn("timestamp"); }
    @Override public void setRef(int place, Ref value) throws SQLException { throw noColumn("reference"); }
    @Override public void setBlob(int place, Blob value) throws SQLException { throw noColumn("BLOB"); }
    @Override public void setClob(int place, Clob value) throws SQLException { throw noColumn("CLOB"); }
    @Override public void setArray(int place, Array value) throws SQLException { throw noColumn("array"); }
    @Override public void setDate(int place, Date value, Calendar calendar) throws SQLException { throw noColumn("date"); }
    @Override public void setTime(int place, Time value, Calendar calendar) throws SQLException { throw noColumn("time"); }
    @Override public void setTimestamp(int place, Timestamp value, Calendar calendar)
            throws SQLException { throw noColumn("timestamp"); }
    @Override public void setURL(int place, URL value) throws SQLException { throw noColumn("URL"); }
    @Override public void setRowId(int place, RowId value) throws SQLException { throw noColumn("row ID"); }
    @Override public void setNClob(int place, NClob value) throws SQLException { throw noColumn("NCLOB"); }
    @Override public void setSQLXML(int place, SQLXML value) throws SQLException { throw noColumn("XML"); }
}
