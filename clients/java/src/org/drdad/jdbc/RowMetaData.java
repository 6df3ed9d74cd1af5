package org.drdad.jdbc;

import java.sql.ResultSetMetaData;
import java.sql.SQLException;
import java.sql.Types;

/** What is known of the columns of rows. */
final class RowMetaData extends Wrapping implements ResultSetMetaData {
    private final Column[] columns;
    private final String table;

    RowMetaData(Column[] columns, String table) { this.columns = columns; this.table = table; }

    private Column column(int place) throws SQLException {
        if (place < 1 || place > columns.length) {
            throw new SQLException("there is no column " + place + ": there are " + columns.length, "42703");
        }
        return columns[place - 1];
    }

    @Override public int getColumnCount() { return columns.length; }
    @Override public boolean isAutoIncrement(int place) throws SQLException { column(place); return false; }

    /** Texts are compared by their bytes. */
    @Override public boolean isCaseSensitive(int place) throws SQLException { return column(place).type == Types.VARCHAR; }
    @Override public boolean isSearchable(int place) throws SQLException { column(place); return true; }
    @Override public boolean isCurrency(int place) throws SQLException { column(place); return false; }

    @Override
    public int isNullable(int place) throws SQLException { return column(place).takesNull ? columnNullable : columnNoNulls; }
    @Override public boolean isSigned(int place) throws SQLException { return column(place).isNumber(); }
    @Override public int getColumnDisplaySize(int place) throws SQLException { return column(place).displaySize(); }
    @Override public String getColumnLabel(int place) throws SQLException { return column(place).name; }
    @Override public String getColumnName(int place) throws SQLException { return column(place).name; }
    @Override public String getSchemaName(int place) throws SQLException { column(place); return ""; }
    @Override public int getPrecision(int place) throws SQLException { return column(place).precision(); }
    @Override public int getScale(int place) throws SQLException { column(place); return 0; }
    @Override public String getTableName(int place) throws SQLException { column(place); return table; }
    @Override public String getCatalogName(int place) throws SQLException { column(place); return ""; }
    @Override public int getColumnType(int place) throws SQLException { return column(place).type; }
    @Override public String getColumnTypeName(int place) throws SQLException { return column(place).typeName(); }
    @Override public boolean isReadOnly(int place) throws SQLException { column(place); return true; }
    @Override public boolean isWritable(int place) throws SQLException { column(place); return false; }
    @Override public boolean isDefinitelyWritable(int place) throws SQLException { column(place); return false; }
    @Override public String getColumnClassName(int place) throws SQLException { return column(place).javaClass().getName(); }
}
