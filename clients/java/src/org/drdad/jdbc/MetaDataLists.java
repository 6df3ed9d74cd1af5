package org.drdad.jdbc;

import java.sql.ResultSet;
import java.sql.SQLException;
import java.sql.Types;
import java.util.ArrayList;
import java.util.Arrays;
import java.util.Collections;
import java.util.List;
import java.util.Locale;
import java.util.regex.Pattern;

/**
 * The lists of DatabaseMetaData that tell something: types, and of a table that is named its columns. The server can describe a
 * table, but can't list its tables: a pattern with a percent sign finds none.
 */
abstract class MetaDataLists extends MetaDataEmpty {
    private static final int NO_TABLE = -204;
    private static final String TABLE = "TABLE";
    private static final Pattern NAME = Pattern.compile("[A-Za-z][A-Za-z0-9_]{0,29}");
    private static final ListForm TABLES = new ListForm("TABLE_CAT TABLE_SCHEM TABLE_NAME TABLE_TYPE REMARKS TYPE_CAT TYPE_SCHEM"
            + " TYPE_NAME SELF_REFERENCING_COL_NAME REF_GENERATION");
    private static final ListForm COLUMNS = new ListForm("TABLE_CAT TABLE_SCHEM TABLE_NAME COLUMN_NAME DATA_TYPE:i TYPE_NAME"
            + " COLUMN_SIZE:i BUFFER_LENGTH:i DECIMAL_DIGITS:i NUM_PREC_RADIX:i NULLABLE:i REMARKS COLUMN_DEF SQL_DATA_TYPE:i"
            + " SQL_DATETIME_SUB:i CHAR_OCTET_LENGTH:i ORDINAL_POSITION:i IS_NULLABLE SCOPE_CATALOG SCOPE_SCHEMA SCOPE_TABLE"
            + " SOURCE_DATA_TYPE:s IS_AUTOINCREMENT IS_GENERATEDCOLUMN");
    private static final ListForm TYPES = new ListForm("TYPE_NAME DATA_TYPE:i PRECISION:i LITERAL_PREFIX LITERAL_SUFFIX"
            + " CREATE_PARAMS NULLABLE:s CASE_SENSITIVE:b SEARCHABLE:s UNSIGNED_ATTRIBUTE:b FIXED_PREC_SCALE:b AUTO_INCREMENT:b"
            + " LOCAL_TYPE_NAME MINIMUM_SCALE:s MAXIMUM_SCALE:s SQL_DATA_TYPE:i SQL_DATETIME_SUB:i NUM_PREC_RADIX:i");
    private static final ListForm TABLE_TYPES = new ListForm("TABLE_TYPE"), CATALOGS = new ListForm("TABLE_CAT");
    private static final ListForm SCHEMAS = new ListForm("TABLE_SCHEM TABLE_CATALOG");

    /** The session of a connection that is open. */
    abstract Session session() throws SQLException;

    @Override
    public ResultSet getTables(String catalog, String schema, String name, String[] types) throws SQLException {
        boolean isAsked = types == null || Arrays.asList(types).contains(TABLE);
        if (!isAsked || described(name) == null) {
            return TABLES.empty();
        }
        return TABLES.of(Collections.singletonList(new Object[] {
            database(), null, plain(name), TABLE, null, null, null, null, null, null}));
    }

    @Override
    public ResultSet getColumns(String catalog, String schema, String table, String column) throws SQLException {
        List<Object[]> rows = new ArrayList<>();
        Column[] columns = described(table);
        for (int at = 0; columns != null && at < columns.length; at++) {
            if (isMeant(columns[at].name, column)) {
                rows.add(row(plain(table), columns[at], at + 1));
            }
        }
        return COLUMNS.of(rows);
    }

    private Object[] row(String table, Column column, int place) throws SQLException {
        boolean isText = column.type == Types.VARCHAR || column.type == Types.VARBINARY;
        return new Object[] {
            database(), null, table, column.name, column.type, column.typeName(), column.precision(), null,
            isText ? null : 0, isText ? null : 10, column.takesNull ? columnNullable : columnNoNulls, null, null, null, null,
            isText ? column.length : null, place, column.takesNull ? "YES" : "NO", null, null, null, null, "NO", "NO"};
    }

    private String database() throws SQLException { return session().settings().database; }

    /** The columns of the table that is named; null where there is none, or a pattern names more than one. */
    private Column[] described(String name) throws SQLException {
        String plain = name == null ? "" : plain(name);
        if (!NAME.matcher(plain).matches()) {
            session();
            return null;
        }
        try {
            return session().describe(SqlText.of("SELECT * FROM " + plain));
        } catch (SQLException failure) {
            if (failure.getErrorCode() == NO_TABLE) {
                return null;
            }
            throw failure;
        }
    }

    /** The name that a pattern spells: in capitals, as tables are kept; a low line stands for itself. */
    private static String plain(String pattern) { return pattern.replace("\\", "").toUpperCase(Locale.ROOT); }

    /** Whether a pattern means a name: a percent sign stands for anything, and a low line for itself. */
    private static boolean isMeant(String name, String pattern) {
        if (pattern == null) {
            return true;
        }
        String spelled = Pattern.quote(plain(pattern)).replace("%", "\\E.*\\Q");
        return Pattern.compile(spelled, Pattern.CASE_INSENSITIVE).matcher(name).matches();
    }

    @Override
    public ResultSet getTypeInfo() throws SQLException {
        session();
        return TYPES.of(Arrays.asList(
                type("BIGINT", Types.BIGINT, 19, null, null), type("VARBINARY", Types.VARBINARY, 2000, "X'", "length"),
                type("INTEGER", Types.INTEGER, 10, null, null), type("SMALLINT", Types.SMALLINT, 5, null, null),
                type("VARCHAR", Types.VARCHAR, 2000, "'", "length")));
    }

    private static Object[] type(String name, int type, int precision, String prefix, String parameters) {
        boolean isText = prefix != null;
        return new Object[] {
            name, type, precision, prefix, isText ? "'" : null, parameters, typeNullable, type == Types.VARCHAR, typeSearchable,
            isText, false, false, name, 0, 0, null, null, isText ? null : 10};
    }

    @Override
    public ResultSet getTableTypes() throws SQLException {
        session();
        return TABLE_TYPES.of(Collections.singletonList(new Object[] {TABLE}));
    }

    @Override
    public ResultSet getCatalogs() throws SQLException { return CATALOGS.of(Collections.singletonList(new Object[] {database()})); }
    @Override public ResultSet getSchemas() throws SQLException { session(); return SCHEMAS.empty(); }
    @Override public ResultSet getSchemas(String catalog, String schema) throws SQLException { return getSchemas(); }
}
