package org.drdad.jdbc;

import java.sql.ResultSet;
import java.sql.SQLException;

/** The lists of DatabaseMetaData that are empty: there are no such things here, or the server can't tell them. */
abstract class MetaDataEmpty extends MetaDataLimits {
    private static final ListForm PROCEDURES = new ListForm(
            "PROCEDURE_CAT PROCEDURE_SCHEM PROCEDURE_NAME RESERVED_1 RESERVED_2 RESERVED_3 REMARKS PROCEDURE_TYPE:s "
            + "SPECIFIC_NAME");
    private static final ListForm PROCEDURE_COLUMNS = new ListForm(
            "PROCEDURE_CAT PROCEDURE_SCHEM PROCEDURE_NAME COLUMN_NAME COLUMN_TYPE:s DATA_TYPE:i TYPE_NAME PRECISION:i "
            + "LENGTH:i SCALE:s RADIX:s NULLABLE:s REMARKS COLUMN_DEF SQL_DATA_TYPE:i SQL_DATETIME_SUB:i "
            + "CHAR_OCTET_LENGTH:i ORDINAL_POSITION:i IS_NULLABLE SPECIFIC_NAME");
    private static final ListForm COLUMN_PRIVILEGES = new ListForm(
            "TABLE_CAT TABLE_SCHEM TABLE_NAME COLUMN_NAME GRANTOR GRANTEE PRIVILEGE IS_GRANTABLE");
    private static final ListForm TABLE_PRIVILEGES = new ListForm(
            "TABLE_CAT TABLE_SCHEM TABLE_NAME GRANTOR GRANTEE PRIVILEGE IS_GRANTABLE");
    private static final ListForm ROW_COLUMNS = new ListForm(
            "SCOPE:s COLUMN_NAME DATA_TYPE:i TYPE_NAME COLUMN_SIZE:i BUFFER_LENGTH:i DECIMAL_DIGITS:s PSEUDO_COLUMN:s");
    private static final ListForm PRIMARY_KEYS = new ListForm(
            "TABLE_CAT TABLE_SCHEM TABLE_NAME COLUMN_NAME KEY_SEQ:s PK_NAME");
    private static final ListForm FOREIGN_KEYS = new ListForm(
            "PKTABLE_CAT PKTABLE_SCHEM PKTABLE_NAME PKCOLUMN_NAME FKTABLE_CAT FKTABLE_SCHEM FKTABLE_NAME FKCOLUMN_NAME "
            + "KEY_SEQ:s UPDATE_RULE:s DELETE_RULE:s FK_NAME PK_NAME DEFERRABILITY:s");
    private static final ListForm INDEX_INFO = new ListForm(
            "TABLE_CAT TABLE_SCHEM TABLE_NAME NON_UNIQUE:b INDEX_QUALIFIER INDEX_NAME TYPE:s ORDINAL_POSITION:s "
            + "COLUMN_NAME ASC_OR_DESC CARDINALITY:i PAGES:i FILTER_CONDITION");
    private static final ListForm UDTS = new ListForm(
            "TYPE_CAT TYPE_SCHEM TYPE_NAME CLASS_NAME DATA_TYPE:i REMARKS BASE_TYPE:s");
    private static final ListForm SUPER_TYPES = new ListForm(
            "TYPE_CAT TYPE_SCHEM TYPE_NAME SUPERTYPE_CAT SUPERTYPE_SCHEM SUPERTYPE_NAME");
    private static final ListForm SUPER_TABLES = new ListForm(
            "TABLE_CAT TABLE_SCHEM TABLE_NAME SUPERTABLE_NAME");
    private static final ListForm ATTRIBUTES = new ListForm(
            "TYPE_CAT TYPE_SCHEM TYPE_NAME ATTR_NAME DATA_TYPE:i ATTR_TYPE_NAME ATTR_SIZE:i DECIMAL_DIGITS:i "
            + "NUM_PREC_RADIX:i NULLABLE:i REMARKS ATTR_DEF SQL_DATA_TYPE:i SQL_DATETIME_SUB:i CHAR_OCTET_LENGTH:i "
            + "ORDINAL_POSITION:i IS_NULLABLE SCOPE_CATALOG SCOPE_SCHEMA SCOPE_TABLE SOURCE_DATA_TYPE:s");
    private static final ListForm CLIENT_INFO_PROPERTIES = new ListForm(
            "NAME MAX_LEN:i DEFAULT_VALUE DESCRIPTION");
    private static final ListForm FUNCTIONS = new ListForm(
            "FUNCTION_CAT FUNCTION_SCHEM FUNCTION_NAME REMARKS FUNCTION_TYPE:s SPECIFIC_NAME");
    private static final ListForm FUNCTION_COLUMNS = new ListForm(
            "FUNCTION_CAT FUNCTION_SCHEM FUNCTION_NAME COLUMN_NAME COLUMN_TYPE:s DATA_TYPE:i TYPE_NAME PRECISION:i "
            + "LENGTH:i SCALE:s RADIX:s NULLABLE:s REMARKS CHAR_OCTET_LENGTH:i ORDINAL_POSITION:i IS_NULLABLE SPECIFIC_NAME");
    private static final ListForm PSEUDO_COLUMNS = new ListForm(
            "TABLE_CAT TABLE_SCHEM TABLE_NAME COLUMN_NAME DATA_TYPE:i COLUMN_SIZE:i DECIMAL_DIGITS:i NUM_PREC_RADIX:i "
            + "COLUMN_USAGE REMARKS CHAR_OCTET_LENGTH:i IS_NULLABLE");

    @Override public ResultSet getProcedures(String catalog, String schema, String name)
            throws SQLException { return PROCEDURES.empty(); }
    @Override public ResultSet getProcedureColumns(String catalog, String schema, String name, String column)
            throws SQLException { return PROCEDURE_COLUMNS.empty(); }
    @Override public ResultSet getColumnPrivileges(String catalog, String schema, String name, String column)
            throws SQLException { return COLUMN_PRIVILEGES.empty(); }
    @Override public ResultSet getTablePrivileges(String catalog, String schema, String name)
            throws SQLException { return TABLE_PRIVILEGES.empty(); }
    @Override public ResultSet getBestRowIdentifier(String catalog, String schema, String table, int scope, boolean nullable)
            throws SQLException { return ROW_COLUMNS.empty(); }
    @Override public ResultSet getVersionColumns(String catalog, String schema, String name)
            throws SQLException { return ROW_COLUMNS.empty(); }
    @Override public ResultSet getPrimaryKeys(String catalog, String schema, String name)
            throws SQLException { return PRIMARY_KEYS.empty(); }
    @Override public ResultSet getImportedKeys(String catalog, String schema, String name)
            throws SQLException { return FOREIGN_KEYS.empty(); }
    @Override public ResultSet getExportedKeys(String catalog, String schema, String name)
            throws SQLException { return FOREIGN_KEYS.empty(); }
    @Override public ResultSet getCrossReference(String catalog, String schema, String table, String otherCatalog, String otherSchema, String otherTable)
            throws SQLException { return FOREIGN_KEYS.empty(); }
    @Override public ResultSet getIndexInfo(String catalog, String schema, String table, boolean isUnique, boolean isRough)
            throws SQLException { return INDEX_INFO.empty(); }
    @Override public ResultSet getUDTs(String catalog, String schema, String name, int[] types)
            throws SQLException { return UDTS.empty(); }
    @Override public ResultSet getSuperTypes(String catalog, String schema, String name)
            throws SQLException { return SUPER_TYPES.empty(); }
    @Override public ResultSet getSuperTables(String catalog, String schema, String name)
            throws SQLException { return SUPER_TABLES.empty(); }
    @Override public ResultSet getAttributes(String catalog, String schema, String name, String column)
            throws SQLException { return ATTRIBUTES.empty(); }
    @Override public ResultSet getClientInfoProperties() throws SQLException { return CLIENT_INFO_PROPERTIES.empty(); }
    @Override public ResultSet getFunctions(String catalog, String schema, String name)
            throws SQLException { return FUNCTIONS.empty(); }
    @Override public ResultSet getFunctionColumns(String catalog, String schema, String name, String column)
            throws SQLException { return FUNCTION_COLUMNS.empty(); }
    @Override public ResultSet getPseudoColumns(String catalog, String schema, String name, String column)
            throws SQLException { return PSEUDO_COLUMNS.empty(); }
}
