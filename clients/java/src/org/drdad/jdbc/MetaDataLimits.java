package org.drdad.jdbc;

import java.sql.Connection;
import java.sql.ResultSet;
import java.sql.RowIdLifetime;
import java.sql.SQLException;

/** The names and limits of DatabaseMetaData; 0 where there is no limit, or no such thing. */
abstract class MetaDataLimits extends MetaDataFeatures {
    private static final int LONGEST_NAME = 30;

    @Override public String getDatabaseProductName() throws SQLException { return "drdad"; }
    @Override public String getDriverName() throws SQLException { return "drdad-jdbc"; }
    @Override public String getDriverVersion() throws SQLException { return DrdadDriver.MAJOR + "." + DrdadDriver.MINOR; }
    @Override public int getDriverMajorVersion() { return DrdadDriver.MAJOR; }
    @Override public int getDriverMinorVersion() { return DrdadDriver.MINOR; }
    @Override public String getIdentifierQuoteString() throws SQLException { return " "; }
    @Override public String getSQLKeywords() throws SQLException { return ""; }
    @Override public String getNumericFunctions() throws SQLException { return ""; }
    @Override public String getStringFunctions() throws SQLException { return ""; }
    @Override public String getSystemFunctions() throws SQLException { return ""; }
    @Override public String getTimeDateFunctions() throws SQLException { return ""; }
    @Override public String getSearchStringEscape() throws SQLException { return "\\"; }
    @Override public String getExtraNameCharacters() throws SQLException { return ""; }
    @Override public String getSchemaTerm() throws SQLException { return ""; }
    @Override public String getProcedureTerm() throws SQLException { return ""; }
    @Override public String getCatalogTerm() throws SQLException { return "database"; }
    @Override public String getCatalogSeparator() throws SQLException { return ""; }
    @Override public int getMaxBinaryLiteralLength() throws SQLException { return 2 * ParameterList.LONGEST_VALUE; }
    @Override public int getMaxCharLiteralLength() throws SQLException { return ParameterList.LONGEST_VALUE; }
    @Override public int getMaxColumnNameLength() throws SQLException { return LONGEST_NAME; }
    @Override public int getMaxColumnsInGroupBy() throws SQLException { return 0; }
    @Override public int getMaxColumnsInIndex() throws SQLException { return 4; }
    @Override public int getMaxColumnsInOrderBy() throws SQLException { return 0; }
    @Override public int getMaxColumnsInSelect() throws SQLException { return 64; }
    @Override public int getMaxColumnsInTable() throws SQLException { return 64; }
    @Override public int getMaxConnections() throws SQLException { return 64; }
    @Override public int getMaxCursorNameLength() throws SQLException { return 0; }
    @Override public int getMaxIndexLength() throws SQLException { return 8012; }
    @Override public int getMaxSchemaNameLength() throws SQLException { return 0; }
    @Override public int getMaxProcedureNameLength() throws SQLException { return 0; }
    @Override public int getMaxCatalogNameLength() throws SQLException { return Settings.MOST_OF_NAME; }
    @Override public int getMaxRowSize() throws SQLException { return 4000; }
    @Override public int getMaxStatementLength() throws SQLException { return SqlText.MOST_BYTES; }
    @Override public int getMaxStatements() throws SQLException { return 0; }
    @Override public int getMaxTableNameLength() throws SQLException { return LONGEST_NAME; }
    @Override public int getMaxTablesInSelect() throws SQLException { return 1; }
    @Override public int getMaxUserNameLength() throws SQLException { return 0; }
    @Override public int getDefaultTransactionIsolation() throws SQLException { return Connection.TRANSACTION_SERIALIZABLE; }
    @Override public int getResultSetHoldability() throws SQLException { return ResultSet.HOLD_CURSORS_OVER_COMMIT; }
    @Override public int getJDBCMajorVersion() throws SQLException { return 4; }
    @Override public int getJDBCMinorVersion() throws SQLException { return 3; }
    @Override public int getSQLStateType() throws SQLException { return sqlStateSQL; }
    @Override public RowIdLifetime getRowIdLifetime() throws SQLException { return RowIdLifetime.ROWID_UNSUPPORTED; }
}
