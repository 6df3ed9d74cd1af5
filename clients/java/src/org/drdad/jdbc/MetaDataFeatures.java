package org.drdad.jdbc;

import java.sql.DatabaseMetaData;
import java.sql.SQLException;

/** What the database and the driver can do: the questions of DatabaseMetaData that are answered by yes or no. */
abstract class MetaDataFeatures extends Wrapping implements DatabaseMetaData {
    @Override public boolean allProceduresAreCallable() throws SQLException { return false; }
    @Override public boolean allTablesAreSelectable() throws SQLException { return true; }
    @Override public boolean isReadOnly() throws SQLException { return false; }
    @Override public boolean nullsAreSortedHigh() throws SQLException { return false; }
    @Override public boolean nullsAreSortedLow() throws SQLException { return false; }
    @Override public boolean nullsAreSortedAtStart() throws SQLException { return false; }
    @Override public boolean nullsAreSortedAtEnd() throws SQLException { return false; }
    @Override public boolean usesLocalFiles() throws SQLException { return false; }
    @Override public boolean usesLocalFilePerTable() throws SQLException { return false; }
    @Override public boolean supportsMixedCaseIdentifiers() throws SQLException { return false; }
    @Override public boolean storesUpperCaseIdentifiers() throws SQLException { return true; }
    @Override public boolean storesLowerCaseIdentifiers() throws SQLException { return false; }
    @Override public boolean storesMixedCaseIdentifiers() throws SQLException { return false; }
    @Override public boolean supportsMixedCaseQuotedIdentifiers() throws SQLException { return false; }
    @Override public boolean storesUpperCaseQuotedIdentifiers() throws SQLException { return false; }
    @Override public boolean storesLowerCaseQuotedIdentifiers() throws SQLException { return false; }
    @Override public boolean storesMixedCaseQuotedIdentifiers() throws SQLException { return false; }
    @Override public boolean supportsAlterTableWithAddColumn() throws SQLException { return false; }
    @Override public boolean supportsAlterTableWithDropColumn() throws SQLException { return false; }
    @Override public boolean supportsColumnAliasing() throws SQLException { return false; }
    @Override public boolean nullPlusNonNullIsNull() throws SQLException { return true; }
    @Override public boolean supportsConvert() throws SQLException { return false; }
    @Override public boolean supportsConvert(int first, int second) throws SQLException { return false; }
    @Override public boolean supportsTableCorrelationNames() throws SQLException { return false; }
    @Override public boolean supportsDifferentTableCorrelationNames() throws SQLException { return false; }
    @Override public boolean supportsExpressionsInOrderBy() throws SQLException { return false; }
    @Override public boolean supportsOrderByUnrelated() throws SQLException { return false; }
    @Override public boolean supportsGroupBy() throws SQLException { return false; }
    @Override public boolean supportsGroupByUnrelated() throws SQLException { return false; }
    @Override public boolean supportsGroupByBeyondSelect() throws SQLException { return false; }
    @Override public boolean supportsLikeEscapeClause() throws SQLException { return false; }
    @Override public boolean supportsMultipleResultSets() throws SQLException { return false; }
    @Override public boolean supportsMultipleTransactions() throws SQLException { return true; }
    @Override public boolean supportsNonNullableColumns() throws SQLException { return true; }
    @Override public boolean supportsMinimumSQLGrammar() throws SQLException { return false; }
    @Override public boolean supportsCoreSQLGrammar() throws SQLException { return false; }
    @Override public boolean supportsExtendedSQLGrammar() throws SQLException { return false; }
    @Override public boolean supportsANSI92EntryLevelSQL() throws SQLException { return false; }
    @Override public boolean supportsANSI92IntermediateSQL() throws SQLException { return false; }
    @Override public boolean supportsANSI92FullSQL() throws SQLException { return false; }
    @Override public boolean supportsIntegrityEnhancementFacility() throws SQLException { return false; }
    @Override public boolean supportsOuterJoins() throws SQLException { return false; }
    @Override public boolean supportsFullOuterJoins() throws SQLException { return false; }
    @Override public boolean supportsLimitedOuterJoins() throws SQLException { return false; }
    @Override public boolean isCatalogAtStart() throws SQLException { return false; }
    @Override public boolean supportsSchemasInDataManipulation() throws SQLException { return false; }
    @Override public boolean supportsSchemasInProcedureCalls() throws SQLException { return false; }
    @Override public boolean supportsSchemasInTableDefinitions() throws SQLException { return false; }
    @Override public boolean supportsSchemasInIndexDefinitions() throws SQLException { return false; }
    @Override public boolean supportsSchemasInPrivilegeDefinitions() throws SQLException { return false; }
    @Override public boolean supportsCatalogsInDataManipulation() throws SQLException { return false; }
    @Override public boolean supportsCatalogsInProcedureCalls() throws SQLException { return false; }
    @Override public boolean supportsCatalogsInTableDefinitions() throws SQLException { return false; }
    @Override public boolean supportsCatalogsInIndexDefinitions() throws SQLException { return false; }
    @Override public boolean supportsCatalogsInPrivilegeDefinitions() throws SQLException { return false; }
    @Override public boolean supportsPositionedDelete() throws SQLException { return false; }
    @Override public boolean supportsPositionedUpdate() throws SQLException { return false; }
    @Override public boolean supportsSelectForUpdate() throws SQLException { return false; }
    @Override public boolean supportsStoredProcedures() throws SQLException { return false; }
    @Override public boolean supportsSubqueriesInComparisons() throws SQLException { return false; }
    @Override public boolean supportsSubqueriesInExists() throws SQLException { return false; }
    @Override public boolean supportsSubqueriesInIns() throws SQLException { return false; }
    @Override public boolean supportsSubqueriesInQuantifieds() throws SQLException { return false; }
    @Override public boolean supportsCorrelatedSubqueries() throws SQLException { return false; }
    @Override public boolean supportsUnion() throws SQLException { return false; }
    @Override public boolean supportsUnionAll() throws SQLException { return false; }
    @Override public boolean supportsOpenCursorsAcrossCommit() throws SQLException { return true; }
    @Override public boolean supportsOpenCursorsAcrossRollback() throws SQLException { return false; }
    @Override public boolean supportsOpenStatementsAcrossCommit() throws SQLException { return true; }
    @Override public boolean supportsOpenStatementsAcrossRollback() throws SQLException { return true; }
    @Override public boolean doesMaxRowSizeIncludeBlobs() throws SQLException { return false; }
    @Override public boolean supportsTransactions() throws SQLException { return true; }
    @Override public boolean supportsDataDefinitionAndDataManipulationTransactions() throws SQLException { return true; }
    @Override public boolean supportsDataManipulationTransactionsOnly() throws SQLException { return false; }
    @Override public boolean dataDefinitionCausesTransactionCommit() throws SQLException { return false; }
    @Override public boolean dataDefinitionIgnoredInTransactions() throws SQLException { return false; }
    @Override public boolean ownUpdatesAreVisible(int first) throws SQLException { return false; }
    @Override public boolean ownDeletesAreVisible(int first) throws SQLException { return false; }
    @Override public boolean ownInsertsAreVisible(int first) throws SQLException { return false; }
    @Override public boolean othersUpdatesAreVisible(int first) throws SQLException { return false; }
    @Override public boolean othersDeletesAreVisible(int first) throws SQLException { return false; }
    @Override public boolean othersInsertsAreVisible(int first) throws SQLException { return false; }
    @Override public boolean updatesAreDetected(int first) throws SQLException { return false; }
    @Override public boolean deletesAreDetected(int first) throws SQLException { return false; }
    @Override public boolean insertsAreDetected(int first) throws SQLException { return false; }
    @Override public boolean supportsBatchUpdates() throws SQLException { return true; }
    @Override public boolean supportsSavepoints() throws SQLException { return false; }
    @Override public boolean supportsNamedParameters() throws SQLException { return false; }
    @Override public boolean supportsMultipleOpenResults() throws SQLException { return false; }
    @Override public boolean supportsGetGeneratedKeys() throws SQLException { return false; }
    @Override public boolean locatorsUpdateCopy() throws SQLException { return false; }
    @Override public boolean supportsStatementPooling() throws SQLException { return true; }
    @Override public boolean supportsStoredFunctionsUsingCallSyntax() throws SQLException { return false; }
    @Override public boolean autoCommitFailureClosesAllResultSets() throws SQLException { return false; }
    @Override public boolean generatedKeyAlwaysReturned() throws SQLException { return false; }
}
