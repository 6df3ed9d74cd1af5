package org.drdad.jdbc;

import java.sql.Connection;
import java.sql.DatabaseMetaData;
import java.sql.ResultSet;
import java.sql.SQLException;
import java.sql.Types;

/** java.sql.DatabaseMetaData. */
final class MetaDataRules extends Rules {
    private final Server server;

    MetaDataRules(Server server) {
        this.server = server;
    }

    @Override
    void all() throws Exception {
        server.run("CREATE TABLE ORDER_LINES (A INTEGER NOT NULL, B VARCHAR(40), C VARBINARY(5) NOT NULL, PRIMARY KEY (A, C))");
        try (Connection connection = server.connect()) {
            DatabaseMetaData data = connection.getMetaData();
            facts(data);
            lists(data);
        }
    }

    private void facts(DatabaseMetaData data) {
        rule("who it is", () -> {
            same("drdad", data.getDatabaseProductName());
            same("1.0", data.getDatabaseProductVersion());
            same("drdad-jdbc", data.getDriverName());
            same(server.url(), data.getURL());
            same(Server.USER, data.getUserName());
            same(4, data.getJDBCMajorVersion());
        });
        rule("what it can do", () -> {
            holds(data.supportsTransactions() && data.supportsBatchUpdates() && data.storesUpperCaseIdentifiers(), "yes");
            holds(!data.supportsSavepoints() && !data.supportsGetGeneratedKeys() && !data.supportsStoredProcedures()
                    && !data.supportsColumnAliasing() && !data.storesLowerCaseIdentifiers() && !data.isReadOnly(), "no");
            holds(data.supportsTransactionIsolationLevel(Connection.TRANSACTION_SERIALIZABLE), "serializable");
            holds(!data.supportsTransactionIsolationLevel(Connection.TRANSACTION_READ_COMMITTED), "nothing else");
            holds(data.supportsResultSetType(ResultSet.TYPE_FORWARD_ONLY), "forward");
            holds(!data.supportsResultSetConcurrency(ResultSet.TYPE_FORWARD_ONLY, ResultSet.CONCUR_UPDATABLE), "read only");
        });
        rule("limits", () -> {
            same(30, data.getMaxTableNameLength());
            same(64, data.getMaxColumnsInTable());
            same(32767, data.getMaxStatementLength());
            same(64, data.getMaxConnections());
        });
    }

    private static int count(ResultSet rows) throws SQLException {
        int count = 0;
        while (rows.next()) {
            count++;
        }
        return count;
    }

    private void lists(DatabaseMetaData data) {
        rule("the columns of a table that is named, in letters of either case", () -> {
            ResultSet rows = data.getColumns(null, null, "order_lines", "%");
            holds(rows.next(), "a column");
            same("ORDER_LINES", rows.getString("TABLE_NAME"));
            same("A", rows.getString("COLUMN_NAME"));
            same(Types.INTEGER, rows.getInt("DATA_TYPE"));
            same(DatabaseMetaData.columnNoNulls, rows.getInt("NULLABLE"));
            holds(rows.next(), "a column");
            same(40, rows.getInt("COLUMN_SIZE"));
            same("YES", rows.getString("IS_NULLABLE"));
            same(2, rows.getInt("ORDINAL_POSITION"));
            same(1, count(rows));
            same(1, count(data.getColumns(null, null, "ORDER\\_LINES", "b")));
        });
        rule("a table that is named is found, others can't be listed", () -> {
            same(1, count(data.getTables(null, null, "Order_Lines", new String[] {"VIEW", "TABLE"})));
            same(0, count(data.getTables(null, null, "ORDER_LINES", new String[] {"VIEW"})));
            same(0, count(data.getTables(null, null, "NOSUCH", null)));
            same(0, count(data.getTables(null, null, "%", null)));
            same(0, count(data.getTables(null, null, null, null)));
            same(0, count(data.getColumns(null, null, "'; DROP", null)));
        });
        rule("lists have the columns of JDBC", () -> {
            same(10, data.getTables(null, null, "x", null).getMetaData().getColumnCount());
            same(24, data.getColumns(null, null, "x", null).getMetaData().getColumnCount());
            same(18, data.getTypeInfo().getMetaData().getColumnCount());
            same(6, data.getPrimaryKeys(null, null, "x").getMetaData().getColumnCount());
            same(14, data.getImportedKeys(null, null, "x").getMetaData().getColumnCount());
            same(13, data.getIndexInfo(null, null, "x", true, true).getMetaData().getColumnCount());
            same(20, data.getProcedureColumns(null, null, "x", null).getMetaData().getColumnCount());
        });
        rule("types, databases, kinds of tables", () -> {
            same(5, count(data.getTypeInfo()));
            ResultSet catalogs = data.getCatalogs();
            holds(catalogs.next(), "a database");
            same("SHOP", catalogs.getString("TABLE_CAT"));
            same(1, count(data.getTableTypes()));
            same(0, count(data.getSchemas()));
        });
    }
}
