import java.math.BigDecimal;
import java.sql.BatchUpdateException;
import java.sql.Connection;
import java.sql.DatabaseMetaData;
import java.sql.ParameterMetaData;
import java.sql.PreparedStatement;
import java.sql.ResultSet;
import java.sql.ResultSetMetaData;
import java.sql.SQLException;
import java.sql.SQLFeatureNotSupportedException;
import java.sql.Statement;
import java.sql.Types;
import java.util.Arrays;

/** What JDBC 4.3 asks of a driver and programs, pools and frameworks lean on, a line each: a rule, the answer, and a call. */
public class JdbcRules {
    private static final String REFUSED = "refused";

    private final Findings findings = new Findings();
    private final Drdad drdad;
    private final Connection connection;
    private final Statement statement;

    private JdbcRules(Drdad drdad) throws SQLException {
        this.drdad = drdad;
        connection = drdad.connect();
        statement = connection.createStatement();
        statement.executeUpdate("CREATE TABLE T (K INTEGER NOT NULL, S SMALLINT, B BIGINT, V VARCHAR(40), X VARBINARY(8), PRIMARY KEY (K))");
        statement.executeUpdate("INSERT INTO T VALUES (1, 7, 5000000000, 'one', X'00FF')");
        statement.executeUpdate("INSERT INTO T VALUES (2, NULL, NULL, NULL, NULL)");
        statement.executeUpdate("INSERT INTO T VALUES (3, -3, 12, '34', X'')");
    }

    public static void main(String[] words) throws Exception {
        try (Drdad drdad = new Drdad(Drdad.folder())) {
            JdbcRules rules = new JdbcRules(drdad);
            rules.connections();
            rules.unitsOfWork();
            rules.statements();
            rules.parameters();
            rules.batches();
            rules.rows();
            rules.conversions();
            rules.describing();
            rules.features();
            rules.findings.end("rules of JDBC");
        }
    }

    /** A rule by its answer; `REFUSED` stands for any SQLException. */
    private void rule(String rule, Object answer, Findings.Step<?> call) {
        Object found;
        try {
            found = call.run();
        } catch (SQLException refused) {
            found = REFUSED;
        } catch (Exception failure) {
            found = failure.toString();
        }
        findings.check(rule, answer, found);
    }

    private ResultSet query(String text) throws SQLException {
        return connection.createStatement().executeQuery(text);
    }

    /** The first row of a query. */
    private ResultSet row(String text) throws SQLException {
        ResultSet rows = query(text);
        rows.next();
        return rows;
    }

    private void connections() throws SQLException {
        rule("a connection begins in auto-commit", true, connection::getAutoCommit);
        rule("it is serializable", Connection.TRANSACTION_SERIALIZABLE, connection::getTransactionIsolation);
        rule("it is valid", true, () -> connection.isValid(5));
        rule("isValid takes no negative time", REFUSED, () -> connection.isValid(-1));
        rule("no warnings", null, connection::getWarnings);
        rule("commit in auto-commit", REFUSED, () -> done(connection::commit));
        rule("rollback in auto-commit", REFUSED, () -> done(connection::rollback));
        rule("unwraps to itself", true, () -> connection.isWrapperFor(Connection.class) && connection.unwrap(Connection.class) != null);
        rule("unwraps to nothing else", REFUSED, () -> connection.unwrap(Thread.class));
        Connection closed = drdad.connect();
        closed.close();
        rule("close twice", "done", () -> done(closed::close));
        rule("closed", true, closed::isClosed);
        rule("a closed one is not valid", false, () -> closed.isValid(5));
        rule("a closed one makes no statements", REFUSED, closed::createStatement);
        rule("a closed one tells no auto-commit", REFUSED, closed::getAutoCommit);
    }

    private void unitsOfWork() throws SQLException {
        connection.setAutoCommit(false);
        statement.executeUpdate("INSERT INTO T VALUES (10, NULL, NULL, NULL, NULL)");
        connection.rollback();
        rule("rolled back", false, () -> query("SELECT K FROM T WHERE K = 10").next());
        statement.executeUpdate("INSERT INTO T VALUES (10, NULL, NULL, NULL, NULL)");
        connection.setAutoCommit(true);
        rule("the change to auto-commit commits", true, this::othersSeeRowTen);
        connection.setAutoCommit(false);
        PreparedStatement prepared = connection.prepareStatement("DELETE FROM T WHERE K = ?");
        connection.commit();
        prepared.setInt(1, 10);
        rule("a prepared statement outlasts a commit", 1, prepared::executeUpdate);
        connection.rollback();
        rule("and a rollback", 1, prepared::executeUpdate);
        connection.commit();
        connection.setAutoCommit(true);
    }

    private boolean othersSeeRowTen() throws SQLException {
        try (Connection other = drdad.connect(); ResultSet rows = other.createStatement().executeQuery("SELECT K FROM T WHERE K = 10")) {
            return rows.next();
        }
    }

    private void statements() throws SQLException {
        rule("executeQuery of an UPDATE", REFUSED, () -> statement.executeQuery("UPDATE T SET S = 1 WHERE K = 99"));
        rule("executeUpdate of a SELECT", REFUSED, () -> statement.executeUpdate("SELECT K FROM T"));
        rule("execute of a SELECT", true, () -> statement.execute("SELECT K FROM T WHERE K = 1"));
        rule("then no count", -1, statement::getUpdateCount);
        rule("then its rows", true, () -> statement.getResultSet().next());
        rule("and no more", false, statement::getMoreResults);
        rule("execute of an UPDATE", false, () -> statement.execute("UPDATE T SET S = 7 WHERE K = 1"));
        rule("then its count", 1, statement::getUpdateCount);
        rule("then no rows", null, statement::getResultSet);
        rule("an UPDATE of no row", 0, () -> statement.executeUpdate("UPDATE T SET S = 1 WHERE K = 99"));
        rule("executeLargeUpdate", 1L, () -> statement.executeLargeUpdate("UPDATE T SET S = 7 WHERE K = 1"));
        ResultSet first = statement.executeQuery("SELECT K FROM T");
        statement.executeQuery("SELECT K FROM T");
        rule("the next execution closes the rows", true, first::isClosed);
        Statement other = connection.createStatement();
        ResultSet rows = other.executeQuery("SELECT K FROM T");
        other.close();
        rule("a closed statement closes its rows", true, rows::isClosed);
        rule("closes twice", "done", () -> done(other::close));
        rule("executes no more", REFUSED, () -> other.executeQuery("SELECT K FROM T"));
        rule("no generated keys", false, () -> statement.getGeneratedKeys().next());
        rule("setMaxRows below 0", REFUSED, () -> done(() -> statement.setMaxRows(-1)));
        rule("setFetchSize below 0", REFUSED, () -> done(() -> statement.setFetchSize(-1)));
        rule("setQueryTimeout", "done", () -> done(() -> statement.setQueryTimeout(5)));
        statement.setQueryTimeout(0);
        statement.setMaxRows(2);
        rule("setMaxRows", 2, () -> count(statement.executeQuery("SELECT K FROM T")));
        statement.setMaxRows(0);
        statement.setFetchSize(1);
        rule("setFetchSize leaves out nothing", 3, () -> count(statement.executeQuery("SELECT K FROM T")));
        rule("a faulty text leaves the statement usable", REFUSED, () -> statement.executeQuery("SELECT NOPE FROM T"));
        rule("as it was", 3, () -> count(statement.executeQuery("SELECT K FROM T")));
    }

    private void parameters() throws SQLException {
        PreparedStatement select = connection.prepareStatement("SELECT V FROM T WHERE K = ?");
        rule("a parameter that was not set", REFUSED, select::executeQuery);
        rule("parameter 0", REFUSED, () -> done(() -> select.setInt(0, 1)));
        rule("a parameter too many", REFUSED, () -> done(() -> select.setInt(2, 1)));
        rule("a text for a prepared statement", REFUSED, () -> select.executeQuery("SELECT K FROM T"));
        select.setInt(1, 1);
        rule("executed again with the same values", 1, () -> count(select.executeQuery()) * count(select.executeQuery()));
        rule("clearParameters", REFUSED, () -> {
            select.clearParameters();
            return select.executeQuery();
        });
        PreparedStatement update = connection.prepareStatement("UPDATE T SET S = ?, B = ?, V = ?, X = ? WHERE K = 2");
        update.setBoolean(1, true);
        update.setBigDecimal(2, new BigDecimal("12.000"));
        update.setObject(3, "text");
        update.setBytes(4, new byte[] {1, 2});
        rule("boolean, BigDecimal, Object, bytes", 1, update::executeUpdate);
        rule("a boolean is 1", 1, () -> row("SELECT S FROM T WHERE K = 2").getInt(1));
        rule("an exact BigDecimal", 12L, () -> row("SELECT B FROM T WHERE K = 2").getLong(1));
        rule("a BigDecimal with a fraction", REFUSED, () -> done(() -> {
            update.setBigDecimal(2, new BigDecimal("1.5"));
            update.executeUpdate();
        }));
        rule("a double", REFUSED, () -> done(() -> {
            update.setDouble(2, 1.5);
            update.executeUpdate();
        }));
        update.setNull(1, Types.SMALLINT);
        update.setNull(2, Types.BIGINT);
        update.setObject(3, null);
        update.setNull(4, Types.VARBINARY);
        rule("NULL by setNull and setObject", 1, update::executeUpdate);
        rule("NULL where none is taken", "SQLIntegrityConstraintViolationException 23502",
            () -> Findings.outcome(() -> statement.executeUpdate("INSERT INTO T VALUES (NULL, 1, 1, '', NULL)")));
        rule("a text that is too long", "SQLDataException 22001",
            () -> Findings.outcome(() -> statement.executeUpdate("INSERT INTO T VALUES (50, 1, 1, '" + "x".repeat(41) + "', NULL)")));
    }

    private void batches() throws SQLException {
        PreparedStatement insert = connection.prepareStatement("INSERT INTO T VALUES (?, 0, 0, 'batch', NULL)");
        rule("an empty batch", 0, () -> insert.executeBatch().length);
        for (int key = 100; key < 110; key++) {
            insert.setInt(1, key);
            insert.addBatch();
        }
        rule("its counts", "[1, 1, 1, 1, 1, 1, 1, 1, 1, 1]", () -> Arrays.toString(insert.executeBatch()));
        rule("it is empty then", 0, () -> insert.executeBatch().length);
        connection.setAutoCommit(false);
        for (int key : new int[] {200, 100, 201}) {
            insert.setInt(1, key);
            insert.addBatch();
        }
        try {
            insert.executeBatch();
            findings.check("a batch with a key twice", REFUSED, "taken");
        } catch (BatchUpdateException refused) {
            int[] counts = refused.getUpdateCounts();
            findings.check("the count in front of the fault", 1, counts[0]);
            findings.check("the fault, where the batch goes on", true, counts.length == 1 || counts[1] == Statement.EXECUTE_FAILED);
            findings.check("its state", "23505", refused.getSQLState());
        }
        connection.rollback();
        connection.setAutoCommit(true);
        statement.addBatch("DELETE FROM T WHERE K = 108");
        statement.addBatch("DELETE FROM T WHERE K >= 100");
        rule("a batch of texts", "[1, 9]", () -> Arrays.toString(statement.executeBatch()));
    }

    private void rows() throws SQLException {
        ResultSet rows = query("SELECT K, V FROM T WHERE K = 1");
        rule("in front of the first row", REFUSED, () -> rows.getInt(1));
        rows.next();
        rule("by number", 1, () -> rows.getInt(1));
        rule("by name, of either case", "one", () -> rows.getString("v"));
        rule("findColumn", 2, () -> rows.findColumn("V"));
        rule("no such name", REFUSED, () -> rows.getInt("NOPE"));
        rule("column 0", REFUSED, () -> rows.getInt(0));
        rule("column 3 of 2", REFUSED, () -> rows.getInt(3));
        rule("backward", REFUSED, rows::previous);
        rule("changes", REFUSED, () -> done(() -> rows.updateInt(1, 2)));
        rule("behind the last row", false, rows::next);
        rule("and again", false, rows::next);
        rule("no value there", REFUSED, () -> rows.getInt(1));
        rows.close();
        rule("closes twice", "done", () -> done(rows::close));
        rule("a closed one has no next", REFUSED, rows::next);
        ResultSet nulls = row("SELECT S, B, V, X FROM T WHERE K = 2");
        rule("NULL as a number", 0, () -> nulls.getInt(1));
        rule("wasNull", true, nulls::wasNull);
        rule("NULL as an object", null, () -> nulls.getObject(2));
        rule("NULL as a text", null, () -> nulls.getString(3));
        rule("NULL as bytes", null, () -> nulls.getBytes(4));
        rule("isAfterLast or the statement of rows", true, () -> nulls.getStatement() != null);
    }

    private void conversions() throws SQLException {
        ResultSet one = row("SELECT K, S, B, V, X FROM T WHERE K = 1");
        ResultSet three = row("SELECT K, S, B, V, X FROM T WHERE K = 3");
        rule("INTEGER as an object", Integer.class, () -> one.getObject(1).getClass());
        rule("SMALLINT as an object", Integer.class, () -> one.getObject(2).getClass());
        rule("BIGINT as an object", Long.class, () -> one.getObject(3).getClass());
        rule("VARCHAR as an object", String.class, () -> one.getObject(4).getClass());
        rule("VARBINARY as an object", byte[].class, () -> one.getObject(5).getClass());
        rule("BIGINT that is no int", REFUSED, () -> one.getInt(3));
        rule("BIGINT as a text", "5000000000", () -> one.getString(3));
        rule("as a BigDecimal", new BigDecimal("5000000000"), () -> one.getBigDecimal(3));
        rule("as a double", 5e9, () -> one.getDouble(3));
        rule("a number as a boolean", true, () -> one.getBoolean(1));
        rule("a text of digits as a number", 34, () -> three.getInt(4));
        rule("a text as a number", REFUSED, () -> one.getInt(4));
        rule("as a class", 7L, () -> one.getObject(2, Long.class));
        rule("negative", -3, () -> three.getShort(2) + 0);
        rule("bytes", "[0, -1]", () -> Arrays.toString(one.getBytes(5)));
        rule("no bytes", 0, () -> three.getBytes(5).length);
    }

    private void describing() throws SQLException {
        PreparedStatement prepared = connection.prepareStatement("SELECT K, V FROM T WHERE K = ? AND V = ?");
        ResultSetMetaData columns = prepared.getMetaData();
        rule("columns before an execution", 2, columns::getColumnCount);
        rule("a name", "V", () -> columns.getColumnName(2));
        rule("a label", "V", () -> columns.getColumnLabel(2));
        rule("types", Types.INTEGER + " " + Types.VARCHAR, () -> columns.getColumnType(1) + " " + columns.getColumnType(2));
        rule("NULL or not", ResultSetMetaData.columnNoNulls + " " + ResultSetMetaData.columnNullable,
            () -> columns.isNullable(1) + " " + columns.isNullable(2));
        rule("sizes", 40, () -> columns.getPrecision(2));
        ParameterMetaData parameters = prepared.getParameterMetaData();
        rule("parameters", 2, parameters::getParameterCount);
        rule("their types", Types.INTEGER + " " + Types.VARCHAR, () -> parameters.getParameterType(1) + " " + parameters.getParameterType(2));
        DatabaseMetaData database = connection.getMetaData();
        rule("the product", "drdad", database::getDatabaseProductName);
        rule("JDBC's version", "4.3", () -> database.getJDBCMajorVersion() + "." + database.getJDBCMinorVersion());
        rule("batches", true, database::supportsBatchUpdates);
        rule("savepoints", false, database::supportsSavepoints);
        rule("generated keys", false, database::supportsGetGeneratedKeys);
        rule("transactions", true, database::supportsTransactions);
        rule("names are kept in capitals", true, database::storesUpperCaseIdentifiers);
        rule("no list of tables", 0, () -> count(database.getTables(null, null, "NOPE", null)));
        rule("columns of a named table", 5, () -> count(database.getColumns(null, null, "T", "%")));
        rule("rows go forward alone", true, () -> database.supportsResultSetType(ResultSet.TYPE_FORWARD_ONLY));
        rule("and not backward", false, () -> database.supportsResultSetType(ResultSet.TYPE_SCROLL_SENSITIVE));
    }

    /** What is not there says so by the exception for it, with a state on which no pool takes the connection away. */
    private void features() {
        absent("savepoints", connection::setSavepoint);
        absent("calls", () -> connection.prepareCall("{call P}"));
        absent("CLOBs", connection::createClob);
        absent("BLOBs", connection::createBlob);
        absent("arrays", () -> connection.createArrayOf("INTEGER", new Object[0]));
        absent("scrolling", () -> connection.createStatement(ResultSet.TYPE_SCROLL_INSENSITIVE, ResultSet.CONCUR_READ_ONLY)
            .executeQuery("SELECT K FROM T"));
        rule("the connection outlasts that", true, () -> connection.isValid(5));
    }

    private void absent(String feature, Findings.Step<?> call) {
        try {
            findings.check(feature + " are refused, and not given", REFUSED, call.run());
        } catch (SQLFeatureNotSupportedException refused) {
            findings.check(feature + " are refused without state 0A000", false, "0A000".equals(refused.getSQLState()));
        } catch (Exception other) {
            findings.check(feature + " are refused as a feature that is not there", "SQLFeatureNotSupportedException", other.toString());
        }
    }

    private interface Action {
        void run() throws SQLException;
    }

    private static String done(Action action) throws SQLException {
        action.run();
        return "done";
    }

    private static int count(ResultSet rows) throws SQLException {
        int count = 0;
        while (rows.next()) {
            count++;
        }
        rows.close();
        return count;
    }
}
