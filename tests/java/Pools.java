import com.zaxxer.hikari.HikariConfig;
import com.zaxxer.hikari.HikariDataSource;
import java.sql.Connection;
import java.sql.PreparedStatement;
import java.sql.ResultSet;
import java.sql.SQLException;
import java.sql.Statement;
import java.util.concurrent.ExecutorService;
import java.util.concurrent.Executors;
import java.util.concurrent.Future;
import java.util.ArrayList;
import java.util.List;
import javax.sql.DataSource;
import org.apache.commons.dbcp2.BasicDataSource;
import org.apache.tomcat.jdbc.pool.PoolProperties;

/** HikariCP, Tomcat's pool and DBCP2 over drdad: the same scenario with each. */
public class Pools {
    private static final int PLACES = 4;
    private static final int THREADS = 8;
    private static final int UNITS = 25;

    private final Findings findings;
    private final String name;
    private final DataSource pool;
    private final Drdad drdad;
    private final String table;

    private Pools(Findings findings, String name, DataSource pool, Drdad drdad) {
        this.findings = findings;
        this.name = name;
        this.pool = pool;
        this.drdad = drdad;
        this.table = name.toUpperCase();
    }

    public static void main(String[] words) throws Exception {
        Findings findings = new Findings();
        try (Drdad drdad = new Drdad(Drdad.folder())) {
            new Pools(findings, "Hikari", hikari(drdad, false), drdad).play();
            new Pools(findings, "Tomcat", tomcat(drdad), drdad).play();
            new Pools(findings, "Dbcp", dbcp(drdad), drdad).play();
        }
        findings.end("HikariCP, Tomcat's pool, DBCP2");
    }

    static HikariDataSource hikari(Drdad drdad, boolean commitsEachStatement) {
        HikariConfig configuration = new HikariConfig();
        configuration.setJdbcUrl(drdad.url());
        configuration.setMaximumPoolSize(PLACES);
        configuration.setAutoCommit(commitsEachStatement);
        configuration.setTransactionIsolation("TRANSACTION_SERIALIZABLE");
        return new HikariDataSource(configuration);
    }

    private static DataSource tomcat(Drdad drdad) {
        PoolProperties properties = new PoolProperties();
        properties.setUrl(drdad.url());
        properties.setDriverClassName("org.drdad.jdbc.DrdadDriver");
        properties.setMaxActive(PLACES);
        properties.setInitialSize(1);
        properties.setDefaultAutoCommit(false);
        properties.setRollbackOnReturn(true);
        properties.setTestOnBorrow(true);
        properties.setValidationInterval(0);
        return new org.apache.tomcat.jdbc.pool.DataSource(properties);
    }

    private static DataSource dbcp(Drdad drdad) {
        BasicDataSource source = new BasicDataSource();
        source.setUrl(drdad.url());
        source.setMaxTotal(PLACES);
        source.setDefaultAutoCommit(false);
        source.setPoolPreparedStatements(true);
        return source;
    }

    private void play() throws Exception {
        try (Connection connection = pool.getConnection(); Statement statement = connection.createStatement()) {
            statement.executeUpdate("CREATE TABLE " + table + " (K INTEGER NOT NULL, V VARCHAR(60), PRIMARY KEY (K))");
            connection.commit();
        }
        manyAtOnce();
        refusalsLeaveTheUnit();
        uncommittedWorkIsUndone();
        serverComesBack();
    }

    /** More threads than places: each unit is there, once. */
    private void manyAtOnce() throws Exception {
        ExecutorService threads = Executors.newFixedThreadPool(THREADS);
        List<Future<?>> ends = new ArrayList<>();
        for (int thread = 0; thread < THREADS; thread++) {
            int first = thread * UNITS;
            ends.add(threads.submit(() -> {
                for (int key = first; key < first + UNITS; key++) {
                    inUnit(key);
                }
                return null;
            }));
        }
        for (Future<?> end : ends) {
            findings.checkStep(name + ": a thread's units", null, end::get);
        }
        threads.shutdown();
        findings.check(name + ": rows of all threads", THREADS * UNITS, rows());
    }

    private void inUnit(int key) throws SQLException {
        try (Connection connection = pool.getConnection()) {
            insert(connection, key);
            connection.commit();
        }
    }

    private void insert(Connection connection, int key) throws SQLException {
        try (PreparedStatement insert = connection.prepareStatement("INSERT INTO " + table + " VALUES (?, ?)")) {
            insert.setInt(1, key);
            insert.setString(2, "row " + key);
            insert.executeUpdate();
        }
    }

    /** A statement that is refused, and a thing that is not there, leave the connection in the pool and its unit open. */
    private void refusalsLeaveTheUnit() throws SQLException {
        try (Connection connection = pool.getConnection()) {
            insert(connection, 1000);
            findings.checkStep(name + ": a key twice", "SQLIntegrityConstraintViolationException 23505", () -> {
                insert(connection, 1000);
                return null;
            });
            findings.checkStep(name + ": no such column", "SQLSyntaxErrorException 42703",
                () -> connection.createStatement().executeQuery("SELECT NOPE FROM " + table));
            try {
                connection.createBlob();
                findings.check(name + ": createBlob", "refused", "taken");
            } catch (SQLException refused) {
                findings.check(name + ": createBlob is refused by a state on which no pool evicts", false, "0A000".equals(refused.getSQLState()));
            }
            findings.check(name + ": the connection is valid", true, connection.isValid(5));
            insert(connection, 1001);
            connection.commit();
        }
        findings.check(name + ": rows behind refusals", THREADS * UNITS + 2, rows());
    }

    private void uncommittedWorkIsUndone() throws SQLException {
        try (Connection connection = pool.getConnection()) {
            insert(connection, 2000);
        }
        findings.check(name + ": rows behind a connection that was given back", THREADS * UNITS + 2, rows());
    }

    /** Each connection that died fails once at most. */
    private void serverComesBack() throws Exception {
        drdad.kill();
        drdad.serve();
        int failures = 0;
        for (int key = 3000; key <= 3000 + PLACES && failures <= PLACES; key++) {
            try {
                inUnit(key);
            } catch (SQLException lost) {
                failures++;
                key--;
            }
        }
        findings.check(name + ": at most one failure a place behind a restart", true, failures <= PLACES);
        findings.check(name + ": rows behind a restart", THREADS * UNITS + 3 + PLACES, rows());
    }

    private int rows() throws SQLException {
        try (Connection connection = pool.getConnection(); Statement statement = connection.createStatement();
            ResultSet rows = statement.executeQuery("SELECT K FROM " + table)) {
            int count = 0;
            while (rows.next()) {
                count++;
            }
            return count;
        }
    }
}
