import java.sql.Connection;
import java.sql.DriverManager;
import java.sql.PreparedStatement;
import java.sql.ResultSet;
import java.sql.SQLException;
import java.sql.Statement;
import java.util.ArrayList;
import java.util.List;
import java.util.Scanner;
import java.util.concurrent.ExecutionException;
import java.util.concurrent.ExecutorService;
import java.util.concurrent.Executors;
import java.util.concurrent.Future;
import java.util.concurrent.ThreadLocalRandom;
import java.util.concurrent.atomic.AtomicInteger;

/**
 * Works by JDBC, whichever driver the URL is of. The words are a URL, a user and a password; then each line of the input is a work, a
 * number of threads with a connection each, seconds, and a table. The answer is a line: operations a second, or rows a second where
 * the work is of many rows. `create` makes the table, `fill` puts its rows into it; select, insert, fetch and batch are measured.
 */
public final class Bench {
    private static final int ROWS = 100_000, BATCH = 10_000;
    private static final double NANOSECONDS = 1e9;
    private static final String TEXT = "v".repeat(92), SHORT_TEXT = "v".repeat(40);
    private static final AtomicInteger KEYS = new AtomicInteger();

    private Bench() {
    }

    /** One operation of a work, which tells how many it counts as. */
    private interface Work {
        int once() throws SQLException;
    }

    public static void main(String[] words) throws Exception {
        Scanner lines = new Scanner(System.in);
        while (lines.hasNext()) {
            String work = lines.next();
            int width = lines.nextInt(), seconds = lines.nextInt();
            System.out.println(Math.round(rate(words, work, width, seconds, lines.next())));
        }
    }

    private static double rate(String[] words, String work, int width, int seconds, String table) throws Exception {
        ExecutorService threads = Executors.newFixedThreadPool(width);
        List<Connection> connections = new ArrayList<>();
        try {
            long ends = System.nanoTime() + (long) (seconds * NANOSECONDS), began = System.nanoTime();
            List<Future<Long>> counts = new ArrayList<>();
            for (int at = 0; at < width; at++) {
                connections.add(DriverManager.getConnection(words[0], words[1], words[2]));
            }
            for (Connection connection : connections) {
                Work one = work(connection, work, table);
                counts.add(threads.submit(() -> repeated(one, ends)));
            }
            return sum(counts) * NANOSECONDS / (System.nanoTime() - began);
        } finally {
            threads.shutdown();
            for (Connection connection : connections) {
                connection.close();
            }
        }
    }

    private static long repeated(Work work, long ends) throws SQLException {
        long count = 0;
        do {
            count += work.once();
        } while (System.nanoTime() < ends);
        return count;
    }

    private static long sum(List<Future<Long>> counts) throws InterruptedException, ExecutionException {
        long sum = 0;
        for (Future<Long> count : counts) {
            sum += count.get();
        }
        return sum;
    }

    private static Work work(Connection connection, String work, String table) throws SQLException {
        switch (work) {
            case "create": return create(connection, table);
            case "fill": return batch(connection, table, ROWS, ROWS / 100, true);
            case "select": return select(connection, table);
            case "insert": return insert(connection, table);
            case "fetch": return fetch(connection, table);
            case "batch": return batch(connection, table, BATCH, BATCH, false);
            default: throw new IllegalArgumentException(work);
        }
    }

    private static Work create(Connection connection, String table) {
        return () -> {
            try (Statement statement = connection.createStatement()) {
                statement.executeUpdate("CREATE TABLE " + table + " (K INTEGER NOT NULL, V VARCHAR(600), PRIMARY KEY (K))");
            }
            return 1;
        };
    }

    private static Work select(Connection connection, String table) throws SQLException {
        PreparedStatement statement = connection.prepareStatement("SELECT K, V FROM " + table + " WHERE K = ?");
        return () -> {
            int key = ThreadLocalRandom.current().nextInt(ROWS);
            statement.setInt(1, key);
            try (ResultSet rows = statement.executeQuery()) {
                if (!rows.next() || rows.getInt(1) != key || rows.getString(2).length() != TEXT.length()) {
                    throw new IllegalStateException("another row came");
                }
            }
            return 1;
        };
    }

    private static Work insert(Connection connection, String table) throws SQLException {
        PreparedStatement statement = connection.prepareStatement("INSERT INTO " + table + " VALUES (?, ?)");
        return () -> {
            statement.setInt(1, KEYS.getAndIncrement());
            statement.setString(2, TEXT);
            return statement.executeUpdate();
        };
    }

    private static Work fetch(Connection connection, String table) throws SQLException {
        PreparedStatement statement = connection.prepareStatement("SELECT K, V FROM " + table);
        return () -> {
            int count = 0;
            long sum = 0;
            try (ResultSet rows = statement.executeQuery()) {
                while (rows.next()) {
                    sum += rows.getInt(1) + rows.getString(2).length();
                    count++;
                }
            }
            if (count != ROWS || sum != (ROWS - 1L) * ROWS / 2 + (long) ROWS * TEXT.length()) {
                throw new IllegalStateException("other rows came");
            }
            return count;
        };
    }

    /** Units of so many rows, each put in by one batch. */
    private static Work batch(Connection connection, String table, int rows, int unit, boolean isFill) throws SQLException {
        connection.setAutoCommit(false);
        PreparedStatement statement = connection.prepareStatement("INSERT INTO " + table + " VALUES (?, ?)");
        return () -> {
            for (int at = 0; at < rows; at++) {
                statement.setInt(1, isFill ? at : KEYS.getAndIncrement());
                statement.setString(2, isFill ? TEXT : SHORT_TEXT);
                statement.addBatch();
                if ((at + 1) % unit == 0) {
                    statement.executeBatch();
                    connection.commit();
                }
            }
            return rows;
        };
    }
}
