package org.drdad.jdbc;

import java.sql.BatchUpdateException;
import java.sql.Connection;
import java.sql.PreparedStatement;
import java.sql.ResultSet;
import java.sql.SQLException;
import java.sql.Statement;
import java.util.Arrays;

/** Batches: chains of commands, and what becomes of those behind a refusal. */
final class BatchRules extends Rules {
    private static final int MANY = 1300;
    private final Server server;

    BatchRules(Server server) {
        this.server = server;
    }

    @Override
    void all() throws Exception {
        server.table("BATCHED", 3);
        rule("a batch of more rows than a chain takes", () -> {
            try (Connection connection = server.connectInUnits(); PreparedStatement insert = insert(connection, 1000, MANY, -1)) {
                int[] counts = insert.executeBatch();
                same(MANY, Arrays.stream(counts).sum());
                same(0, insert.executeBatch().length);
                connection.rollback();
            }
            same(3, rows());
        });
        rule("in a unit the commands behind a refused one are done", () -> {
            try (Connection connection = server.connectInUnits(); PreparedStatement insert = insert(connection, 1000, MANY, 600)) {
                long[] counts = refused(BatchUpdateException.class, insert::executeLargeBatch).getLargeUpdateCounts();
                same(MANY, counts.length);
                same((long) Statement.EXECUTE_FAILED, counts[600]);
                same(MANY - 1L, Arrays.stream(counts).filter(count -> count == 1).count());
                connection.commit();
                same(3 + MANY - 1, rows());
                connection.createStatement().executeUpdate("DELETE FROM BATCHED WHERE K >= 1000");
                connection.commit();
            }
        });
        rule("with autocommit a batch is one unit: whole, or not at all", () -> {
            try (Connection connection = server.connect()) {
                BatchUpdateException told = refused(BatchUpdateException.class,
                        () -> insert(connection, 1000, MANY, 600).executeBatch());
                same(MANY, told.getUpdateCounts().length);
                holds(Arrays.stream(told.getUpdateCounts()).allMatch(count -> count == Statement.EXECUTE_FAILED), "nothing remains");
                same("23505", told.getSQLState());
                same(-803, told.getErrorCode());
                same(3, rows());
                insert(connection, 1000, 10, -1).executeBatch();
                same(13, rows());
                holds(connection.getAutoCommit(), "autocommit stays");
            }
        });
        texts();
    }

    private void texts() {
        rule("a batch of texts", () -> {
            try (Connection connection = server.connect(); Statement statement = connection.createStatement()) {
                statement.addBatch("UPDATE BATCHED SET V = 'x' WHERE K < 3");
                statement.addBatch("DELETE FROM BATCHED WHERE K >= 1000");
                same(new int[] {3, 10}, statement.executeBatch());
                statement.addBatch("SELECT * FROM BATCHED");
                statement.addBatch("DELETE FROM BATCHED");
                int[] counts = refused(BatchUpdateException.class, statement::executeBatch).getUpdateCounts();
                same(new int[] {Statement.EXECUTE_FAILED, Statement.EXECUTE_FAILED}, counts);
                same(3, rows());
                statement.addBatch("DELETE FROM BATCHED");
                statement.clearBatch();
                same(new int[] {}, statement.executeBatch());
            }
        });
        rule("a batch of a text that is none", () -> {
            try (Connection connection = server.connect();
                    PreparedStatement statement = connection.prepareStatement("INSERT INTO NOSUCH VALUES (?)")) {
                statement.setInt(1, 1);
                statement.addBatch();
                same(-204, refused(BatchUpdateException.class, statement::executeBatch).getErrorCode());
            }
        });
    }

    /** An INSERT with a batch of rows, whose key at one place is there already. */
    private static PreparedStatement insert(Connection connection, int from, int count, int twice) throws SQLException {
        PreparedStatement insert = connection.prepareStatement("INSERT INTO BATCHED VALUES (?, ?)");
        for (int at = 0; at < count; at++) {
            insert.setInt(1, at == twice ? 1 : from + at);
            insert.setString(2, "some text that makes the chain longer than what is written at once");
            insert.addBatch();
        }
        return insert;
    }

    private int rows() throws SQLException {
        try (Connection connection = server.connect(); ResultSet rows = connection.createStatement().executeQuery("SELECT K FROM BATCHED")) {
            int count = 0;
            while (rows.next()) {
                count++;
            }
            return count;
        }
    }
}
