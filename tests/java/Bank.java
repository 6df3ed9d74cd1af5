import java.sql.Connection;
import java.sql.PreparedStatement;
import java.sql.ResultSet;
import java.sql.SQLException;
import java.sql.Statement;
import java.util.HashMap;
import java.util.Map;

/** Accounts and a ledger, in each of two databases alike. A transfer has a number, changes an account of each, and stands in both ledgers. */
final class Bank {
    static final int ACCOUNTS = 1000;
    static final long BEGINNING = 1000;
    private static final String ADD = "UPDATE ACCOUNT SET AMOUNT = AMOUNT + ? WHERE K = ?";
    private static final String NOTE = "INSERT INTO LEDGER VALUES (?, ?)";

    /** What stands in one of the two: all amounts together, and the amount of each transfer. */
    record Books(long total, Map<Long, Long> ledger) {
        /** What is wrong with the books of two databases, or nothing. */
        static String faults(Books one, Books other) {
            String totals = one.total + other.total == 2 * ACCOUNTS * BEGINNING ? "" : "totals " + one.total + " and " + other.total + "; ";
            Map<Long, Long> mirrored = new HashMap<>();
            other.ledger.forEach((number, amount) -> mirrored.put(number, -amount));
            mirrored.entrySet().removeAll(one.ledger.entrySet());
            Map<Long, Long> alone = new HashMap<>(one.ledger);
            other.ledger.keySet().forEach(alone::remove);
            return totals + (mirrored.isEmpty() && alone.isEmpty() ? "" : "in one alone: " + alone + " and " + mirrored + "; ");
        }
    }

    private Bank() {}

    static void create(Connection connection) throws SQLException {
        connection.setAutoCommit(false);
        try (Statement statement = connection.createStatement()) {
            statement.executeUpdate("CREATE TABLE ACCOUNT (K INTEGER NOT NULL, AMOUNT BIGINT NOT NULL, PRIMARY KEY (K))");
            statement.executeUpdate("CREATE TABLE LEDGER (NUMBER BIGINT NOT NULL, AMOUNT BIGINT NOT NULL, PRIMARY KEY (NUMBER))");
        }
        try (PreparedStatement insert = connection.prepareStatement("INSERT INTO ACCOUNT VALUES (?, ?)")) {
            for (int account = 0; account < ACCOUNTS; account++) {
                insert.setInt(1, account);
                insert.setLong(2, BEGINNING);
                insert.addBatch();
            }
            insert.executeBatch();
        }
        connection.commit();
    }

    /** The part of a transfer in one database. */
    static void add(Connection connection, long number, int account, long amount) throws SQLException {
        try (PreparedStatement add = connection.prepareStatement(ADD); PreparedStatement note = connection.prepareStatement(NOTE)) {
            add.setLong(1, amount);
            add.setInt(2, account);
            if (add.executeUpdate() != 1) {
                throw new SQLException("no account " + account);
            }
            note.setLong(1, number);
            note.setLong(2, amount);
            note.executeUpdate();
        }
    }

    static Books read(Connection connection) throws SQLException {
        connection.setAutoCommit(false);
        long total = 0;
        Map<Long, Long> ledger = new HashMap<>();
        try (Statement statement = connection.createStatement()) {
            try (ResultSet accounts = statement.executeQuery("SELECT AMOUNT FROM ACCOUNT")) {
                while (accounts.next()) {
                    total += accounts.getLong(1);
                }
            }
            try (ResultSet lines = statement.executeQuery("SELECT NUMBER, AMOUNT FROM LEDGER")) {
                while (lines.next()) {
                    ledger.put(lines.getLong(1), lines.getLong(2));
                }
            }
        }
        connection.commit();
        return new Books(total, ledger);
    }
}
