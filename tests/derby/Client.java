import java.sql.*;
import org.apache.derby.jdbc.ClientDataSource;

/** Derby's own network client against drdad: what it prints is compared with the file `wanted`. */
public class Client {
    static final String TABLE =
        "CREATE TABLE GOODS (K INTEGER NOT NULL, V VARCHAR(600), B BIGINT, X VARBINARY(20), PRIMARY KEY (K))";

    public static void main(String[] words) throws Exception {
        ClientDataSource source = new ClientDataSource();
        source.setServerName("127.0.0.1");
        source.setPortNumber(Integer.parseInt(words[0]));
        source.setDatabaseName("SHOP");
        source.setUser("ana");
        source.setPassword("pw");
        // else the client calls a procedure of Derby's for the text of each message
        source.setRetrieveMessageText(false);
        try (Connection connection = source.getConnection()) {
            connection.setAutoCommit(false);
            if (words.length > 1) {
                count(connection, "after a restart");
            } else {
                everything(connection);
            }
            connection.commit();
        }
        if (words.length == 1) {
            refused(source, "INSERT INTO GOODS VALUES (3, 'again', 0, NULL)");
            refused(source, "SELECT NOPE FROM GOODS");
            refused(source, "VALUES 1");
        }
    }

    static void everything(Connection connection) throws SQLException {
        try (Statement statement = connection.createStatement()) {
            statement.executeUpdate(TABLE);
        }
        connection.commit();
        insert(connection);
        connection.commit();
        one(connection, 8);
        count(connection, "committed");
        update(connection);
        connection.rollback();
        one(connection, 1);
        batch(connection);
        connection.commit();
        count(connection, "with a batch");
    }

    static void insert(Connection connection) throws SQLException {
        try (PreparedStatement insert = connection.prepareStatement("INSERT INTO GOODS VALUES (?, ?, ?, ?)")) {
            for (int i = 0; i < 50; i++) {
                insert.setInt(1, i);
                if (i % 7 == 0) {
                    insert.setNull(2, Types.VARCHAR);
                } else {
                    insert.setString(2, "row " + i);
                }
                insert.setLong(3, 1L << i);
                insert.setBytes(4, new byte[] {(byte) i, 0, -1});
                insert.executeUpdate();
            }
        }
    }

    static void update(Connection connection) throws SQLException {
        try (PreparedStatement update = connection.prepareStatement("UPDATE GOODS SET B = B + ? WHERE K = ?")) {
            update.setLong(1, 5);
            update.setInt(2, 1);
            System.out.println("updated " + update.executeUpdate());
        }
    }

    static void batch(Connection connection) throws SQLException {
        try (PreparedStatement insert = connection.prepareStatement("INSERT INTO GOODS VALUES (?, ?, ?, ?)")) {
            for (int i = 100; i < 110; i++) {
                insert.setInt(1, i);
                insert.setString(2, "batch");
                insert.setLong(3, i);
                insert.setNull(4, Types.VARBINARY);
                insert.addBatch();
            }
            System.out.println("batch of " + insert.executeBatch().length);
        }
    }

    static void one(Connection connection, int key) throws SQLException {
        try (PreparedStatement select = connection.prepareStatement("SELECT V, B, X FROM GOODS WHERE K = ?")) {
            select.setInt(1, key);
            try (ResultSet rows = select.executeQuery()) {
                while (rows.next()) {
                    System.out.println(rows.getString(1) + ", " + rows.getLong(2) + ", " + rows.getBytes(3).length + " bytes");
                }
            }
        }
    }

    static void count(Connection connection, String when) throws SQLException {
        int count = 0;
        try (Statement statement = connection.createStatement(); ResultSet rows = statement.executeQuery("SELECT * FROM GOODS")) {
            while (rows.next()) {
                count++;
            }
        }
        System.out.println(count + " rows, " + when);
    }

    // Each on a connection of its own: the client prepares in sections that it used before, and a section
    // keeps its statement where another is refused.
    static void refused(ClientDataSource source, String text) throws SQLException {
        try (Connection connection = source.getConnection(); Statement statement = connection.createStatement()) {
            statement.execute(text);
            System.out.println("not refused: " + text);
        } catch (SQLException error) {
            System.out.println(error.getSQLState() + ": " + text);
        } catch (RuntimeException error) {
            // of state 23505 the client wants words that our SQLCARD does not bring
            System.out.println("the client fails: " + text);
        }
    }
}
