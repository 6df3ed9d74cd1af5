package org.drdad.jdbc;

import java.io.BufferedReader;
import java.io.IOException;
import java.io.InputStreamReader;
import java.nio.charset.StandardCharsets;
import java.nio.file.Files;
import java.nio.file.Path;
import java.sql.Connection;
import java.sql.DriverManager;
import java.sql.SQLException;
import java.sql.Statement;
import javax.sql.XAConnection;

/** The program over a store of its own; it is killed and the store removed at the end. */
final class Server implements AutoCloseable {
    static final String USER = "ana", PASSWORD = "pw", RDB = "SHOP";
    private static final String LISTENING = "listening ";

    private final Path folder;
    private final Process process;
    final int port;

    Server(String program, int size) throws IOException {
        folder = Files.createTempDirectory("drdad-java");
        String store = folder.resolve("store").toString();
        new ProcessBuilder(program, "init", store, "--size", String.valueOf(size), "--rdb", RDB)
                .redirectOutput(ProcessBuilder.Redirect.DISCARD).start().onExit().join();
        process = new ProcessBuilder(program, "serve", store, "--port", "0", "--user", USER + ":" + PASSWORD)
                .redirectError(ProcessBuilder.Redirect.DISCARD).start();
        Runtime.getRuntime().addShutdownHook(new Thread(process::destroyForcibly));
        String line = new BufferedReader(new InputStreamReader(process.getInputStream(), StandardCharsets.UTF_8)).readLine();
        if (line == null || !line.startsWith(LISTENING)) {
            throw new IOException(program + " does not serve: " + line);
        }
        port = Integer.parseInt(line.substring(LISTENING.length()));
    }

    void kill() {
        process.destroyForcibly().onExit().join();
    }

    String url() {
        return "jdbc:drdad://127.0.0.1:" + port + "/" + RDB;
    }

    Connection connect() throws SQLException {
        return DriverManager.getConnection(url(), USER, PASSWORD);
    }

    /** A connection without autocommit. */
    Connection connectInUnits() throws SQLException {
        Connection connection = connect();
        connection.setAutoCommit(false);
        return connection;
    }

    XAConnection connectXa() throws SQLException {
        return xaSource().getXAConnection();
    }

    DrdadXADataSource xaSource() throws SQLException {
        DrdadXADataSource source = new DrdadXADataSource();
        source.setUrl(url());
        source.setUser(USER);
        source.setPassword(PASSWORD);
        return source;
    }

    /** Runs statements, each a unit. */
    void run(String... texts) throws SQLException {
        try (Connection connection = connect(); Statement statement = connection.createStatement()) {
            for (String text : texts) {
                statement.execute(text);
            }
        }
    }

    /** Makes a table of a number and a text with rows of the keys from 0 on. */
    void table(String name, int rows) throws SQLException {
        run("CREATE TABLE " + name + " (K INTEGER NOT NULL, V VARCHAR(600), PRIMARY KEY (K))");
        try (Connection connection = connectInUnits();
                java.sql.PreparedStatement insert = connection.prepareStatement("INSERT INTO " + name + " VALUES (?, ?)")) {
            for (int key = 0; key < rows; key++) {
                insert.setInt(1, key);
                insert.setString(2, "row " + key);
                insert.addBatch();
            }
            insert.executeBatch();
            connection.commit();
        }
    }

    @Override
    public void close() throws IOException {
        kill();
        Files.deleteIfExists(folder.resolve("store"));
        Files.delete(folder);
    }
}
