import java.io.BufferedReader;
import java.io.IOException;
import java.net.InetAddress;
import java.net.ServerSocket;
import java.nio.file.Files;
import java.nio.file.Path;
import java.sql.Connection;
import java.sql.DriverManager;
import java.sql.SQLException;
import java.util.ArrayList;
import java.util.List;
import java.util.Properties;
import javax.sql.XADataSource;
import org.drdad.jdbc.DrdadXADataSource;

/** A drdad over a store of its own, on one port: made, served, killed, and served again. The property `drdad` names the program. */
final class Drdad implements AutoCloseable {
    static final String DATABASE = "SHOP";
    static final String USER = "ana";
    static final String PASSWORD = "pw";
    static final String SOURCE = "org.drdad.jdbc.DrdadXADataSource";
    private static final String PROGRAM = System.getProperty("drdad");
    private static final int STORE_BYTES = 64 << 20;

    final int port;
    private final Path store;
    private final Path errors;
    private Process process;

    /** A store in a folder that is made here where there is none, and its server. */
    Drdad(Path folder) throws IOException {
        this(folder, STORE_BYTES);
    }

    Drdad(Path folder, int bytes) throws IOException {
        Files.createDirectories(folder);
        store = folder.resolve("store");
        errors = folder.resolve("errors");
        try (ServerSocket free = new ServerSocket(0, 1, InetAddress.getLoopbackAddress())) {
            port = free.getLocalPort();
        }
        run("init", store.toString(), "--size", Integer.toString(bytes), "--rdb", DATABASE);
        serve();
        Runtime.getRuntime().addShutdownHook(new Thread(this::kill));
    }

    /** The folder that `tests/java/run` gives to the scenario. */
    static Path folder() {
        return Path.of(System.getProperty("folder"));
    }

    void serve() throws IOException {
        ProcessBuilder server = new ProcessBuilder(
            PROGRAM, "serve", store.toString(), "--port", Integer.toString(port), "--user", USER + ":" + PASSWORD);
        process = server.redirectError(ProcessBuilder.Redirect.appendTo(errors.toFile())).start();
        String said = process.inputReader().readLine();
        if (said == null || !said.startsWith("listening")) {
            throw new IOException("the server said " + said + "; " + Files.readString(errors));
        }
    }

    /** Ends the server by SIGKILL. */
    void kill() {
        process.destroyForcibly();
        process.onExit().join();
    }

    @Override
    public void close() {
        kill();
    }

    /** The lines of `drdad indoubt`. The store must not be served. */
    List<String> inDoubt() throws IOException {
        return run("indoubt", store.toString());
    }

    /** Decides the one unit in doubt, as a person would: "commit" or "rollback". The store must not be served. */
    void decide(String how) throws IOException {
        List<String> words = new ArrayList<>(List.of("decide", store.toString()));
        words.addAll(List.of(inDoubt().get(0).split(" ")).subList(0, 3));
        words.add(how);
        run(words.toArray(String[]::new));
    }

    /** What `drdad check` says of the store, which must not be served. */
    String checked() throws IOException {
        return run("check", store.toString()).get(0);
    }

    private List<String> run(String... words) throws IOException {
        List<String> command = new ArrayList<>(List.of(words));
        command.add(0, PROGRAM);
        Process run = new ProcessBuilder(command).redirectErrorStream(true).start();
        try (BufferedReader out = run.inputReader()) {
            List<String> lines = out.lines().toList();
            if (run.onExit().join().exitValue() != 0) {
                throw new IOException(command + ": " + lines);
            }
            return lines;
        }
    }

    String url() {
        return "jdbc:drdad://127.0.0.1:" + port + "/" + DATABASE + "?user=" + USER + "&password=" + PASSWORD;
    }

    Connection connect() throws SQLException {
        return DriverManager.getConnection(url());
    }

    XADataSource xa() throws SQLException {
        DrdadXADataSource source = new DrdadXADataSource();
        source.setServerName("127.0.0.1");
        source.setPortNumber(port);
        source.setDatabaseName(DATABASE);
        source.setUser(USER);
        source.setPassword(PASSWORD);
        return source;
    }

    /** The same as properties of the data source, as pools and managers take them. */
    static Properties properties(int port) {
        Properties properties = new Properties();
        properties.setProperty("serverName", "127.0.0.1");
        properties.setProperty("portNumber", Integer.toString(port));
        properties.setProperty("databaseName", DATABASE);
        properties.setProperty("user", USER);
        properties.setProperty("password", PASSWORD);
        return properties;
    }
}
