import java.sql.Connection;
import java.sql.DriverManager;
import java.sql.SQLException;
import java.util.Properties;
import javax.sql.XADataSource;
import org.postgresql.xa.PGXADataSource;

/** One of the PostgreSQL servers that `tests/java/with_postgres` has started, 0 or 1. */
record Postgres(int port) {
    static final String SOURCE = "org.postgresql.xa.PGXADataSource";

    static Postgres number(int place) {
        return new Postgres(Integer.parseInt(System.getenv("POSTGRES_PORTS").split(" ")[place]));
    }

    Connection connect() throws SQLException {
        return DriverManager.getConnection("jdbc:postgresql://127.0.0.1:" + port + "/postgres?user=postgres");
    }

    XADataSource xa() {
        PGXADataSource source = new PGXADataSource();
        source.setServerNames(new String[] {"127.0.0.1"});
        source.setPortNumbers(new int[] {port});
        source.setDatabaseName("postgres");
        source.setUser("postgres");
        return source;
    }

    Properties properties() {
        Properties properties = new Properties();
        properties.setProperty("serverName", "127.0.0.1");
        properties.setProperty("portNumber", Integer.toString(port));
        properties.setProperty("databaseName", "postgres");
        properties.setProperty("user", "postgres");
        return properties;
    }
}
