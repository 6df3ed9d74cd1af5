import bitronix.tm.BitronixTransactionManager;
import bitronix.tm.Configuration;
import bitronix.tm.TransactionManagerServices;
import bitronix.tm.resource.jdbc.PoolingDataSource;
import java.sql.Connection;
import java.sql.PreparedStatement;
import java.sql.ResultSet;
import java.sql.SQLException;
import java.sql.SQLTransactionRollbackException;
import java.util.Properties;
import java.util.concurrent.ThreadLocalRandom;

/**
 * Transfer LOG POSTGRES_PORT DRDAD_PORT COUNT moves amounts COUNT times between accounts in PostgreSQL and in drdad, each time in one transaction
 * of both, under a transaction manager whose log stands in the folder LOG. Then it prints what all accounts have together. It may be killed at
 * any moment, and so may the databases; where it is started again, its manager first settles what was under way.
 */
public class Transfer {
    private static final int ACCOUNTS = 100;
    private static final int TRIES = 100;
    /** Bitronix loses decisions behind the swap of its two files (README.md): more than the program writes before it is started anew. */
    private static final int LOG_MEGABYTES = 32;

    private final PoolingDataSource bank;
    private final PoolingDataSource shop;
    private final BitronixTransactionManager transactions;

    private Transfer(String log, String postgresPort, String drdadPort) {
        bank = pool("bank", "org.postgresql.xa.PGXADataSource", postgresPort, "postgres", "postgres", "");
        shop = pool("shop", "org.drdad.jdbc.DrdadXADataSource", drdadPort, "SHOP", "ana", "pw");
        Configuration configuration = TransactionManagerServices.getConfiguration();
        configuration.setServerId("transfer").setMaxLogSizeInMb(LOG_MEGABYTES);
        configuration.setLogPart1Filename(log + "/part1").setLogPart2Filename(log + "/part2");
        bank.init();
        shop.init();
        transactions = TransactionManagerServices.getTransactionManager();
    }

    private static PoolingDataSource pool(String name, String source, String port, String database, String user, String password) {
        Properties properties = new Properties();
        properties.setProperty("serverName", "127.0.0.1");
        properties.setProperty("portNumber", port);
        properties.setProperty("databaseName", database);
        properties.setProperty("user", user);
        properties.setProperty("password", password);
        PoolingDataSource pool = new PoolingDataSource();
        pool.setUniqueName(name);
        pool.setClassName(source);
        pool.setDriverProperties(properties);
        pool.setMaxPoolSize(4);
        pool.setShareTransactionConnections(true);
        pool.setEnableJdbc4ConnectionTest(true);
        return pool;
    }

    public static void main(String[] words) throws Exception {
        Transfer transfer = new Transfer(words[0], words[1], words[2]);
        System.out.println("begins with " + transfer.total());
        for (int count = Integer.parseInt(words[3]); count > 0; count--) {
            transfer.move(ThreadLocalRandom.current().nextInt(ACCOUNTS), ThreadLocalRandom.current().nextInt(ACCOUNTS), 10);
        }
        System.out.println("ends with " + transfer.total());
        transfer.transactions.shutdown();
        transfer.bank.close();
        transfer.shop.close();
    }

    /** Moves an amount from an account of PostgreSQL's to one of drdad's. A row that somebody else has just claimed is tried again. */
    private void move(int from, int to, long amount) throws Exception {
        for (int tries = 1; ; tries++) {
            transactions.begin();
            try (Connection here = bank.getConnection(); Connection there = shop.getConnection()) {
                add(here, from, -amount);
                add(there, to, amount);
            } catch (SQLTransactionRollbackException claimed) {
                transactions.rollback();
                if (tries == TRIES) {
                    throw claimed;
                }
                continue;
            }
            transactions.commit();
            return;
        }
    }

    private static void add(Connection connection, int account, long amount) throws SQLException {
        try (PreparedStatement update = connection.prepareStatement("UPDATE ACCOUNT SET AMOUNT = AMOUNT + ? WHERE K = ?")) {
            update.setLong(1, amount);
            update.setInt(2, account);
            update.executeUpdate();
        }
    }

    /** What all accounts of both have, in one transaction. */
    private long total() throws Exception {
        transactions.begin();
        try (Connection here = bank.getConnection(); Connection there = shop.getConnection()) {
            return sum(here) + sum(there);
        } finally {
            transactions.commit();
        }
    }

    private static long sum(Connection connection) throws SQLException {
        long sum = 0;
        try (PreparedStatement select = connection.prepareStatement("SELECT AMOUNT FROM ACCOUNT"); ResultSet rows = select.executeQuery()) {
            while (rows.next()) {
                sum += rows.getLong(1);
            }
        }
        return sum;
    }
}
