import bitronix.tm.BitronixTransactionManager;
import bitronix.tm.Configuration;
import bitronix.tm.TransactionManagerServices;
import bitronix.tm.resource.jdbc.PoolingDataSource;
import java.nio.file.Path;
import java.util.List;
import java.util.Properties;

/** Bitronix, as a program would have it: a journal of two files in a folder, and a pool for each database. One to a process. */
final class Manager implements AutoCloseable {
    /** No test fills half of it: Bitronix loses decisions where it goes over to its second file and is started again. */
    private static final int JOURNAL_MEGABYTES = 32;
    private static final int TRANSACTION_SECONDS = 60;
    /** The tests ask for recovery themselves. */
    private static final int BACKGROUND_RECOVERY_SECONDS = 3600;
    private static final int ACQUISITION_SECONDS = 5;

    final BitronixTransactionManager transactions;
    private final List<PoolingDataSource> pools;

    /** Begins with the recovery of what the journal and the databases have of an earlier one. */
    Manager(Path folder, PoolingDataSource... pools) {
        Configuration configuration = TransactionManagerServices.getConfiguration();
        configuration.setServerId("tests").setJournal("disk").setMaxLogSizeInMb(JOURNAL_MEGABYTES);
        configuration.setLogPart1Filename(folder.resolve("journal1").toString());
        configuration.setLogPart2Filename(folder.resolve("journal2").toString());
        configuration.setWarnAboutZeroResourceTransaction(false);
        configuration.setDefaultTransactionTimeout(TRANSACTION_SECONDS);
        configuration.setBackgroundRecoveryIntervalSeconds(BACKGROUND_RECOVERY_SECONDS);
        this.pools = List.of(pools);
        this.pools.forEach(PoolingDataSource::init);
        transactions = TransactionManagerServices.getTransactionManager();
    }

    /** The pool of a PostgreSQL. */
    static PoolingDataSource pool(Postgres postgres) {
        return pool("postgres" + postgres.port(), Postgres.SOURCE, postgres.properties());
    }

    /** The pool of the drdad that listens on a port. */
    static PoolingDataSource pool(int drdadPort) {
        return pool("drdad", Drdad.SOURCE, Drdad.properties(drdadPort));
    }

    static PoolingDataSource pool(String name, String source, Properties properties) {
        PoolingDataSource pool = new PoolingDataSource();
        pool.setUniqueName(name);
        pool.setClassName(source);
        pool.setDriverProperties(properties);
        pool.setMaxPoolSize(20);
        pool.setEnableJdbc4ConnectionTest(true);
        pool.setPreparedStatementCacheSize(8);
        pool.setShareTransactionConnections(true);
        pool.setAcquisitionTimeout(ACQUISITION_SECONDS);
        return pool;
    }

    /** Settles what is in doubt. Bitronix does so only while some transaction is in flight, and spares those that are younger. */
    void recover() throws Exception {
        transactions.begin();
        try {
            TransactionManagerServices.getRecoverer().run();
        } finally {
            transactions.rollback();
        }
    }

    @Override
    public void close() {
        transactions.shutdown();
        pools.forEach(PoolingDataSource::close);
    }
}
