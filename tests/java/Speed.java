import bitronix.tm.resource.jdbc.PoolingDataSource;
import java.nio.file.Path;
import java.sql.Connection;
import java.util.Arrays;

/**
 * Speed judged|shown: transfers a second under Bitronix by 16 threads, between two PostgreSQLs, and with drdad for one of them, in turn. Where it
 * is judged, there have to be at least as many with drdad.
 */
public class Speed {
    private static final int THREADS = 16;
    private static final int ROUNDS = 5;
    private static final long MILLISECONDS = 2000;

    public static void main(String[] words) throws Exception {
        Findings findings = new Findings();
        Path folder = Drdad.folder();
        double[] ratios = new double[ROUNDS];
        try (Drdad drdad = new Drdad(folder)) {
            Transfers.create(Postgres.number(0), drdad);
            try (Connection connection = Postgres.number(1).connect()) {
                Bank.create(connection);
            }
            PoolingDataSource one = Manager.pool(Postgres.number(0));
            PoolingDataSource two = Manager.pool(Postgres.number(1));
            PoolingDataSource three = Manager.pool(drdad.port);
            Manager manager = new Manager(folder, one, two, three);
            perSecond(manager, one, two);
            perSecond(manager, one, three);
            for (int round = 0; round < ROUNDS; round++) {
                double postgres = perSecond(manager, one, two);
                double mixed = perSecond(manager, one, three);
                ratios[round] = mixed / postgres;
                System.out.printf("round %d: %.0f a second with two PostgreSQLs, %.0f with drdad for one%n", round + 1, postgres, mixed);
            }
            manager.close();
        }
        Arrays.sort(ratios);
        double median = ratios[ROUNDS / 2];
        if (words[0].equals("judged")) {
            findings.check("at least as many with drdad for one of two PostgreSQLs", true, median >= 1);
        }
        findings.end(String.format("drdad for one of two PostgreSQLs at %d threads: %.2f times as many transfers", THREADS, median));
    }

    private static double perSecond(Manager manager, PoolingDataSource first, PoolingDataSource second) throws Exception {
        Load load = new Load(manager, first, second, THREADS, number -> { });
        long began = System.nanoTime();
        load.begin();
        Thread.sleep(MILLISECONDS);
        load.rest();
        return load.made.get() * 1e9 / (System.nanoTime() - began);
    }
}
