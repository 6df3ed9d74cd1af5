import bitronix.tm.resource.jdbc.PoolingDataSource;
import java.nio.file.Path;
import java.sql.Connection;

/** Transfers between PostgreSQL and drdad under Bitronix, by 1 to 16 threads. Afterwards the amounts and the ledgers agree. */
public class Transfers {
    private static final int[] WIDTHS = {1, 2, 4, 8, 16};
    private static final long MILLISECONDS = 1500;

    public static void main(String[] words) throws Exception {
        Findings findings = new Findings();
        Path folder = Drdad.folder();
        Postgres postgres = Postgres.number(0);
        try (Drdad drdad = new Drdad(folder)) {
            create(postgres, drdad);
            long made = 0;
            PoolingDataSource here = Manager.pool(postgres);
            PoolingDataSource there = Manager.pool(drdad.port);
            Manager manager = new Manager(folder, here, there);
            for (int width : WIDTHS) {
                Load load = new Load(manager, here, there, width, number -> { });
                load.begin();
                Thread.sleep(MILLISECONDS);
                load.rest();
                made += load.made.get();
                System.out.printf("%2d threads: %d transfers made, %d refused%n", width, load.made.get(), load.refused.get());
                findings.check(width + " threads make transfers", true, load.made.get() > 0);
            }
            manager.close();
            judge(findings, postgres, drdad, made);
        }
        findings.end("transfers by 1 to 16 threads");
    }

    static void create(Postgres postgres, Drdad drdad) throws Exception {
        try (Connection here = postgres.connect(); Connection there = drdad.connect()) {
            Bank.create(here);
            Bank.create(there);
        }
    }

    private static void judge(Findings findings, Postgres postgres, Drdad drdad, long made) throws Exception {
        try (Connection here = postgres.connect(); Connection there = drdad.connect()) {
            Bank.Books books = Bank.read(here);
            findings.check("amounts and ledgers", "", Bank.Books.faults(books, Bank.read(there)));
            findings.check("transfers that stand in the ledger", made, (long) books.ledger().size());
        }
        drdad.kill();
        findings.check("drdad indoubt", "[]", drdad.inDoubt().toString());
    }
}
