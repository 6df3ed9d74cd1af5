import bitronix.tm.resource.ehcache.EhCacheXAResourceProducer;
import bitronix.tm.resource.jdbc.PoolingDataSource;
import java.nio.file.Files;
import java.nio.file.Path;
import java.sql.Connection;
import java.util.List;
import javax.transaction.RollbackException;
import javax.transaction.xa.XAResource;

/**
 * What becomes of a branch that a person decides by `drdad decide` while the manager is away: four rows, for what the manager wants and what
 * the person said. Each database stays as it was decided there; the manager forgets the branch at its next start, and where the two differ its log
 * has a line of level ERROR.
 */
public class Heuristics {
    private static final String[] DECISIONS = {"commit", "rollback"};

    private final Findings findings = new Findings();
    private final Path folder = Drdad.folder();
    private final Path log;
    private final Postgres postgres = Postgres.number(0);
    private final Drdad drdad;

    private Heuristics(Path log) throws Exception {
        this.log = log;
        drdad = new Drdad(folder);
        Transfers.create(postgres, drdad);
    }

    public static void main(String[] words) throws Exception {
        Path log = Drdad.folder().resolve("bitronix.log");
        System.setProperty("org.slf4j.simpleLogger.logFile", log.toString());
        Heuristics all = new Heuristics(log);
        System.out.println("the manager wants  decided   PostgreSQL   drdad        the manager's log");
        long number = 0;
        for (String wanted : DECISIONS) {
            for (String decided : DECISIONS) {
                all.row(++number, wanted, decided);
            }
        }
        all.drdad.kill();
        all.findings.check("drdad indoubt", "[]", all.drdad.inDoubt().toString());
        all.findings.end("4 rows of heuristic decisions");
    }

    private void row(long number, String wanted, String decided) throws Exception {
        boolean isWanted = wanted.equals("commit");
        String row = "the manager wants " + wanted + ", decided " + decided;
        leaveInDoubt(number, isWanted ? Moment.committing(drdad::kill) : Moment.refusing(drdad::kill));
        findings.check(row + ": in doubt", 1, drdad.inDoubt().size());
        drdad.decide(decided);
        String outcome = decided.equals("commit") ? " committed" : " rolledback";
        findings.check(row + ": in doubt when decided", true, drdad.inDoubt().get(0).endsWith(outcome));
        drdad.serve();
        int before = Files.readAllLines(log).size();
        new Manager(folder, Manager.pool(postgres), Manager.pool(drdad.port)).close();
        List<String> told = Files.readAllLines(log).stream().skip(before).filter(line -> line.contains("ERROR")).toList();
        String difference = told.isEmpty() ? "nothing" : told.get(0).replaceAll(".* - ", "");
        String inPostgres = standing(postgres.connect(), number);
        String inDrdad = standing(drdad.connect(), number);
        System.out.printf("%-18s %-9s %-12s %-12s %s%n", wanted, decided, inPostgres, inDrdad, difference);
        findings.check(row + ": PostgreSQL", isWanted ? "there" : "not there", inPostgres);
        findings.check(row + ": drdad", decided.equals("commit") ? "there" : "not there", inDrdad);
        findings.check(row + ": told as incompatible", !wanted.equals(decided), difference.contains("incompatible"));
        findings.check(row + ": forgotten", 0, drdad.xa().getXAConnection().getXAResource().recover(XAResource.TMSTARTRSCAN).length);
    }

    /** A transfer that is prepared in drdad when the moment comes, with which drdad is gone. */
    private void leaveInDoubt(long number, Moment moment) throws Exception {
        PoolingDataSource here = Manager.pool(postgres);
        PoolingDataSource there = Manager.pool(drdad.port);
        // what stands first is prepared first and told of the decision last
        there.setTwoPcOrderingPosition(0);
        Manager manager = new Manager(folder, here, there);
        EhCacheXAResourceProducer.registerXAResource("moment", moment);
        manager.transactions.begin();
        try (Connection first = here.getConnection(); Connection second = there.getConnection()) {
            Bank.add(first, number, 1, -1);
            Bank.add(second, number, 1, 1);
        }
        manager.transactions.getTransaction().enlistResource(moment);
        try {
            manager.transactions.commit();
        } catch (RollbackException refused) {
            // as the moment wanted it
        }
        EhCacheXAResourceProducer.unregisterXAResource("moment", moment);
        manager.close();
    }

    private static String standing(Connection opened, long number) throws Exception {
        try (Connection connection = opened) {
            return Bank.read(connection).ledger().containsKey(number) ? "there" : "not there";
        }
    }
}
