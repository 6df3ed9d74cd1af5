import java.nio.file.Path;
import java.sql.Connection;
import java.sql.SQLException;
import java.util.HashSet;
import java.util.Random;
import java.util.Set;
import javax.sql.XAConnection;
import javax.sql.XADataSource;
import javax.transaction.xa.XAException;
import javax.transaction.xa.XAResource;

/**
 * KillRounds ROUNDS: transfers between PostgreSQL and drdad under Bitronix, and in each round the manager's process, drdad, or both are
 * killed at a random moment (SIGKILL). What was killed is started again, and the manager recovers; it may be killed at that too. Then nothing
 * is in doubt, the amounts add up to what they were, both ledgers have the same transfers, and each transfer that was told as made is among them.
 *
 * Where drdad alone was killed, the manager's transfers come to their ends before it is served again: Bitronix rolls back branches that are
 * prepared and in flight where it finds a database again.
 */
public class KillRounds {
    private static final int THREADS = 8;
    private static final int MOST_TRANSFERS = 100;
    private static final int LAST_MILLISECONDS = 20;
    private static final long LONGEST_MILLISECONDS = 5000;
    private static final int RECOVERY_MILLISECONDS = 2000;
    private static final int SETTLINGS = 20;
    private static final int READINGS = 50;
    private static final String[] VICTIMS = {"manager", "drdad", "both"};

    private final Findings findings = new Findings();
    private final Random random = new Random();
    private final Postgres postgres = Postgres.number(0);
    private final Path folder = Drdad.folder();
    private final Drdad drdad;
    private MoverProcess mover;
    private long inDoubt;

    private KillRounds() throws Exception {
        drdad = new Drdad(folder);
        Transfers.create(postgres, drdad);
        mover = new MoverProcess(folder, postgres, drdad, THREADS).ready();
    }

    public static void main(String[] words) throws Exception {
        KillRounds all = new KillRounds();
        int rounds = Integer.parseInt(words[0]);
        for (int round = 1; round <= rounds && all.findings.isWell(); round++) {
            all.play(round);
        }
        all.mover.kill();
        all.drdad.kill();
        all.findings.check("drdad indoubt", "[]", all.drdad.inDoubt().toString());
        all.findings.check("drdad check", "whole", all.drdad.checked());
        all.findings.end(
            rounds + " rounds of kill -9, " + all.mover.told().size() + " transfers told, " + all.inDoubt + " branches in doubt settled");
    }

    private void play(int round) throws Exception {
        String victim = VICTIMS[random.nextInt(VICTIMS.length)];
        mover.ask("go");
        awaitMoment();
        kill(victim);
        if (victim.equals("drdad")) {
            mover.ask("rest");
        }
        if (!victim.equals("manager")) {
            drdad.serve();
        }
        int here = inDoubt(postgres.xa());
        int there = inDoubt(drdad.xa());
        inDoubt += here + there;
        if (!victim.equals("drdad")) {
            restartManager();
        }
        settle();
        judge(round);
        System.out.printf("round %3d: killed %-7s in doubt %d in PostgreSQL, %d in drdad; %d transfers told%n",
            round, victim, here, there, mover.told().size());
    }

    /** Some transfers later, at no particular point of one. */
    private void awaitMoment() throws InterruptedException {
        int count = mover.told().size() + random.nextInt(MOST_TRANSFERS);
        long latest = System.currentTimeMillis() + LONGEST_MILLISECONDS;
        while (mover.told().size() < count && System.currentTimeMillis() < latest) {
            Thread.sleep(1);
        }
        Thread.sleep(random.nextInt(LAST_MILLISECONDS));
    }

    /** Both in either order. */
    private void kill(String victim) {
        boolean drdadFirst = random.nextBoolean();
        if (drdadFirst && !victim.equals("manager")) {
            drdad.kill();
        }
        if (!victim.equals("drdad")) {
            mover.kill();
        }
        if (!drdadFirst && !victim.equals("manager")) {
            drdad.kill();
        }
    }

    /** Starts the manager again, and sometimes kills that one too, while it recovers or before or behind that. */
    private void restartManager() throws Exception {
        if (random.nextBoolean()) {
            MoverProcess recovering = mover.again();
            Thread.sleep(random.nextInt(RECOVERY_MILLISECONDS));
            recovering.kill();
        }
        mover = mover.again().ready();
    }

    private void settle() throws Exception {
        int left = 1;
        for (int settling = 0; settling < SETTLINGS && left > 0; settling++) {
            mover.ask("settle");
            left = inDoubt(postgres.xa()) + inDoubt(drdad.xa());
        }
        findings.check("branches in doubt that the manager left", 0, left);
    }

    private static int inDoubt(XADataSource source) throws SQLException, XAException {
        XAConnection connection = source.getXAConnection();
        try {
            return connection.getXAResource().recover(XAResource.TMSTARTRSCAN | XAResource.TMENDRSCAN).length;
        } finally {
            connection.close();
        }
    }

    private void judge(int round) throws Exception {
        try (Connection here = postgres.connect()) {
            Bank.Books books = Bank.read(here);
            findings.check("books after round " + round, "", Bank.Books.faults(books, readDrdad()));
            Set<Long> lost = new HashSet<>(mover.told());
            lost.removeAll(books.ledger().keySet());
            findings.check("told and not there after round " + round, Set.of(), lost);
        }
    }

    /** Tried again while the units of connections that were just lost still have their claims. */
    private Bank.Books readDrdad() throws Exception {
        for (int reading = 0; ; reading++) {
            try (Connection there = drdad.connect()) {
                return Bank.read(there);
            } catch (SQLException claimed) {
                if (reading == READINGS) {
                    throw claimed;
                }
                Thread.sleep(100);
            }
        }
    }
}
