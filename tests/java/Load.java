import java.sql.Connection;
import java.util.ArrayList;
import java.util.List;
import java.util.concurrent.ThreadLocalRandom;
import java.util.concurrent.atomic.AtomicLong;
import java.util.function.LongConsumer;
import javax.sql.DataSource;
import javax.transaction.TransactionManager;

/** Transfers between two databases under a manager, by some threads at once, from `begin` until `rest`. */
final class Load {
    private final TransactionManager transactions;
    private final DataSource first;
    private final DataSource second;
    private final int threads;
    private final LongConsumer told;
    private final List<Thread> running = new ArrayList<>();
    private volatile boolean goesOn;
    final AtomicLong made = new AtomicLong();
    final AtomicLong refused = new AtomicLong();

    /** `told` is called with the number of each transfer whose commit has returned. */
    Load(Manager manager, DataSource first, DataSource second, int threads, LongConsumer told) {
        this.transactions = manager.transactions;
        this.first = first;
        this.second = second;
        this.threads = threads;
        this.told = told;
    }

    void begin() {
        goesOn = true;
        for (int number = 0; number < threads; number++) {
            Thread thread = new Thread(this::transfers);
            thread.start();
            running.add(thread);
        }
    }

    /** Returns once no transfer is under way any more. */
    void rest() throws InterruptedException {
        goesOn = false;
        for (Thread thread : running) {
            thread.join();
        }
        running.clear();
    }

    private void transfers() {
        while (goesOn) {
            long number = ThreadLocalRandom.current().nextLong(1, Long.MAX_VALUE);
            if (transfer(number)) {
                made.incrementAndGet();
                told.accept(number);
            } else {
                refused.incrementAndGet();
            }
        }
    }

    /** Whether the transfer was made. One that is refused, for a row that another unit claims, say, or since a server is gone, is rolled back. */
    private boolean transfer(long number) {
        ThreadLocalRandom random = ThreadLocalRandom.current();
        long amount = random.nextLong(-100, 101);
        try {
            transactions.begin();
        } catch (Exception failure) {
            return shown(failure);
        }
        try (Connection here = first.getConnection(); Connection there = second.getConnection()) {
            Bank.add(here, number, random.nextInt(Bank.ACCOUNTS), -amount);
            Bank.add(there, number, random.nextInt(Bank.ACCOUNTS), amount);
        } catch (Exception failure) {
            return undone(failure);
        }
        try {
            transactions.commit();
            return true;
        } catch (Exception failure) {
            return shown(failure);
        }
    }

    private boolean undone(Exception why) {
        try {
            transactions.rollback();
        } catch (Exception failure) {
            shown(failure);
        }
        return shown(why);
    }

    private static boolean shown(Exception failure) {
        System.err.println("refused: " + failure);
        return false;
    }
}
