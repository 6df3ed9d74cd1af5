import java.util.Objects;

/** What a scenario found: a line for each thing that is not as it should be, and the status of the program. */
final class Findings {
    /** A piece of a scenario, which may fail in any way. */
    interface Step<T> {
        T run() throws Exception;
    }

    private static final int BROKEN_OFF = 2;

    private int held;
    private int failed;

    /** From here on an exception that nobody catches ends the program. Threads of pools and managers would keep it alive. */
    Findings() {
        Thread.setDefaultUncaughtExceptionHandler((thread, failure) -> {
            failure.printStackTrace();
            System.exit(BROKEN_OFF);
        });
    }

    synchronized void check(String what, Object wanted, Object found) {
        if (Objects.equals(wanted, found)) {
            held++;
        } else {
            failed++;
            System.out.println("NOT SO: " + what + ": wanted " + wanted + ", found " + found);
        }
    }

    /** Checks what a step gives; one that throws gives the name of its exception, and the SQLSTATE where there is one. */
    void checkStep(String what, Object wanted, Step<?> step) {
        check(what, wanted, outcome(step));
    }

    static Object outcome(Step<?> step) {
        try {
            return step.run();
        } catch (java.sql.SQLException failure) {
            return failure.getClass().getSimpleName() + " " + failure.getSQLState();
        } catch (Exception failure) {
            return failure.getClass().getSimpleName();
        }
    }

    boolean isWell() {
        return failed == 0;
    }

    /** Prints the last line, and ends the program. */
    void end(String line) {
        System.out.println(line + ": " + (isWell() ? held + " as wanted" : failed + " of " + (held + failed) + " NOT AS WANTED"));
        System.exit(isWell() ? 0 : 1);
    }
}
