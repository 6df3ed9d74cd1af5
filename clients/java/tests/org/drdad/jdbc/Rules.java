package org.drdad.jdbc;

import java.sql.SQLException;
import java.util.Arrays;
import java.util.Objects;

/** Cases by their names, and what a case can claim. */
abstract class Rules {
    private static int passed, failed;

    /** One case. */
    interface Case {
        void run() throws Exception;
    }

    /** A call that is expected to be refused. */
    interface Call {
        void run() throws Exception;
    }

    /** Runs all cases of a kind. */
    abstract void all() throws Exception;

    /** How many cases passed, or failed. */
    static int passed() {
        return passed;
    }

    static int failed() {
        return failed;
    }

    final void rule(String name, Case body) {
        try {
            body.run();
            passed++;
        } catch (Exception | AssertionError fault) {
            failed++;
            System.out.println("FAILED: " + getClass().getSimpleName() + ": " + name);
            fault.printStackTrace(System.out);
        }
    }

    static void same(Object wanted, Object found) {
        if (!Objects.deepEquals(wanted, found)) {
            throw new AssertionError("wanted " + shown(wanted) + ", found " + shown(found));
        }
    }

    private static String shown(Object value) {
        String text = Arrays.deepToString(new Object[] {value});
        return text.substring(1, text.length() - 1);
    }

    static void holds(boolean isSo, String what) {
        if (!isSo) {
            throw new AssertionError(what);
        }
    }

    /** The exception that a call is refused by, which is of this class. */
    static <T extends Exception> T refused(Class<T> wanted, Call call) throws Exception {
        try {
            call.run();
        } catch (Exception found) {
            if (wanted.isInstance(found)) {
                return wanted.cast(found);
            }
            throw found;
        }
        throw new AssertionError("no " + wanted.getSimpleName() + " came");
    }

    /** Refused with this SQLSTATE. */
    static SQLException refused(Class<? extends SQLException> wanted, String state, Call call) throws Exception {
        SQLException found = refused(wanted, call);
        same(state, found.getSQLState());
        return found;
    }
}
