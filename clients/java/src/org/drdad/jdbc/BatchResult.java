package org.drdad.jdbc;

import java.sql.BatchUpdateException;
import java.sql.SQLException;
import java.sql.SQLTransactionRollbackException;
import java.sql.Statement;
import java.util.Arrays;

/** How many rows each command of a batch changed, and the first failure. The commands behind a failure are done. */
final class BatchResult {
    private final long[] counts;
    private int taken;
    private SQLException failure;

    BatchResult(int count) {
        counts = new long[count];
        Arrays.fill(counts, Statement.EXECUTE_FAILED);
    }

    void take(Reply[] replies) {
        for (Reply reply : replies) {
            if (reply.hasFailed()) {
                fails(Failures.of(reply));
            } else if (reply.card != null) {
                counts[taken] = reply.card.rows;
            }
            taken++;
        }
    }

    void fails(SQLException told) {
        if (failure == null) {
            failure = told;
        }
    }

    SQLException failure() {
        return failure;
    }

    /** A unit that can't go on beside another one is not gone on with. */
    boolean goesOn() {
        return !(failure instanceof SQLTransactionRollbackException);
    }

    /** The unit was rolled back: no command has changed anything. */
    void nothingRemains() {
        Arrays.fill(counts, Statement.EXECUTE_FAILED);
    }

    /** The counts; BatchUpdateException where a command failed. */
    long[] counts() throws SQLException {
        if (failure != null) {
            throw new BatchUpdateException(failure.getMessage(), failure.getSQLState(), failure.getErrorCode(), counts, failure);
        }
        return counts;
    }
}
