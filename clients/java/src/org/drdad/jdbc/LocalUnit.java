package org.drdad.jdbc;

import java.sql.SQLException;
import java.sql.SQLTransactionRollbackException;
import java.util.Arrays;

/** The unit of work outside of any branch: what is under way in it, and how it ends. With autocommit each chain is a unit. */
final class LocalUnit {
    private final Chains chains;
    private final Cursors cursors;
    private final Sections sections;
    private final WaitingCalls branch;
    private boolean isAutocommit = true, hasWork, hasCreated;

    /** The work of a batch. */
    interface Work {
        void run() throws SQLException;
    }

    LocalUnit(Chains chains, Cursors cursors, Sections sections, WaitingCalls branch) {
        this.chains = chains;
        this.cursors = cursors;
        this.sections = sections;
        this.branch = branch;
    }

    boolean isAutocommit() {
        return isAutocommit && !branch.isActive();
    }

    /** What is under way when this is changed is committed, as JDBC has it. */
    void setAutocommit(boolean wanted) throws SQLException {
        if (wanted == isAutocommit()) {
            return;
        }
        checkLocal("a change of autocommit");
        commit();
        isAutocommit = wanted;
    }

    boolean hasWork() {
        return hasWork;
    }

    /** A statement creates a table: what is described from here on may be gone with a rollback. */
    void creates() {
        hasCreated = true;
    }

    private void checkLocal(String what) throws SQLException {
        chains.checkOpen();
        if (branch.isActive()) {
            throw Failures.inGlobalUnit(what);
        }
    }

    // Chains of statements.

    /** Sends the chain of a statement; with autocommit the unit ends with it. Gives the replies without that of the commit. */
    Reply[] exchange(int timeout) throws SQLException {
        branch.checkWorks();
        if (!isAutocommit()) {
            hasWork |= !branch.isActive();
            return chains.exchange(timeout);
        }
        Chains.writeCommit(chains.current());
        Reply[] replies = chains.exchange(timeout);
        Reply commit = replies[replies.length - 1];
        if (!commit.hasEndedUnit) {
            endRefused(commit);
        }
        return Arrays.copyOf(replies, replies.length - 1);
    }

    /** Ends the unit of a statement whose failure broke the chain in front of the commit, or whose commit failed. */
    private void endRefused(Reply commit) throws SQLException {
        hasWork = true;
        if (!chains.isClosed() && commit.isAnswered) {
            rollback();
        } else if (!chains.isClosed()) {
            commit();
        }
        if (commit.hasFailed()) {
            throw Failures.of(commit);
        }
    }

    /** Throws the first failure of a statement. A unit that can't go on beside another one is rolled back first. */
    void judge(Reply... replies) throws SQLException {
        for (Reply reply : replies) {
            if (reply.hasFailed()) {
                SQLException failure = Failures.of(reply);
                if (isOver(failure) && !branch.isActive()) {
                    rollback();
                }
                throw failure;
            }
        }
    }

    private static boolean isOver(SQLException failure) {
        return failure instanceof SQLTransactionRollbackException;
    }

    /** A batch is one unit with autocommit: all of it is committed, or nothing is. */
    void runBatch(BatchResult result, Work work) throws SQLException {
        boolean isWhole = isAutocommit();
        isAutocommit &= !isWhole;
        try {
            work.run();
            if (isWhole && result.failure() == null) {
                commit();
            }
        } catch (SQLException failure) {
            result.fails(failure);
        } finally {
            isAutocommit |= isWhole;
        }
        if (result.failure() != null && (isWhole || isOver(result.failure())) && !branch.isActive() && !chains.isClosed()) {
            rollback();
            result.nothingRemains();
        }
    }

    // Its end.

    void commit() throws SQLException {
        checkLocal("commit()");
        if (hasWork) {
            Chains.writeCommit(chains.begin());
            chains.ask();
            hasWork = hasCreated = false;
        }
    }

    void rollback() throws SQLException {
        checkLocal("rollback()");
        if (hasWork) {
            Chains.writeRollback(chains.begin());
            chains.ask();
            hasWork = false;
            cursors.lose();
            forgetCreated();
        }
    }

    /** Forgets what was described where a table may be gone that the unit created. */
    void forgetCreated() {
        if (hasCreated) {
            sections.forget();
            hasCreated = false;
        }
    }

    /** The user is done with it: what is under way is rolled back, and the next user begins with autocommit. */
    void isGivenBack() throws SQLException {
        if (!branch.isActive()) {
            rollback();
        }
        isAutocommit = true;
    }
}
