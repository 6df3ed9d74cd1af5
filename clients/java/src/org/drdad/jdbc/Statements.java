package org.drdad.jdbc;

import java.sql.SQLException;
import java.util.Arrays;
import java.util.List;

/** Statements, prepared in sections or run by their text alone, and their rows. */
final class Statements {
    /** The commands of a batch that are sent in one chain: their replies have to find room on their way. */
    private static final int CHAINED = 500;
    private static final Column[] NO_COLUMNS = {};

    /** Writes what a call does in a section. */
    private interface Commands {
        void write(CommandWriter chain);
    }

    private final Chains chains;
    private final LocalUnit unit;
    private final Sections sections;
    private final Cursors cursors;

    Statements(Chains chains, LocalUnit unit, Sections sections, Cursors cursors) {
        this.chains = chains;
        this.unit = unit;
        this.sections = sections;
        this.cursors = cursors;
    }

    /**
     * Does commands in a section that a text is prepared in. The prepare goes in their chain only where nothing was prepared in
     * that section before: where it is refused they would else meet what was there.
     */
    private Reply[] through(Section section, SqlText text, boolean isDescribed, int timeout, Commands commands)
            throws SQLException {
        boolean prepares = !section.has(text, isDescribed);
        if (prepares && !section.isFresh()) {
            section.writePrepare(chains.begin(), text, isDescribed);
            hasPrepared(section, text, unit.exchange(timeout)[0]);
            prepares = false;
        }
        CommandWriter chain = chains.begin();
        if (prepares) {
            section.writePrepare(chain, text, isDescribed);
        }
        commands.write(chain);
        Reply[] replies = unit.exchange(timeout);
        if (!prepares) {
            return replies;
        }
        hasPrepared(section, text, replies[0]);
        return Arrays.copyOfRange(replies, 1, replies.length);
    }

    private void hasPrepared(Section section, SqlText text, Reply reply) throws SQLException {
        unit.judge(reply);
        try {
            section.hasPrepared(text, reply);
        } catch (WireFault fault) {
            throw chains.broken(fault);
        }
    }

    private void begins(SqlText text) {
        if (text.isCreate()) {
            unit.creates();
        }
    }

    /** Runs a statement by its text alone, and gives how many rows it changed. */
    int run(SqlText text, int timeout) throws SQLException {
        begins(text);
        Section.writeImmediate(chains.begin(), text);
        return rowsOf(unit.exchange(timeout)[0]);
    }

    /** Runs a prepared statement with a row of parameters, or none, and gives how many rows it changed. */
    int run(SqlText text, byte[] row, int timeout) throws SQLException {
        begins(text);
        Section section = sections.take(text);
        try {
            return rowsOf(through(section, text, false, timeout, chain -> section.writeRun(chain, row))[0]);
        } finally {
            sections.giveBack(section);
        }
    }

    private int rowsOf(Reply reply) throws SQLException {
        unit.judge(reply);
        if (reply.card == null) {
            throw chains.broken(new WireFault("SQLCARD is missing"));
        }
        return reply.card.rows;
    }

    // Queries.

    /** Opens a query with a row of parameters, or none. */
    OpenQuery open(SqlText text, byte[] row, int fetchSize, int timeout) throws SQLException {
        Section section = sections.take(text);
        OpenQuery query = null;
        try {
            Reply reply = through(section, text, true, timeout, chain -> section.writeOpen(chain, fetchSize, row))[0];
            unit.judge(reply);
            query = new OpenQuery(section, reply, fetchSize);
            cursors.take(query);
            return query;
        } catch (WireFault fault) {
            throw chains.broken(fault);
        } finally {
            if (query == null) {
                sections.giveBack(section);
            }
        }
    }

    /** Brings the next block of a query; false where there is none. */
    boolean fetch(OpenQuery query) throws SQLException {
        if (chains.isAhead(query)) {
            chains.receiveAhead();
        }
        if (!query.hasBlock() && !askNext(query)) {
            return false;
        }
        chains.askAhead(query);
        return true;
    }

    private boolean askNext(OpenQuery query) throws SQLException {
        if (query.isLost) {
            throw Failures.misuse("the rows that had not come are gone, with the rollback or the end of work in a branch");
        }
        if (!query.isOpen) {
            return false;
        }
        try {
            query.writeContinue(chains.begin());
            query.takeBlock(chains.ask()[0]);
        } catch (WireFault fault) {
            throw chains.broken(fault);
        }
        cursors.take(query);
        return true;
    }

    /** The columns of the rows of a statement; none where it gives no rows. */
    Column[] describe(SqlText text) throws SQLException {
        Section section = sections.take(text);
        try {
            if (!section.has(text, true)) {
                through(section, text, true, Chains.NO_TIMEOUT, chain -> { });
            }
            return section.columns() == null ? NO_COLUMNS : section.columns();
        } finally {
            sections.giveBack(section);
        }
    }

    /** The parameters of a statement. */
    Column[] describeParameters(SqlText text) throws SQLException {
        Section section = sections.take(text);
        try {
            Reply reply = through(section, text, false, Chains.NO_TIMEOUT, section::writeDescribeParameters)[0];
            unit.judge(reply);
            return reply.described == null ? NO_COLUMNS : Column.read(reply.described);
        } catch (WireFault fault) {
            throw chains.broken(fault);
        } finally {
            sections.giveBack(section);
        }
    }

    // Batches.

    /** Runs a prepared statement for each row of parameters. */
    BatchResult runAll(SqlText text, List<byte[]> rows, int timeout) throws SQLException {
        begins(text);
        BatchResult result = new BatchResult(rows.size());
        unit.runBatch(result, () -> {
            for (int from = 0; from < rows.size() && result.goesOn(); from += CHAINED) {
                result.take(runSome(text, rows.subList(from, Math.min(rows.size(), from + CHAINED)), timeout));
            }
        });
        return result;
    }

    private Reply[] runSome(SqlText text, List<byte[]> rows, int timeout) throws SQLException {
        Section section = sections.take(text);
        try {
            return through(section, text, false, timeout, chain -> {
                for (byte[] row : rows) {
                    section.writeRun(chain, row);
                }
            });
        } finally {
            sections.giveBack(section);
        }
    }

    /** Runs several statements by their texts. */
    BatchResult runAll(List<SqlText> texts, int timeout) throws SQLException {
        BatchResult result = new BatchResult(texts.size());
        texts.forEach(this::begins);
        unit.runBatch(result, () -> {
            for (int from = 0; from < texts.size() && result.goesOn(); from += CHAINED) {
                CommandWriter chain = chains.begin();
                texts.subList(from, Math.min(texts.size(), from + CHAINED)).forEach(text -> Section.writeImmediate(chain, text));
                result.take(unit.exchange(timeout));
            }
        });
        return result;
    }
}
