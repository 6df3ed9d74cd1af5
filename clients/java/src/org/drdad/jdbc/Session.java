package org.drdad.jdbc;

import java.nio.ByteBuffer;
import java.sql.SQLException;
import java.util.List;
import java.util.function.Consumer;
import javax.transaction.xa.XAException;

/**
 * What a conversation is used for: statements, units of work, and branches of global units. One call runs at a time, the others
 * wait; closing waits for nobody.
 */
final class Session {
    private final Settings settings;
    private final String product;
    private final LiveBranches live;
    private final WaitingCalls calls = new WaitingCalls();
    private final Cursors cursors;
    private final Chains chains;
    private final LocalUnit unit;
    private final Statements statements;
    private final GlobalWork global;
    private volatile Consumer<SQLException> whenBroken = failure -> { };

    Session(Settings settings) throws SQLException {
        Conversation conversation = new Conversation(settings);
        this.settings = settings.copy();
        this.settings.password = "";
        product = conversation.product();
        live = LiveBranches.of(settings);
        Sections sections = new Sections(settings.database);
        cursors = new Cursors(sections);
        chains = new Chains(conversation, cursors, calls, this::hasBroken, settings.socketTimeout);
        unit = new LocalUnit(chains, cursors, sections, calls);
        statements = new Statements(chains, unit, sections, cursors);
        global = new GlobalWork(this, chains, cursors, calls, live);
    }

    Settings settings() { return settings; }

    /** The product's number as ACCRDBRM told it. */
    String product() { return product; }
    boolean isClosed() { return chains.isClosed(); }

    /** Ends the conversation; what was not committed is rolled back. */
    void close() { chains.close(); live.gone(this); }

    /** Who is told where the conversation breaks. */
    void whenBroken(Consumer<SQLException> told) { whenBroken = told; }
    private void hasBroken(SQLException failure) { live.gone(this); whenBroken.accept(failure); }
    SQLException broken(WireFault fault) { return chains.broken(fault); }
    int networkTimeout() { return chains.networkTimeout(); }
    void setNetworkTimeout(int milliseconds) { chains.setNetworkTimeout(milliseconds); }

    /** Whether the server answers within so many milliseconds; 0 is as long as the connection lets it. */
    synchronized boolean isAlive(int milliseconds) {
        if (isClosed()) {
            return false;
        }
        try {
            chains.ping(milliseconds);
            return true;
        } catch (SQLException dead) {
            close();
            return false;
        }
    }

    // Statements.

    synchronized int run(SqlText text, int timeout) throws SQLException { return statements.run(text, timeout); }
    synchronized int run(SqlText text, byte[] row, int timeout) throws SQLException { return statements.run(text, row, timeout); }

    synchronized BatchResult runAll(SqlText text, List<byte[]> rows, int timeout) throws SQLException {
        return statements.runAll(text, rows, timeout);
    }

    synchronized BatchResult runAll(List<SqlText> texts, int timeout) throws SQLException {
        return statements.runAll(texts, timeout);
    }

    synchronized OpenQuery open(SqlText text, byte[] row, int fetchSize, int timeout) throws SQLException {
        return statements.open(text, row, fetchSize, timeout);
    }

    synchronized boolean fetch(OpenQuery query) throws SQLException { return statements.fetch(query); }
    synchronized void abandon(OpenQuery query) { cursors.abandon(query); }
    synchronized Column[] describe(SqlText text) throws SQLException { return statements.describe(text); }
    synchronized Column[] describeParameters(SqlText text) throws SQLException { return statements.describeParameters(text); }

    // Units of work.

    synchronized boolean isAutocommit() { return unit.isAutocommit(); }
    synchronized void setAutocommit(boolean wanted) throws SQLException { unit.setAutocommit(wanted); }
    synchronized boolean hasWork() { return unit.hasWork(); }
    synchronized void commit() throws SQLException { unit.commit(); }
    synchronized void rollback() throws SQLException { unit.rollback(); }

    /** The user is done with it, and another one may come. */
    synchronized void isGivenBack() throws SQLException { cursors.abandonAll(); unit.isGivenBack(); }

    // Global units. What another session of this process keeps back for the branch is done first.

    private void settleElsewhere(ByteBuffer xid) throws SQLException {
        Session holder = live.holder(xid);
        if (holder != null && holder != this) {
            holder.flush();
        }
    }

    private synchronized void flush() throws SQLException { global.flush(); }

    void start(ByteBuffer xid, int flags) throws SQLException, XAException {
        settleElsewhere(xid);
        synchronized (this) {
            global.start(xid, flags, unit.hasWork());
        }
    }

    void end(ByteBuffer xid, int flags) throws SQLException, XAException {
        settleElsewhere(xid);
        synchronized (this) {
            global.end(xid, flags);
        }
    }

    int decide(int call, ByteBuffer xid, int flags) throws SQLException, XAException {
        settleElsewhere(xid);
        synchronized (this) {
            unit.forgetCreated();
            return global.decide(call, xid, flags);
        }
    }

    synchronized List<Bytes> recover() throws SQLException, XAException { return global.recover(); }
}
