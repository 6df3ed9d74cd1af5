package org.drdad.jdbc;

import java.sql.SQLException;
import java.util.Arrays;
import java.util.function.Consumer;

/**
 * The chains of a session. In front of what a call asks stands what waited for a chain: calls of XA, and the closing of cursors.
 */
final class Chains {
    static final int NO_TIMEOUT = 0;

    private final Conversation conversation;
    private final Cursors cursors;
    private final WaitingCalls calls;
    private final Consumer<SQLException> whenBroken;
    private volatile int networkTimeout;
    /** The query whose next block was asked for, and has not been received; else null. */
    private OpenQuery ahead;

    Chains(Conversation conversation, Cursors cursors, WaitingCalls calls, Consumer<SQLException> whenBroken, int networkTimeout) {
        this.conversation = conversation;
        this.cursors = cursors;
        this.calls = calls;
        this.whenBroken = whenBroken;
        this.networkTimeout = networkTimeout;
    }

    boolean isClosed() {
        return conversation.isClosed();
    }

    void close() {
        conversation.close();
    }

    void checkOpen() throws SQLException {
        if (isClosed()) {
            throw Failures.closed("the connection");
        }
    }

    /** Milliseconds that the server may be silent; 0 is for ever. */
    int networkTimeout() {
        return networkTimeout;
    }

    void setNetworkTimeout(int milliseconds) {
        networkTimeout = milliseconds;
    }

    /** Asks whether the server answers; what waits for a chain waits on. */
    void ping(int timeout) throws SQLException {
        receiveAhead();
        conversation.ping(timeout == NO_TIMEOUT ? networkTimeout : timeout);
    }

    /** Begins a chain with what waited for one. */
    CommandWriter begin() throws SQLException {
        receiveAhead();
        CommandWriter chain = conversation.begin();
        calls.write(chain);
        cursors.writeClosings(chain);
        return chain;
    }

    /** Asks for the next block of a query, unless something waits for a chain. */
    void askAhead(OpenQuery query) throws SQLException {
        if (!query.isReadAhead || !query.isOpen || ahead != null || calls.count() + cursors.closings() > 0) {
            return;
        }
        try {
            query.writeContinue(conversation.begin());
            conversation.send(networkTimeout);
            ahead = query;
        } catch (WireFault fault) {
            throw broken(fault);
        } catch (SQLException failure) {
            whenBroken.accept(failure);
            throw failure;
        }
    }

    /** Receives the block that was asked for ahead. Where that failed it is asked for again when it is wanted. */
    void receiveAhead() throws SQLException {
        OpenQuery query = ahead;
        if (query == null) {
            return;
        }
        ahead = null;
        Reply reply;
        try {
            reply = conversation.receive();
        } catch (SQLException failure) {
            whenBroken.accept(failure);
            throw failure;
        }
        if (reply.hasFailed()) {
            return;
        }
        if (query.isOpen) {
            query.takeBlock(reply);
            cursors.take(query);
        } else if (reply.hasEndedQuery) {
            cursors.hasEnded(query);
        }
    }

    boolean isAhead(OpenQuery query) {
        return ahead == query;
    }

    /** The chain under way. */
    CommandWriter current() {
        return conversation.chain();
    }

    /** Sends the chain, judges what had waited, and gives the replies to the commands behind it. */
    Reply[] exchange(int timeout) throws SQLException {
        int waited = calls.count() + cursors.closings();
        Reply[] replies;
        boolean isRefused;
        try {
            replies = conversation.exchange(timeout == NO_TIMEOUT ? networkTimeout : timeout);
            isRefused = calls.takeAnswers(replies);
        } catch (WireFault fault) {
            throw broken(fault);
        } catch (SQLException failure) {
            if (isClosed()) {
                whenBroken.accept(failure);
            }
            throw failure;
        }
        if (isClosed()) {
            whenBroken.accept(firstFailure(replies));
        }
        cursors.haveClosed();
        if (isRefused) {
            endRefusedStart();
            throw calls.refusal();
        }
        return waited == 0 ? replies : Arrays.copyOfRange(replies, waited, replies.length);
    }

    /** The same; the first failure is thrown. */
    Reply[] ask() throws SQLException {
        Reply[] replies = exchange(NO_TIMEOUT);
        Conversation.check(replies);
        return replies;
    }

    /** One call of XA, in one chain with those that waited. */
    Reply sync(XaCall call) throws SQLException {
        call.write(begin());
        Reply reply = ask()[0];
        if (!reply.hasXaCode) {
            throw broken(new WireFault("SYNCCRD is missing"));
        }
        return reply;
    }

    /** What stood behind a start that was refused was done outside of any branch: it is rolled back. */
    private void endRefusedStart() throws SQLException {
        writeRollback(begin());
        ask();
        cursors.lose();
    }

    private static SQLException firstFailure(Reply[] replies) {
        for (Reply reply : replies) {
            if (reply.hasFailed()) {
                return Failures.of(reply);
            }
        }
        return Failures.closed("the connection");
    }

    /** The server answered otherwise than it should: the conversation is closed. */
    SQLException broken(WireFault fault) {
        SQLException failure = Failures.stream(fault);
        conversation.close();
        whenBroken.accept(failure);
        return failure;
    }

    static void writeCommit(CommandWriter chain) {
        chain.end(chain.request(CodePoint.RDBCMM));
    }

    static void writeRollback(CommandWriter chain) {
        chain.end(chain.request(CodePoint.RDBRLLBCK));
    }
}
