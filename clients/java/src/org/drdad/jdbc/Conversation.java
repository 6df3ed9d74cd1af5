package org.drdad.jdbc;

import java.io.IOException;
import java.nio.charset.Charset;
import java.nio.charset.StandardCharsets;
import java.sql.SQLException;

/** A conversation with a server: the database is opened, and chains of commands are exchanged. */
final class Conversation {
    private static final int LEVEL = 7, UTF_8 = 1208, USER_AND_PASSWORD = 3;
    private static final int[] LEVELS = {
        CodePoint.AGENT, LEVEL, CodePoint.SQLAM, LEVEL, CodePoint.RDB, LEVEL, CodePoint.SECMGR, LEVEL, CodePoint.XAMGR, LEVEL,
        CodePoint.UNICODEMGR, UTF_8,
    };
    private static final Charset ASCII = StandardCharsets.US_ASCII;
    private static final byte[] TYPES_OF_DATA = "QTDSQLASC".getBytes(ASCII);
    /** What PRDID begins with: the numbers of SYNCTYPE are of this product alone, and another one rolls back where it commits. */
    private static final String PRODUCT = "RDA01";

    private final Link link;
    private final CommandWriter chain = new CommandWriter();
    private final String product;

    Conversation(Settings settings) throws SQLException {
        settings.check();
        try {
            link = new Link(settings.host, settings.port, settings.connectTimeout);
        } catch (IOException fault) {
            throw Failures.opening(settings.address(), fault);
        }
        boolean isOpen = false;
        try {
            greet(settings);
            product = open(settings);
            isOpen = true;
        } catch (WireFault fault) {
            throw Failures.stream(fault);
        } finally {
            chain.wipe();
            if (!isOpen) {
                link.close();
            }
        }
    }

    /** EXCSAT and ACCSEC in one chain. */
    private void greet(Settings settings) throws SQLException, WireFault {
        int at = chain.request(CodePoint.EXCSAT);
        int levels = chain.open(CodePoint.MGRLVLLS);
        for (int level : LEVELS) {
            chain.u2(level);
        }
        chain.close(levels);
        chain.end(at);
        at = chain.request(CodePoint.ACCSEC);
        writeMechanism();
        chain.end(at);
        Reply[] replies;
        try {
            replies = link.exchange(chain, Math.max(settings.connectTimeout, settings.socketTimeout));
        } catch (WireFault fault) {
            throw fault;
        } catch (IOException fault) {
            throw Failures.opening(settings.address(), fault);
        }
        check(replies);
        if (replies[0].attributes == null || !agreesOnUtf8(DdmObjects.find(replies[0].attributes, CodePoint.MGRLVLLS))) {
            throw new WireFault("it does not agree on names in UTF-8");
        }
    }

    private static boolean agreesOnUtf8(Bytes levels) throws WireFault {
        for (int at = 0; at < levels.size(); at += 4) {
            if (levels.u2(at) == CodePoint.UNICODEMGR) {
                return levels.u2(at + 2) == UTF_8;
            }
        }
        return false;
    }

    private void writeMechanism() {
        int at = chain.open(CodePoint.SECMEC);
        chain.u2(USER_AND_PASSWORD);
        chain.close(at);
    }

    /** SECCHK and ACCRDB in one chain, whose end is not done where the user is refused. Gives the product's number. */
    private String open(Settings settings) throws SQLException, WireFault {
        begin();
        int at = chain.request(CodePoint.SECCHK);
        writeMechanism();
        chain.object(CodePoint.USRID, settings.user.getBytes(StandardCharsets.UTF_8));
        chain.object(CodePoint.PASSWORD, settings.password.getBytes(StandardCharsets.UTF_8));
        chain.end(at);
        at = chain.request(CodePoint.ACCRDB);
        String blanks = " ".repeat(Settings.MOST_OF_NAME - settings.database.length());
        chain.object(CodePoint.RDBNAM, (settings.database + blanks).getBytes(ASCII));
        chain.object(CodePoint.TYPDEFNAM, TYPES_OF_DATA);
        chain.end(at);
        Reply[] replies = exchange(settings.socketTimeout);
        check(replies);
        if (replies[1].attributes == null) {
            throw new WireFault("ACCRDBRM is missing");
        }
        Bytes product = DdmObjects.find(replies[1].attributes, CodePoint.PRDID);
        String said = product.text(0, product.size(), ASCII);
        if (!said.startsWith(PRODUCT)) {
            throw new SQLException("the server is no drdad: its PRDID is " + said, Failures.REFUSED);
        }
        return said;
    }

    /** The product's number as ACCRDBRM told it: RDA, and three times two digits. */
    String product() {
        return product;
    }

    boolean isClosed() {
        return link.isClosed();
    }

    void close() {
        link.close();
    }

    /** Begins a chain anew. */
    CommandWriter begin() {
        chain.reset();
        return chain;
    }

    /** The chain under way. */
    CommandWriter chain() {
        return chain;
    }

    /** Sends the chain, and gives what answers each command. The server may be silent for so many milliseconds. */
    Reply[] exchange(int silence) throws SQLException {
        if (link.isClosed()) {
            throw Failures.closed("the connection");
        }
        try {
            return link.exchange(chain, silence);
        } catch (IOException fault) {
            throw Failures.stream(fault);
        }
    }

    /** Sends the chain; what answers its one command is received before another one is begun. */
    void send(int silence) throws SQLException {
        try {
            link.send(chain, silence);
        } catch (IOException fault) {
            throw Failures.stream(fault);
        }
    }

    /** What answers the one command of the chain that was sent. */
    Reply receive() throws SQLException {
        try {
            return link.receive(1)[0];
        } catch (IOException fault) {
            throw Failures.stream(fault);
        }
    }

    /** EXCSAT without levels: it is answered at any stage, and changes nothing, also inside of a branch. */
    void ping(int silence) throws SQLException {
        begin();
        chain.end(chain.request(CodePoint.EXCSAT));
        check(exchange(silence));
    }

    /** Throws the first failure among replies. */
    static void check(Reply[] replies) throws SQLException {
        for (Reply reply : replies) {
            if (reply.hasFailed()) {
                throw Failures.of(reply);
            }
        }
    }
}
