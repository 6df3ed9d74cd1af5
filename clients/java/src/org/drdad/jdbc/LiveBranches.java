package org.drdad.jdbc;

import java.nio.ByteBuffer;
import java.util.Map;
import java.util.concurrent.ConcurrentHashMap;

/**
 * The branches that sessions of this process have started at a server and not seen the end of, with the session that was the
 * last to start or end each: it may keep back a call that others have to see done.
 */
final class LiveBranches {
    private static final Map<String, LiveBranches> OF_SERVERS = new ConcurrentHashMap<>();

    private final Map<ByteBuffer, Session> holders = new ConcurrentHashMap<>();

    private LiveBranches() {
    }

    static LiveBranches of(Settings settings) {
        return OF_SERVERS.computeIfAbsent(settings.address(), address -> new LiveBranches());
    }

    /** Notes that a branch begins; false where it is known here already. */
    boolean begins(ByteBuffer xid, Session session) {
        return holders.putIfAbsent(xid, session) == null;
    }

    /** The session is now the last one that started or ended the branch. */
    void holds(ByteBuffer xid, Session session) {
        holders.put(xid, session);
    }

    void ends(ByteBuffer xid) {
        holders.remove(xid);
    }

    /** The session that holds a branch, or null. */
    Session holder(ByteBuffer xid) {
        return holders.get(xid);
    }

    /** A session is gone, and with it what it kept back. */
    void gone(Session session) {
        holders.values().removeIf(holder -> holder == session);
    }
}
