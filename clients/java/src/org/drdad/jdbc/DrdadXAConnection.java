package org.drdad.jdbc;

import javax.sql.XAConnection;
import javax.transaction.xa.XAResource;

/** A pooled connection that works in global units. */
final class DrdadXAConnection extends LentConnection implements XAConnection {
    private final DrdadXAResource resource;

    DrdadXAConnection(Session session) { super(session); resource = new DrdadXAResource(session); }
    @Override public XAResource getXAResource() { return resource; }
}
