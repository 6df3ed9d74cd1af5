import javax.transaction.xa.XAException;
import javax.transaction.xa.XAResource;
import javax.transaction.xa.Xid;

/** A participant of a transaction that has no data. It does something when it is asked to prepare, or to commit, and may refuse to prepare. */
final class Moment implements XAResource {
    private final boolean refuses;
    private final Runnable action;

    private Moment(boolean refuses, Runnable action) {
        this.refuses = refuses;
        this.action = action;
    }

    /** Acts, and then refuses to prepare. */
    static Moment refusing(Runnable action) {
        return new Moment(true, action);
    }

    /** Acts when the decision to commit has been made, and it is told. */
    static Moment committing(Runnable action) {
        return new Moment(false, action);
    }

    @Override
    public int prepare(Xid xid) throws XAException {
        if (refuses) {
            action.run();
            throw new XAException(XAException.XA_RBROLLBACK);
        }
        return XA_OK;
    }

    @Override
    public void commit(Xid xid, boolean onePhase) {
        action.run();
    }

    @Override
    public void start(Xid xid, int flags) { }

    @Override
    public void end(Xid xid, int flags) { }

    @Override
    public void rollback(Xid xid) { }

    @Override
    public void forget(Xid xid) { }

    @Override
    public Xid[] recover(int flag) {
        return new Xid[0];
    }

    @Override
    public boolean isSameRM(XAResource other) {
        return other == this;
    }

    @Override
    public int getTransactionTimeout() {
        return 0;
    }

    @Override
    public boolean setTransactionTimeout(int seconds) {
        return false;
    }
}
