package pcommit.xa;

import java.util.Objects;
import javax.transaction.xa.XAException;
import javax.transaction.xa.XAResource;
import javax.transaction.xa.Xid;

/**
 * A resource and whose it is. It can be handed to {@code enlistResource}; all its calls go to the resource.
 *
 * @param name     the name under which its resource manager is registered
 * @param resource the driver's
 */
public record NamedResource(String name, XAResource resource) implements XAResource {
    /**
     * A resource of a resource manager.
     *
     * @param name     the name under which its resource manager is registered
     * @param resource the driver's
     */
    public NamedResource {
        Objects.requireNonNull(name, "name");
        Objects.requireNonNull(resource, "resource");
    }

    @Override
    public void start(final Xid xid, final int flags) throws XAException {
        resource.start(xid, flags);
    }

    @Override
    public void end(final Xid xid, final int flags) throws XAException {
        resource.end(xid, flags);
    }

    @Override
    public int prepare(final Xid xid) throws XAException {
        return resource.prepare(xid);
    }

    @Override
    public void commit(final Xid xid, final boolean isOnePhase) throws XAException {
        resource.commit(xid, isOnePhase);
    }

    @Override
    public void rollback(final Xid xid) throws XAException {
        resource.rollback(xid);
    }

    @Override
    public void forget(final Xid xid) throws XAException {
        resource.forget(xid);
    }

    @Override
    public Xid[] recover(final int flags) throws XAException {
        return resource.recover(flags);
    }

    @Override
    public boolean isSameRM(final XAResource other) throws XAException {
        return resource.isSameRM(other instanceof NamedResource named ? named.resource : other);
    }

    @Override
    public int getTransactionTimeout() throws XAException {
        return resource.getTransactionTimeout();
    }

    @Override
    public boolean setTransactionTimeout(final int seconds) throws XAException {
        return resource.setTransactionTimeout(seconds);
    }
}
