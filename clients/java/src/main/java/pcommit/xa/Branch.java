package pcommit.xa;

import java.util.Optional;
import javax.transaction.xa.XAException;
import javax.transaction.xa.XAResource;

/** What one transaction does at one resource. Of its methods one is called at a time. */
final class Branch {
    /** Where a branch stands. */
    enum State {
        /** The application works in it. */
        ACTIVE,
        /** It is ended, and can be prepared. */
        ENDED,
        /** It is prepared: from now on it ends as the cluster decides. */
        PREPARED,
        /** It was prepared and had nothing to commit: it takes no part. */
        READ_ONLY,
        /** It is over at the resource, or left to the resolver. */
        OVER
    }

    private final ResourceManager manager;
    private final XAResource resource;
    private final PaxosXid xid;
    private volatile State state = State.ENDED;
    private boolean isAnswered;
    private boolean isAbandoned;

    Branch(final ResourceManager manager, final XAResource resource, final PaxosXid xid) {
        this.manager = manager;
        this.resource = resource;
        this.xid = xid;
    }

    ResourceManager manager() {
        return manager;
    }

    XAResource resource() {
        return resource;
    }

    PaxosXid xid() {
        return xid;
    }

    State state() {
        return state;
    }

    /** Begins the work, or goes on with it where it was ended before. */
    void start(final boolean isAgain) throws XAException {
        resource.start(xid, isAgain ? XAResource.TMJOIN : XAResource.TMNOFLAGS);
        state = State.ACTIVE;
    }

    void end(final int flag) throws XAException {
        if (state == State.ACTIVE) {
            resource.end(xid, flag);
            state = State.ENDED;
        }
    }

    /**
     * Ends the work and prepares it. Whatever it throws, the branch isn't prepared for certain, and is to be rolled back: by itself, where
     * nobody waits for it any more.
     */
    void prepare() throws XAException, NotPreparedException {
        try {
            state = askToPrepare();
        } finally {
            if (isLate()) {
                rollBack();
            }
        }
    }

    private State askToPrepare() throws XAException, NotPreparedException {
        end(XAResource.TMSUCCESS);
        final int answer = resource.prepare(xid);
        if (answer == XAResource.XA_RDONLY) {
            return State.READ_ONLY;
        }
        if (answer != XAResource.XA_OK) {
            throw new NotPreparedException("it answered " + answer + " to prepare");
        }
        if (manager.answer() == PrepareAnswer.VERIFIED && !XaErrors.isListed(resource, xid)) {
            throw new NotPreparedException("it says that it has prepared, and doesn't list the branch: a statement has failed");
        }
        return State.PREPARED;
    }

    /** Its prepare has come to an end. Whether nobody waits for that any more. */
    private synchronized boolean isLate() {
        isAnswered = true;
        return isAbandoned;
    }

    /** Whether its prepare isn't waited for any more: then nobody else calls its resource. */
    synchronized boolean isAbandoned() {
        return isAbandoned;
    }

    /** Nobody waits for its prepare any more, which rolls back once it comes to an end. Whether that is so: else it has ended just now. */
    synchronized boolean abandon() {
        isAbandoned = !isAnswered;
        return isAbandoned;
    }

    /** Commits the only branch. Where it throws and the branch isn't over, its commit wasn't asked for. */
    void commitOnePhase() throws XAException {
        end(XAResource.TMSUCCESS);
        state = State.OVER;
        resource.commit(xid, true);
    }

    /** Ends a prepared branch as the cluster has decided. What it did by itself, if it says so. */
    Optional<Heuristic> commit() throws XAException {
        return finish(() -> resource.commit(xid, false), Optional.of(Heuristic.ROLLED_BACK));
    }

    /** Rolls the work back, wherever it stands. */
    Optional<Heuristic> rollBack() throws XAException {
        if (state == State.READ_ONLY || state == State.OVER) {
            return Optional.empty();
        }
        if (state == State.ACTIVE) {
            try {
                end(XAResource.TMFAIL);
            } catch (XAException | RuntimeException error) {
                // its rollback says what came of it
                Log.debug("%s: end as failed of %s: %s", manager, xid, XaErrors.text(error));
            }
        }
        return finish(() -> resource.rollback(xid), Optional.empty());
    }

    /** The last call of a branch. Nobody knows it any more: that is done only where it isn't listed either. */
    private Optional<Heuristic> finish(final LastCall call, final Optional<Heuristic> whereRolledBack) throws XAException {
        state = State.OVER;
        try {
            call.run();
            return Optional.empty();
        } catch (XAException error) {
            final Optional<Heuristic> heuristic = Heuristic.of(error);
            if (heuristic.isPresent()) {
                return heuristic;
            }
            if (XaErrors.isRolledBack(error)) {
                return whereRolledBack;
            }
            if (XaErrors.isUnknownBranch(error) && !XaErrors.isListed(resource, xid)) {
                return Optional.empty();
            }
            throw error;
        }
    }

    /** A call that ends a branch. */
    private interface LastCall {
        void run() throws XAException;
    }

    @Override
    public String toString() {
        return manager + " " + xid;
    }
}
