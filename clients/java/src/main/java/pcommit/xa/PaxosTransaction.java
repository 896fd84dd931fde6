package pcommit.xa;

import java.util.ArrayList;
import java.util.HexFormat;
import java.util.List;
import java.util.concurrent.CopyOnWriteArrayList;
import javax.transaction.HeuristicMixedException;
import javax.transaction.HeuristicRollbackException;
import javax.transaction.RollbackException;
import javax.transaction.Status;
import javax.transaction.Synchronization;
import javax.transaction.SystemException;
import javax.transaction.Transaction;
import javax.transaction.xa.XAException;
import javax.transaction.xa.XAResource;
import pcommit.client.TransactionName;

/**
 * A transaction of a {@link PaxosTransactionManager}. Its work is of one thread at a time. Its methods may be called by any: it is ended
 * once, by whoever asks first, and takes no resource from then on.
 */
public final class PaxosTransaction implements Transaction {
    private final Coordination with;
    private final ResourceManagers managers;
    private final byte[] gtrid;
    private final long deadline;
    // whoever enlists a resource holds its lock, and then that of this object
    private final List<Branch> branches = new ArrayList<>();
    private final List<Synchronization> synchronizations = new CopyOnWriteArrayList<>();
    private boolean isEnding;
    private volatile int status = Status.STATUS_ACTIVE;
    private volatile String rollbackReason = "the application has set it to roll back only";
    private volatile Throwable rollbackCause;

    PaxosTransaction(final Coordination with, final ResourceManagers managers, final long timeoutNanos) {
        this.with = with;
        this.managers = managers;
        gtrid = with.names().newGtrid();
        deadline = System.nanoTime() + timeoutNanos;
    }

    /**
     * Takes a resource into this transaction: its work from now on belongs to it.
     *
     * @param resource one of {@link PaxosTransactionManager#resource}; one that is in already goes on
     * @return true
     * @throws RollbackException     where the transaction can only be rolled back
     * @throws IllegalStateException where it has ended
     * @throws SystemException       where the resource isn't registered, where its resource manager is in already by another resource, or
     *                               where it fails to start; the transaction can only be rolled back then
     */
    @Override
    public boolean enlistResource(final XAResource resource) throws RollbackException, SystemException {
        synchronized (branches) {
            mustBeActive();
            return enlist(resource);
        }
    }

    private boolean enlist(final XAResource resource) throws SystemException {
        if (!(resource instanceof NamedResource named)) {
            throw refuse("a resource that belongs to no registered resource manager: take it from PaxosTransactionManager.resource", null);
        }
        final ResourceManager manager = managers.find(named.name());
        if (manager == null) {
            throw refuse("no resource manager is registered as " + named.name(), null);
        }
        for (final Branch branch : branches) {
            if (branch.manager().number() == manager.number()) {
                return enlistAgain(branch, named);
            }
            if (branch.resource() == named.resource()) {
                throw refuse("the resource of " + branch.manager() + " is enlisted for " + manager + " too", null);
            }
        }
        if (branches.size() == TransactionName.MOST_BRANCHES) {
            throw refuse("a transaction has at most 16 resource managers", null);
        }
        final Branch branch = new Branch(manager, named.resource(), with.names().xid(gtrid, manager.number()));
        start(branch, false);
        branches.add(branch);
        return true;
    }

    private boolean enlistAgain(final Branch branch, final NamedResource named) throws SystemException {
        if (branch.resource() != named.resource()) {
            throw refuse(branch.manager() + " takes part already, by another resource: a transaction has one of each resource manager",
                    null);
        }
        if (branch.state() != Branch.State.ACTIVE) {
            start(branch, true);
        }
        return true;
    }

    private void start(final Branch branch, final boolean isAgain) throws SystemException {
        try {
            branch.start(isAgain);
        } catch (XAException | RuntimeException error) {
            throw refuse(branch + " doesn't start: " + XaErrors.text(error), error);
        }
    }

    private SystemException refuse(final String reason, final Throwable cause) {
        rollbackOnly(reason, cause);
        final SystemException error = new SystemException(reason);
        error.initCause(cause);
        return error;
    }

    /**
     * Ends the work of a resource in this transaction. It needn't be called: a commit ends all work.
     *
     * @param resource an enlisted resource
     * @param flag     TMSUCCESS; or TMFAIL, and then the transaction can only be rolled back
     * @return whether the resource is enlisted
     * @throws IllegalStateException where the transaction has ended
     * @throws SystemException       where the resource fails; the transaction can only be rolled back then. For TMSUSPEND, which isn't
     *                               covered
     */
    @Override
    public boolean delistResource(final XAResource resource, final int flag) throws SystemException {
        synchronized (branches) {
            mustHaveBegun();
            return delist(resource, flag);
        }
    }

    private boolean delist(final XAResource resource, final int flag) throws SystemException {
        if (flag != XAResource.TMSUCCESS && flag != XAResource.TMFAIL) {
            throw new SystemException("a resource can't be suspended: that isn't covered");
        }
        for (final Branch branch : branches) {
            if (resource instanceof NamedResource named && branch.resource() == named.resource()) {
                if (flag == XAResource.TMFAIL) {
                    rollbackOnly("the resource of " + branch.manager() + " was delisted as failed", null);
                }
                end(branch, flag);
                return true;
            }
        }
        return false;
    }

    private void end(final Branch branch, final int flag) throws SystemException {
        try {
            branch.end(flag);
        } catch (XAException | RuntimeException error) {
            throw refuse(branch + " doesn't end: " + XaErrors.text(error), error);
        }
    }

    /**
     * Has an object called before and after the end.
     *
     * @param synchronization called before a commit, by the thread that commits, and after every end
     * @throws RollbackException     where the transaction can only be rolled back
     * @throws IllegalStateException where it has ended
     */
    @Override
    public void registerSynchronization(final Synchronization synchronization) throws RollbackException {
        mustBeActive();
        synchronizations.add(synchronization);
    }

    /**
     * Commits.
     *
     * @throws RollbackException          where nothing of it will ever be seen: it can be tried again
     * @throws OutcomeUnknownException    where nobody knows: it may be committed now or later, or rolled back
     * @throws HeuristicMixedException    where it is committed, and a resource did otherwise by itself
     * @throws HeuristicRollbackException where it is committed, and all resources rolled back by themselves
     * @throws SystemException            of no other kind than the above
     * @throws IllegalStateException      where it has ended, or is being ended
     */
    @Override
    public void commit() throws RollbackException, HeuristicMixedException, HeuristicRollbackException, SystemException {
        beforeCommit();
        complete();
    }

    /** Begins its end, and has called what is to be called before: that may still work in it, and set it to roll back only. */
    void beforeCommit() {
        beginEnding();
        if (!isRollbackOnly()) {
            callBefore();
        }
    }

    /** Commits, if it can, after {@link #beforeCommit}. */
    void complete() throws RollbackException, HeuristicMixedException, HeuristicRollbackException, SystemException {
        final TwoPhaseCommit ending = new TwoPhaseCommit(with, gtrid, branches);
        settle(mayCommit() ? ending.commit() : ending.rollBack(branches, rollbackReason, rollbackCause));
    }

    private synchronized void beginEnding() {
        mustHaveBegun();
        if (isEnding) {
            throw new IllegalStateException("the transaction is being ended already");
        }
        isEnding = true;
    }

    /** From here on nothing is enlisted, and nobody can set it to roll back only. Whether it may commit. */
    private boolean mayCommit() {
        synchronized (branches) {
            synchronized (this) {
                final boolean mayCommit = !isRollbackOnly();
                status = mayCommit ? Status.STATUS_COMMITTING : Status.STATUS_ROLLING_BACK;
                return mayCommit;
            }
        }
    }

    private void callBefore() {
        // one that is called may register another
        for (int place = 0; place < synchronizations.size(); place++) {
            try {
                synchronizations.get(place).beforeCompletion();
            } catch (RuntimeException | Error error) {
                rollbackOnly("before its completion: " + XaErrors.text(error), error);
                Log.warn("%s is rolled back: %s", this, rollbackReason);
                return;
            }
        }
    }

    private void settle(final Ending ending) throws RollbackException, HeuristicMixedException, HeuristicRollbackException,
            SystemException {
        conclude(ending);
        final Throwable cause = ending.cause();
        switch (ending.kind()) {
            case COMMITTED -> { }
            case ROLLED_BACK -> throw caused(new RollbackException(ending.reason()), cause);
            case UNKNOWN -> throw new OutcomeUnknownException(ending.reason(), cause);
            case HEURISTICALLY_ROLLED_BACK -> throw caused(new HeuristicRollbackException(ending.reason()), cause);
            case HEURISTICALLY_MIXED -> throw caused(new HeuristicMixedException(ending.reason()), cause);
        }
    }

    private static <T extends Exception> T caused(final T error, final Throwable cause) {
        error.initCause(cause);
        return error;
    }

    private void conclude(final Ending ending) {
        status = ending.status();
        for (final Synchronization synchronization : synchronizations) {
            try {
                synchronization.afterCompletion(status);
            } catch (RuntimeException | Error error) {
                Log.warn("after the completion of %s: %s", this, XaErrors.text(error));
            }
        }
    }

    /**
     * Rolls back.
     *
     * @throws IllegalStateException where it has ended, or is being ended
     * @throws SystemException       where a resource committed by itself what is rolled back
     */
    @Override
    public void rollback() throws SystemException {
        beginEnding();
        synchronized (branches) {
            status = Status.STATUS_ROLLING_BACK;
        }
        final Ending ending = new TwoPhaseCommit(with, gtrid, branches).rollBack(branches, "", null);
        conclude(ending);
        if (ending.kind() != Ending.Kind.ROLLED_BACK) {
            throw new SystemException(ending.reason());
        }
    }

    /**
     * From now on it can only be rolled back.
     *
     * @throws IllegalStateException where it has ended
     */
    @Override
    public synchronized void setRollbackOnly() {
        mustHaveBegun();
        rollbackOnly("the application has set it to roll back only", null);
    }

    /** From now on it can only be rolled back, for a reason. Nothing where it ends already. */
    synchronized void rollbackOnly(final String reason, final Throwable cause) {
        if (status == Status.STATUS_ACTIVE) {
            rollbackReason = reason;
            rollbackCause = cause;
            status = Status.STATUS_MARKED_ROLLBACK;
        }
    }

    private boolean isRollbackOnly() {
        if (status == Status.STATUS_ACTIVE && System.nanoTime() - deadline > 0) {
            rollbackOnly("its time is over", null);
        }
        return status == Status.STATUS_MARKED_ROLLBACK;
    }

    private void mustBeActive() throws RollbackException {
        mustHaveBegun();
        if (isRollbackOnly()) {
            throw new RollbackException("it can only be rolled back: " + rollbackReason);
        }
    }

    private void mustHaveBegun() {
        if (!hasBegun()) {
            throw new IllegalStateException("the transaction has ended");
        }
    }

    /** Whether it can be worked in, or set to roll back only. */
    boolean hasBegun() {
        final int now = status;
        return now == Status.STATUS_ACTIVE || now == Status.STATUS_MARKED_ROLLBACK;
    }

    /**
     * Where it stands.
     *
     * @return one of {@link Status}; STATUS_UNKNOWN after an {@link OutcomeUnknownException}
     */
    @Override
    public int getStatus() {
        isRollbackOnly();
        return status;
    }

    @Override
    public String toString() {
        return "transaction " + HexFormat.of().formatHex(gtrid);
    }
}
