package pcommit.xa;

import java.sql.Connection;
import java.time.Duration;
import java.util.concurrent.TimeUnit;
import java.util.function.Consumer;
import javax.transaction.HeuristicMixedException;
import javax.transaction.HeuristicRollbackException;
import javax.transaction.NotSupportedException;
import javax.transaction.RollbackException;
import javax.transaction.Status;
import javax.transaction.SystemException;
import javax.transaction.Transaction;
import javax.transaction.TransactionManager;
import javax.transaction.UserTransaction;
import javax.transaction.xa.XAResource;
import pcommit.client.Cluster;

/**
 * A transaction manager whose decisions are those of a cluster of pcommit. It keeps no log: when its process is killed, at any moment, the
 * resolvers beside the resources end what it left. For any number of threads; each has at most one transaction at a time.
 */
public final class PaxosTransactionManager implements TransactionManager, UserTransaction, AutoCloseable {
    /** How long a resource is waited for, where nothing else is said. */
    public static final Duration PATIENCE = Duration.ofSeconds(10);
    private static final int DEFAULT_TIMEOUT = 60;

    private final Cluster cluster;
    private final Names names;
    private final ParallelCalls calls;
    private final FinishedRows finished = new FinishedRows();
    private final ResourceManagers managers = new ResourceManagers();
    private final ThreadLocal<PaxosTransaction> current = new ThreadLocal<>();
    private final ThreadLocal<Integer> timeout = ThreadLocal.withInitial(() -> DEFAULT_TIMEOUT);
    private volatile Consumer<CommitStep> listener = step -> { };

    /**
     * A manager over a cluster.
     *
     * @param cluster the cluster that decides; it isn't closed with the manager
     */
    public PaxosTransactionManager(final Cluster cluster) {
        this(cluster, PATIENCE);
    }

    /**
     * A manager over a cluster.
     *
     * @param cluster  the cluster that decides; it isn't closed with the manager
     * @param patience how long a resource is waited for in a commit. One that doesn't answer to prepare in time is rolled back
     */
    public PaxosTransactionManager(final Cluster cluster, final Duration patience) {
        this.cluster = cluster;
        names = new Names(cluster.file().digest());
        calls = new ParallelCalls(patience);
    }

    /**
     * Registers a resource manager of the cluster, whose resources are verified when they say that they have prepared.
     *
     * @param name   the application's name for it, 1 to 64 letters
     * @param number its number in the cluster, as 0 for {@code r0}
     * @throws IllegalArgumentException where the name or the number is registered already, or the cluster has no such manager
     */
    public void register(final String name, final int number) {
        register(name, number, PrepareAnswer.VERIFIED);
    }

    /**
     * Registers a resource manager of the cluster.
     *
     * @param name   the application's name for it, 1 to 64 letters
     * @param number its number in the cluster, as 0 for {@code r0}
     * @param answer whether its resources are believed when they say that they have prepared
     * @throws IllegalArgumentException where the name or the number is registered already, or the cluster has no such manager
     */
    public void register(final String name, final int number, final PrepareAnswer answer) {
        managers.register(cluster.file(), new ResourceManager(name, number, answer));
    }

    /**
     * Says whose a driver's resource is, so that it can be enlisted.
     *
     * @param name     a registered name
     * @param resource the driver's
     * @return the resource for {@code enlistResource}
     * @throws IllegalArgumentException where the name isn't registered
     */
    public XAResource resource(final String name, final XAResource resource) {
        if (managers.find(name) == null) {
            throw new IllegalArgumentException("no resource manager is registered as " + name);
        }
        return new NamedResource(name, resource);
    }

    /**
     * Enlists a driver's resource in this thread's transaction.
     *
     * @param name     a registered name
     * @param resource the driver's
     * @throws RollbackException        where the transaction can only be rolled back
     * @throws SystemException          where the resource can't be enlisted; the transaction can only be rolled back then
     * @throws IllegalStateException    where the thread has no transaction
     * @throws IllegalArgumentException where the name isn't registered
     */
    public void enlist(final String name, final XAResource resource) throws RollbackException, SystemException {
        mine().enlistResource(resource(name, resource));
    }

    /**
     * A connection of which every SQLException has this thread's transaction roll back, even where the application catches it.
     *
     * @param connection a driver's
     * @return the same connection, watched
     */
    public Connection watch(final Connection connection) {
        return WatchedSql.watch(connection, Connection.class, error -> {
            final PaxosTransaction transaction = current.get();
            if (transaction != null) {
                transaction.rollbackOnly("a statement failed: " + XaErrors.text(error), error);
            }
        });
    }

    /**
     * Has an object called at each step of the commit of each transaction that begins from now on, by the thread that commits.
     *
     * @param called it is to return soon. Where it throws before a leader is asked, the transaction is rolled back; later that is only said
     */
    public void onStep(final Consumer<CommitStep> called) {
        listener = called;
    }

    /**
     * Begins a transaction, for this thread.
     *
     * @throws NotSupportedException where the thread has one already: they aren't nested
     */
    @Override
    public void begin() throws NotSupportedException {
        final PaxosTransaction before = current.get();
        // one that was ended by its own methods is no more this thread's
        if (before != null && before.hasBegun()) {
            throw new NotSupportedException("this thread has a transaction already");
        }
        final Coordination with = new Coordination(cluster, names, calls, finished, listener);
        current.set(new PaxosTransaction(with, managers, TimeUnit.SECONDS.toNanos(timeout.get())));
    }

    /**
     * Commits this thread's transaction; the thread has none afterwards, whatever is thrown. What is to be called before its completion
     * still has it.
     *
     * @throws RollbackException          where nothing of it will ever be seen: it can be tried again
     * @throws OutcomeUnknownException    where nobody knows: it may be committed now or later, or rolled back
     * @throws HeuristicMixedException    where a resource did otherwise than the outcome by itself
     * @throws HeuristicRollbackException where it is committed, and all resources rolled back by themselves
     * @throws SystemException            of no other kind than the above
     * @throws IllegalStateException      where the thread has no transaction, or it has ended, or is being ended
     */
    @Override
    public void commit() throws RollbackException, HeuristicMixedException, HeuristicRollbackException, SystemException {
        final PaxosTransaction transaction = mine();
        try {
            transaction.beforeCommit();
        } finally {
            current.remove();
        }
        transaction.complete();
    }

    /**
     * Rolls this thread's transaction back; the thread has none afterwards.
     *
     * @throws SystemException       where a resource committed by itself what is rolled back
     * @throws IllegalStateException where the thread has no transaction, or it has ended, or is being ended
     */
    @Override
    public void rollback() throws SystemException {
        final PaxosTransaction transaction = mine();
        current.remove();
        transaction.rollback();
    }

    /**
     * From now on this thread's transaction can only be rolled back.
     *
     * @throws IllegalStateException where the thread has no transaction
     */
    @Override
    public void setRollbackOnly() {
        mine().setRollbackOnly();
    }

    /**
     * Where this thread's transaction stands.
     *
     * @return one of {@link Status}
     */
    @Override
    public int getStatus() {
        final PaxosTransaction transaction = current.get();
        return transaction == null ? Status.STATUS_NO_TRANSACTION : transaction.getStatus();
    }

    /**
     * This thread's transaction.
     *
     * @return it, or null where there is none
     */
    @Override
    public Transaction getTransaction() {
        return current.get();
    }

    /**
     * For how long this thread's next transactions may last. One whose time is over is rolled back when it would be committed.
     *
     * @param seconds how many; 0 for 60
     * @throws SystemException where the number is negative
     */
    @Override
    public void setTransactionTimeout(final int seconds) throws SystemException {
        if (seconds < 0) {
            throw new SystemException("a time isn't negative: " + seconds);
        }
        timeout.set(seconds == 0 ? DEFAULT_TIMEOUT : seconds);
    }

    /**
     * Isn't covered.
     *
     * @return never
     * @throws SystemException always
     */
    @Override
    public Transaction suspend() throws SystemException {
        throw new SystemException("a transaction can't be suspended: that isn't covered");
    }

    /**
     * Isn't covered.
     *
     * @throws SystemException always
     */
    @Override
    public void resume(final Transaction transaction) throws SystemException {
        throw new SystemException("a transaction can't be resumed: that isn't covered");
    }

    private PaxosTransaction mine() {
        final PaxosTransaction transaction = current.get();
        if (transaction == null) {
            throw new IllegalStateException("this thread has no transaction");
        }
        return transaction;
    }

    /** Ends its threads. Transactions that are under way come to their end; from now on their resources are called one after another. */
    @Override
    public void close() {
        calls.close();
    }
}
