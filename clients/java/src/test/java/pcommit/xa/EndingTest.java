package pcommit.xa;

import static org.junit.jupiter.api.Assertions.assertDoesNotThrow;
import static org.junit.jupiter.api.Assertions.assertEquals;
import static org.junit.jupiter.api.Assertions.assertThrows;
import static org.junit.jupiter.api.Assertions.assertTrue;

import java.sql.Connection;
import java.sql.SQLException;
import java.util.ArrayList;
import java.util.List;
import java.util.concurrent.Callable;
import java.util.concurrent.CountDownLatch;
import java.util.concurrent.ExecutorService;
import java.util.concurrent.Executors;
import java.util.concurrent.Future;
import java.util.concurrent.atomic.AtomicInteger;
import javax.transaction.RollbackException;
import javax.transaction.Status;
import javax.transaction.Synchronization;
import javax.transaction.SystemException;
import javax.transaction.Transaction;
import javax.transaction.xa.XAException;
import org.junit.jupiter.api.AfterEach;
import org.junit.jupiter.api.Test;
import org.junit.jupiter.params.ParameterizedTest;
import org.junit.jupiter.params.provider.EnumSource;
import pcommit.client.NodeName;
import pcommit.xa.ScriptedResource.Call;

/** A transaction is ended once, whoever asks and whatever breaks meanwhile, and then no resource is left as it was. */
final class EndingTest extends TwoResources {
    private static final int MANY = 20_000;
    private static final int SOME = 1000;
    private final ExecutorService other = Executors.newSingleThreadExecutor();

    @AfterEach
    void stopOther() {
        other.shutdownNow();
    }

    /** What is done before a completion. */
    private interface Deed {
        void run() throws Exception;
    }

    private void before(final Deed deed) throws Exception {
        manager.getTransaction().registerSynchronization(new Synchronization() {
            @Override
            public void beforeCompletion() {
                try {
                    deed.run();
                } catch (RuntimeException error) {
                    throw error;
                } catch (Exception error) {
                    throw new IllegalArgumentException(error);
                }
            }

            @Override
            public void afterCompletion(final int status) {
                log.add("AFTER " + status);
            }
        });
    }

    @Test
    void aCommitWithinACommitRollsBack() throws Exception {
        beginBoth();
        final Transaction transaction = manager.getTransaction();
        before(transaction::commit);
        assertThrows(RollbackException.class, manager::commit);
        assertNothingIsCommitted();
        assertEquals(1, count("ROLLBACK first"));
    }

    @Test
    void aRollbackWithinACommitRollsBackOnce() throws Exception {
        beginBoth();
        before(manager::rollback);
        assertThrows(RollbackException.class, manager::commit);
        assertNothingIsCommitted();
        assertEquals(0, count("PREPARE first"));
        assertEquals(1, count("ROLLBACK first"));
        assertEquals(1, count("AFTER " + Status.STATUS_ROLLEDBACK));
    }

    @Test
    void aStatementThatFailsBeforeTheCompletionIsNoticed() throws Exception {
        final Connection connection = manager.watch(new FailingConnection().connection());
        beginBoth();
        before(() -> assertThrows(SQLException.class, () -> connection.prepareStatement("x").executeUpdate()));
        assertThrows(RollbackException.class, manager::commit);
        assertNothingIsCommitted();
    }

    @Test
    void aResourceThatIsEnlistedBeforeTheCompletionTakesPart() throws Exception {
        manager.begin();
        manager.enlist("one", first);
        before(() -> manager.enlist("two", second));
        manager.commit();
        assertBothAreCommitted();
    }

    @Test
    void afterTheCompletionTheThreadCanBeginAgain() throws Exception {
        manager.begin();
        manager.getTransaction().registerSynchronization(new Synchronization() {
            @Override
            public void beforeCompletion() {
                assertEquals(Status.STATUS_ACTIVE, manager.getStatus());
            }

            @Override
            public void afterCompletion(final int status) {
                assertDoesNotThrow(manager::begin);
            }
        });
        manager.commit();
        assertEquals(Status.STATUS_ACTIVE, manager.getStatus());
        manager.rollback();
    }

    @Test
    void anErrorBeforeTheCompletionRollsBack() throws Exception {
        beginBoth();
        final Error fault = new StackOverflowError();
        before(() -> {
            throw fault;
        });
        assertEquals(fault, assertThrows(RollbackException.class, manager::commit).getCause());
        assertNothingIsCommitted();
        assertEquals(1, count("ROLLBACK first"));
    }

    /** Two threads go on together, as nearly as that can be; one of them a little later, and each time by another while. */
    private static void meet(final AtomicInteger met, final int turn, final int later) {
        met.incrementAndGet();
        while (met.get() < 2 * (turn + 1)) {
            Thread.onSpinWait();
        }
        for (int spin = 0; spin < later; spin++) {
            Thread.onSpinWait();
        }
    }

    /** One that sets it to roll back only, and is answered, isn't overtaken by a commit. */
    @Test
    void rollBackOnlyBesideACommit() throws Exception {
        final AtomicInteger met = new AtomicInteger();
        int commits = 0;
        for (int turn = 0; turn < MANY; turn++) {
            final int own = turn;
            manager.begin();
            final Transaction transaction = manager.getTransaction();
            final Future<Boolean> isSet = other.submit(() -> {
                meet(met, own, own % 32);
                return doesNotEnd(() -> {
                    transaction.setRollbackOnly();
                    return null;
                });
            });
            meet(met, turn, 0);
            boolean isCommitted = true;
            try {
                manager.commit();
                commits++;
            } catch (RollbackException error) {
                isCommitted = false;
            }
            assertEquals(!isCommitted, isSet.get(), "in turn " + turn);
        }
        assertTrue(commits > 0, "it is never committed: nothing is shown");
    }

    /** Whether a call was made, and not refused since the transaction has ended. */
    private static boolean doesNotEnd(final Callable<Void> call) throws Exception {
        try {
            call.call();
            return true;
        } catch (IllegalStateException error) {
            return false;
        }
    }

    @Test
    void twoThatEndItAtOnce() throws Exception {
        final AtomicInteger met = new AtomicInteger();
        int commits = 0;
        for (int turn = 0; turn < SOME; turn++) {
            final int own = turn;
            log.clear();
            beginBoth();
            final Transaction transaction = manager.getTransaction();
            final Future<Boolean> isRolledBack = other.submit(() -> {
                meet(met, own, own % 32);
                return doesNotEnd(() -> {
                    transaction.rollback();
                    return null;
                });
            });
            meet(met, turn, 0);
            final boolean isCommitted = doesNotEnd(() -> {
                manager.commit();
                return null;
            });
            assertEquals(!isCommitted, isRolledBack.get(), "in turn " + turn);
            assertEquals(isCommitted ? 2 : 0, count("COMMIT first") + count("COMMIT second"), log.toString());
            assertEquals(isCommitted ? 0 : 2, count("ROLLBACK first") + count("ROLLBACK second"), log.toString());
            commits += isCommitted ? 1 : 0;
        }
        assertTrue(commits > 0, "it is never committed: nothing is shown");
    }

    @Test
    void aCommitWaitsForAResourceThatIsBeingEnlisted() throws Exception {
        final CountDownLatch late = new CountDownLatch(1);
        second.on(Call.START, () -> await(late));
        manager.begin();
        manager.enlist("one", first);
        final Transaction transaction = manager.getTransaction();
        final Future<Boolean> isIn = other.submit(() -> transaction.enlistResource(manager.resource("two", second)));
        await("START second");
        final Thread releases = new Thread(() -> {
            assertDoesNotThrow(() -> Thread.sleep(100));
            late.countDown();
        });
        releases.start();
        manager.commit();
        assertTrue(isIn.get());
        assertBothAreCommitted();
    }

    @Test
    void aPrepareThatFailsTooLateIsRolledBack() throws Exception {
        final CountDownLatch late = new CountDownLatch(1);
        first.on(Call.PREPARE, () -> {
            await(late);
            throw ScriptedResource.error(XAException.XAER_RMERR);
        });
        beginBoth();
        assertThrows(RollbackException.class, manager::commit);
        assertEquals(0, count("ROLLBACK first"), "a resource that hangs isn't called");
        late.countDown();
        await("ROLLBACK first");
        assertNothingIsCommitted();
    }

    @Test
    void aResourceWhoseEndThrowsIsRolledBackAllTheSame() throws Exception {
        first.on(Call.END, () -> {
            throw new IllegalStateException("a driver's fault");
        });
        beginBoth();
        manager.rollback();
        assertEquals(1, count("ROLLBACK first"));
        assertNothingIsCommitted();
    }

    @Test
    void theOnlyResourceDoesNotEnd() throws Exception {
        first.on(Call.END, () -> {
            throw ScriptedResource.error(XAException.XAER_RMERR);
        });
        manager.begin();
        manager.enlist("one", first);
        assertThrows(RollbackException.class, manager::commit);
        assertEquals(0, count("COMMIT first in one phase"));
        assertEquals(1, count("ROLLBACK first"));
    }

    @Test
    void theOnlyResourceHangsAtItsEnd() throws Exception {
        final CountDownLatch late = new CountDownLatch(1);
        first.on(Call.END, () -> await(late));
        manager.begin();
        manager.enlist("one", first);
        assertThrows(OutcomeUnknownException.class, manager::commit, "it commits, once it goes on");
        late.countDown();
        await("COMMIT first in one phase");
    }

    @ParameterizedTest
    @EnumSource(CommitStep.class)
    void aManagerThatIsClosedMeanwhileEndsItsCommits(final CommitStep closed) throws Exception {
        manager.onStep(step -> {
            if (step == closed) {
                manager.close();
            }
        });
        beginBoth();
        manager.commit();
        assertBothAreCommitted();
    }

    @ParameterizedTest
    @EnumSource(CommitStep.class)
    void aListenerThatThrows(final CommitStep thrown) throws Exception {
        manager.onStep(step -> {
            if (step == thrown) {
                throw new IllegalStateException("a listener's fault");
            }
        });
        beginBoth();
        if (thrown == CommitStep.PREPARED || thrown == CommitStep.SAID) {
            assertThrows(RollbackException.class, manager::commit);
            assertNothingIsCommitted();
            assertEquals(1, count("ROLLBACK second"));
            assertEquals(0, asked("commit"));
        } else {
            manager.commit();
            assertBothAreCommitted();
        }
    }

    @Test
    void anInterruptBeforeALeaderIsAskedRollsBack() throws Exception {
        nodes.silence(NodeName.resourceManager(1), true);
        beginBoth();
        Thread.currentThread().interrupt();
        final long begun = System.nanoTime();
        assertThrows(RollbackException.class, manager::commit);
        assertTrue(System.nanoTime() - begun < PATIENCE.toNanos());
        assertTrue(Thread.interrupted(), "it stays interrupted");
        assertNothingIsCommitted();
    }

    /** The connection on which an answer is still to come isn't the next transaction's. */
    @Test
    void anInterruptWhileALeaderIsAskedIsUnknown() throws Exception {
        final List<CommitStep> steps = new ArrayList<>();
        manager.onStep(step -> {
            steps.add(step);
            if (step == CommitStep.SAID && steps.size() == 2) {
                nodes.silence(NodeName.leader(0), true);
                nodes.silence(NodeName.leader(1), true);
                Thread.currentThread().interrupt();
            }
        });
        beginBoth();
        assertThrows(OutcomeUnknownException.class, manager::commit);
        assertTrue(Thread.interrupted());
        nodes.silence(NodeName.leader(0), false);
        nodes.silence(NodeName.leader(1), false);
        log.clear();
        beginBoth();
        final long begun = System.nanoTime();
        manager.commit();
        assertTrue(System.nanoTime() - begun < PATIENCE.toNanos());
        assertBothAreCommitted();
    }

    @Test
    void twoTransactionsOfOneResourceAreRefused() throws Exception {
        first.on(Call.START, () -> {
            if (count("START first") > 1) {
                throw ScriptedResource.error(XAException.XAER_PROTO);
            }
        });
        beginBoth();
        other.submit(() -> {
            manager.begin();
            assertThrows(SystemException.class, () -> manager.enlist("one", first));
            return assertThrows(RollbackException.class, manager::commit);
        }).get();
        assertEquals(0, count("ROLLBACK first"), "the branch of the other transaction isn't touched");
        manager.commit();
        assertBothAreCommitted();
    }
}
