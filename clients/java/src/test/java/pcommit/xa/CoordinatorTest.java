package pcommit.xa;

import static org.junit.jupiter.api.Assertions.assertDoesNotThrow;
import static org.junit.jupiter.api.Assertions.assertEquals;
import static org.junit.jupiter.api.Assertions.assertFalse;
import static org.junit.jupiter.api.Assertions.assertThrows;
import static org.junit.jupiter.api.Assertions.assertTrue;

import java.nio.charset.StandardCharsets;
import java.sql.Connection;
import java.sql.DriverManager;
import java.sql.SQLException;
import java.util.ArrayList;
import java.util.Arrays;
import java.util.List;
import java.util.concurrent.CountDownLatch;
import java.util.stream.Stream;
import javax.transaction.HeuristicMixedException;
import javax.transaction.HeuristicRollbackException;
import javax.transaction.RollbackException;
import javax.transaction.Status;
import javax.transaction.Synchronization;
import javax.transaction.SystemException;
import javax.transaction.xa.XAException;
import javax.transaction.xa.XAResource;
import org.junit.jupiter.api.Test;
import org.junit.jupiter.params.ParameterizedTest;
import org.junit.jupiter.params.provider.Arguments;
import org.junit.jupiter.params.provider.MethodSource;
import org.junit.jupiter.params.provider.ValueSource;
import pcommit.client.NodeName;
import pcommit.xa.ScriptedResource.Call;

/** The coordinator's order and its answers, with resources that fail as each test has them, against a double of the nodes. */
final class CoordinatorTest extends TwoResources {
    @Test
    void theOrderIsTheSafety() throws Exception {
        final List<String> steps = new ArrayList<>();
        manager.onStep(step -> steps.add(step + ": " + count("PREPARE first") + count("PREPARE second") + " prepared, " + asked("end ")
                + " said, "
                + asked("commit ") + " asked, " + (count("COMMIT first") + count("COMMIT second")) + " told"));
        beginBoth();
        assertEquals(Status.STATUS_ACTIVE, manager.getStatus());
        manager.commit();
        assertEquals(List.of("PREPARED: 11 prepared, 0 said, 0 asked, 0 told", "SAID: 11 prepared, 2 said, 0 asked, 0 told",
                "DECIDED: 11 prepared, 2 said, 1 asked, 0 told", "TOLD: 11 prepared, 2 said, 1 asked, 2 told"), steps);
        assertEquals(List.of("START first", "START second"), log.subList(0, 2));
        assertEquals(Status.STATUS_NO_TRANSACTION, manager.getStatus());
    }

    @Test
    void aReadOnlyResourceTakesNoPart() throws Exception {
        second.answering(XAResource.XA_RDONLY);
        beginBoth();
        manager.commit();
        assertEquals(1, count("COMMIT first"));
        assertEquals(0, count("COMMIT second"));
        assertEquals(0, asked("start r1"));
    }

    @Test
    void nothingIsAskedWhereAllOnlyRead() throws Exception {
        first.answering(XAResource.XA_RDONLY);
        second.answering(XAResource.XA_RDONLY);
        beginBoth();
        manager.commit();
        assertEquals(List.of(), nodes.lines());
    }

    @Test
    void oneResourceCommitsInOnePhase() throws Exception {
        manager.begin();
        manager.enlist("one", first);
        manager.commit();
        assertEquals(List.of("START first", "END first", "COMMIT first in one phase"), log);
        assertEquals(List.of(), nodes.lines());
    }

    @Test
    void oneResourceThatFailsInItsOnlyPhaseIsUnknown() throws Exception {
        first.on(Call.COMMIT, () -> {
            throw ScriptedResource.error(XAException.XAER_RMFAIL);
        });
        manager.begin();
        manager.enlist("one", first);
        assertThrows(OutcomeUnknownException.class, manager::commit);
    }

    @Test
    void oneResourceThatRolledBack() throws Exception {
        first.on(Call.COMMIT, () -> {
            throw ScriptedResource.error(XAException.XA_RBDEADLOCK);
        });
        manager.begin();
        manager.enlist("one", first);
        assertThrows(RollbackException.class, manager::commit);
    }

    @Test
    void noResourceCommits() throws Exception {
        manager.begin();
        manager.commit();
        assertEquals(List.of(), nodes.lines());
    }

    /** Before the outcome is known: each call that fails, and how. */
    static Stream<Arguments> failures() {
        return Stream.of(Call.END, Call.PREPARE).flatMap(call -> Stream.of(0, XAException.XAER_RMERR, XAException.XAER_RMFAIL,
                XAException.XAER_NOTA,
                XAException.XAER_PROTO, XAException.XA_RBROLLBACK, XAException.XA_HEURCOM).map(code -> Arguments.of(call, code)));
    }

    @ParameterizedTest
    @MethodSource("failures")
    void anyExceptionBeforeTheOutcomeIsAFailure(final Call call, final int code) throws Exception {
        second.on(call, () -> {
            throw ScriptedResource.error(code);
        });
        beginBoth();
        assertThrows(RollbackException.class, manager::commit);
        assertNothingIsCommitted();
        assertEquals(0, asked("commit"));
        assertEquals(1, count("ROLLBACK first"));
    }

    @ParameterizedTest
    @ValueSource(strings = {"START", "END", "PREPARE", "COMMIT", "ROLLBACK", "RECOVER", "FORGET"})
    void aResourceThatThrowsWhateverFromEachMethod(final Call call) throws Exception {
        final boolean isCommitted = call == Call.COMMIT || call == Call.ROLLBACK || call == Call.FORGET;
        first.on(call, () -> {
            throw new IllegalStateException("a driver's fault");
        });
        manager.begin();
        manager.enlist("two", second);
        if (call == Call.START) {
            assertThrows(SystemException.class, () -> manager.enlist("one", first));
            assertEquals(Status.STATUS_MARKED_ROLLBACK, manager.getStatus());
        } else {
            manager.enlist("one", first);
        }
        if (isCommitted) {
            manager.commit();
            assertEquals(1, count("COMMIT second"));
        } else {
            assertThrows(RollbackException.class, manager::commit);
            assertEquals(0, count("COMMIT first") + count("COMMIT second"));
            assertEquals(1, count("ROLLBACK second"));
        }
        assertEquals(Status.STATUS_NO_TRANSACTION, manager.getStatus());
    }

    @Test
    void aYesThatRecoverDoesNotListIsNone() throws Exception {
        first.answering(XAResource.XA_OK).on(Call.RECOVER, () -> first.prepared().forEach(first::lose));
        beginBoth();
        final var error = assertThrows(RollbackException.class, manager::commit);
        assertTrue(error.getMessage().contains("a statement has failed"), error.getMessage());
        assertNothingIsCommitted();
    }

    @Test
    void anAnswerToPrepareThatMeansNothingIsNone() throws Exception {
        second.answering(17);
        beginBoth();
        assertThrows(RollbackException.class, manager::commit);
        assertNothingIsCommitted();
    }

    @Test
    void aPrepareThatIsNotAnsweredRollsBack() throws Exception {
        final CountDownLatch late = new CountDownLatch(1);
        first.on(Call.PREPARE, () -> await(late));
        beginBoth();
        final long begun = System.nanoTime();
        assertThrows(RollbackException.class, manager::commit);
        assertTrue(System.nanoTime() - begun < 3 * PATIENCE.toNanos());
        assertEquals(0, count("ROLLBACK first"), "a resource that hangs isn't called");
        assertEquals(1, count("ROLLBACK second"));
        late.countDown();
        await("ROLLBACK first");
        assertNothingIsCommitted();
    }

    @ParameterizedTest
    @ValueSource(ints = {0, XAException.XAER_RMFAIL, XAException.XAER_RMERR, XAException.XAER_NOTA, XAException.XA_RETRY})
    void aResourceThatFailsToCommitIsLeftToItsResolver(final int code) throws Exception {
        first.on(Call.COMMIT, () -> {
            throw ScriptedResource.error(code);
        });
        beginBoth();
        manager.commit();
        assertEquals(1, count("COMMIT second"));
        assertEquals(1, first.prepared().size(), "it is prepared all the same");
        assertEquals(0, count("FORGET first"));
    }

    @Test
    void aResourceThatHangsInCommitIsLeftToItsResolver() throws Exception {
        final CountDownLatch late = new CountDownLatch(1);
        first.on(Call.COMMIT, () -> await(late));
        beginBoth();
        final long begun = System.nanoTime();
        manager.commit();
        assertTrue(System.nanoTime() - begun < 3 * PATIENCE.toNanos());
        late.countDown();
    }

    @Test
    void heuristicsAreToldAndNotForgotten() throws Exception {
        final int[] codes = {XAException.XA_HEURRB, XAException.XA_HEURMIX, XAException.XA_HEURHAZ};
        for (final int code : codes) {
            first.on(Call.COMMIT, () -> {
                throw ScriptedResource.error(code);
            });
            beginBoth();
            assertThrows(HeuristicMixedException.class, manager::commit);
        }
        second.on(Call.COMMIT, () -> {
            throw ScriptedResource.error(XAException.XA_HEURRB);
        });
        first.on(Call.COMMIT, () -> {
            throw ScriptedResource.error(XAException.XA_HEURRB);
        });
        beginBoth();
        assertThrows(HeuristicRollbackException.class, manager::commit);
        assertEquals(0, count("FORGET first") + count("FORGET second"));
    }

    @Test
    void aHeuristicCommitOfACommittedOneIsNoFault() throws Exception {
        first.on(Call.COMMIT, () -> {
            throw ScriptedResource.error(XAException.XA_HEURCOM);
        });
        beginBoth();
        manager.commit();
        assertEquals(0, count("FORGET first"));
    }

    @Test
    void aHeuristicCommitOfARolledBackOne() throws Exception {
        first.on(Call.ROLLBACK, () -> {
            throw ScriptedResource.error(XAException.XA_HEURCOM);
        });
        second.on(Call.PREPARE, () -> {
            throw ScriptedResource.error(XAException.XAER_RMERR);
        });
        beginBoth();
        final var transaction = manager.getTransaction();
        assertThrows(HeuristicMixedException.class, manager::commit);
        assertEquals(Status.STATUS_ROLLEDBACK, transaction.getStatus());
    }

    @Test
    void isSameRmIsNeverAsked() throws Exception {
        beginBoth();
        manager.commit();
        assertEquals(0, log.stream().filter(line -> line.startsWith("IS_SAME_RM")).count());
    }

    @Test
    void silentLeadersAreUnknownAndNothingIsTold() throws Exception {
        nodes.silence(NodeName.leader(0), true);
        nodes.silence(NodeName.leader(1), true);
        beginBoth();
        final var transaction = manager.getTransaction();
        assertThrows(OutcomeUnknownException.class, manager::commit);
        assertEquals(Status.STATUS_UNKNOWN, transaction.getStatus());
        assertEquals(1, first.prepared().size() * second.prepared().size(), "both are left prepared");
        assertEquals(0, count("COMMIT first") + count("ROLLBACK first"));
    }

    @Test
    void noLeaderThatCanBeReachedRollsBack() throws Exception {
        nodes.kill(NodeName.leader(0));
        nodes.kill(NodeName.leader(1));
        beginBoth();
        assertThrows(RollbackException.class, manager::commit);
        assertNothingIsCommitted();
    }

    @Test
    void aManagerThatIsGoneRollsBack() throws Exception {
        nodes.kill(NodeName.resourceManager(1));
        beginBoth();
        assertThrows(RollbackException.class, manager::commit);
        assertNothingIsCommitted();
        assertEquals(0, asked("commit"));
    }

    @Test
    void aManagerThatIsSilentRollsBack() throws Exception {
        nodes.silence(NodeName.resourceManager(1), true);
        beginBoth();
        assertThrows(RollbackException.class, manager::commit);
        assertNothingIsCommitted();
        assertEquals(0, asked("commit"));
    }

    @Test
    void aBranchWhoseNameIsSpentRollsBack() throws Exception {
        final Names names = new Names(cluster.file().digest());
        manager.onStep(step -> {
            if (step == CommitStep.PREPARED) {
                assertDoesHurry(names, (PaxosXid) first.prepared().get(0));
            }
        });
        beginBoth();
        assertThrows(RollbackException.class, manager::commit);
        assertNothingIsCommitted();
    }

    private void assertDoesHurry(final Names names, final PaxosXid xid) {
        assertDoesNotThrow(
                () -> cluster.hurry(names.transaction(xid.getGlobalTransactionId(), List.of(0))));
    }

    @Test
    void aClusterThatAbortsRollsBack() throws Exception {
        final Names names = new Names(cluster.file().digest());
        manager.onStep(step -> {
            if (step == CommitStep.SAID) {
                assertDoesHurry(names, (PaxosXid) first.prepared().get(0));
            }
        });
        beginBoth();
        assertThrows(RollbackException.class, manager::commit);
        assertNothingIsCommitted();
    }

    @Test
    void rowsOfFinishedTransactionsAreDeleted() throws Exception {
        for (int turn = 0; turn < 5; turn++) {
            beginBoth();
            manager.commit();
        }
        assertEquals(1, cluster.table(0).size());
        assertEquals("0,1", new String(cluster.table(1).values().iterator().next(), StandardCharsets.US_ASCII));
    }

    @Test
    void rowsOfFinishedTransactionsAreDeletedByALaterOneWhereOneIsAborted() throws Exception {
        beginBoth();
        manager.commit();
        nodes.kill(NodeName.resourceManager(1));
        beginBoth();
        assertThrows(RollbackException.class, manager::commit);
        nodes.start(NodeName.resourceManager(1));
        beginBoth();
        manager.commit();
        assertEquals(1, cluster.table(0).size());
        assertEquals(1, cluster.table(1).size());
    }

    @Test
    void rowsOfUnfinishedOnesStay() throws Exception {
        first.on(Call.COMMIT, () -> {
            throw ScriptedResource.error(XAException.XAER_RMFAIL);
        });
        for (int turn = 0; turn < 3; turn++) {
            beginBoth();
            manager.commit();
        }
        assertEquals(3, cluster.table(1).size());
    }

    @Test
    void theApplicationRollsBack() throws Exception {
        beginBoth();
        manager.rollback();
        assertNothingIsCommitted();
        assertEquals(List.of("END first failed", "ROLLBACK first"), log.stream().filter(line -> line.contains("first")).skip(1).toList());
    }

    @Test
    void setToRollBackOnly() throws Exception {
        beginBoth();
        manager.setRollbackOnly();
        assertEquals(Status.STATUS_MARKED_ROLLBACK, manager.getStatus());
        assertThrows(RollbackException.class, () -> manager.enlist("one", first));
        assertThrows(RollbackException.class, manager::commit);
        assertEquals(0, count("PREPARE first"));
        assertNothingIsCommitted();
    }

    @Test
    void aTimeThatIsOverRollsBack() throws Exception {
        manager.setTransactionTimeout(1);
        beginBoth();
        Thread.sleep(1100);
        assertEquals(Status.STATUS_MARKED_ROLLBACK, manager.getStatus());
        final var error = assertThrows(RollbackException.class, manager::commit);
        assertEquals("its time is over", error.getMessage());
        assertNothingIsCommitted();
        assertThrows(SystemException.class, () -> manager.setTransactionTimeout(-1));
    }

    /** Notes its calls. */
    private final class Noted implements Synchronization {
        private final RuntimeException fault;

        Noted(final RuntimeException fault) {
            this.fault = fault;
        }

        @Override
        public void beforeCompletion() {
            log.add("BEFORE");
            if (fault != null) {
                throw fault;
            }
        }

        @Override
        public void afterCompletion(final int status) {
            log.add("AFTER " + status);
            throw new IllegalStateException("is only said");
        }
    }

    @Test
    void synchronizationsAreCalledBeforeAndAfter() throws Exception {
        beginBoth();
        manager.getTransaction().registerSynchronization(new Noted(null));
        manager.commit();
        assertEquals("BEFORE", log.get(2));
        assertEquals("AFTER " + Status.STATUS_COMMITTED, log.get(log.size() - 1));
    }

    @Test
    void aSynchronizationThatFailsRollsBack() throws Exception {
        beginBoth();
        manager.getTransaction().registerSynchronization(new Noted(new IllegalArgumentException("no")));
        assertThrows(RollbackException.class, manager::commit);
        assertEquals("AFTER " + Status.STATUS_ROLLEDBACK, log.get(log.size() - 1));
        assertNothingIsCommitted();
    }

    @Test
    void aRollbackCallsOnlyAfter() throws Exception {
        beginBoth();
        manager.getTransaction().registerSynchronization(new Noted(null));
        manager.rollback();
        assertFalse(log.contains("BEFORE"));
        assertEquals("AFTER " + Status.STATUS_ROLLEDBACK, log.get(log.size() - 1));
    }

    @Test
    void aStatementThatFailsOnAWatchedConnectionRollsBack() throws Exception {
        final Connection connection = manager.watch(new FailingConnection().connection());
        beginBoth();
        assertThrows(SQLException.class, () -> connection.prepareStatement("x").executeUpdate());
        assertEquals(Status.STATUS_MARKED_ROLLBACK, manager.getStatus());
        assertThrows(RollbackException.class, manager::commit);
        assertNothingIsCommitted();
        assertThrows(SQLException.class, () -> DriverManager.getConnection("jdbc:none:"));
    }

    @Test
    void namesGrowAndDiffer() {
        final Names names = new Names(cluster.file().digest());
        byte[] before = names.newGtrid();
        for (int turn = 0; turn < 100_000; turn++) {
            final byte[] next = names.newGtrid();
            assertTrue(Arrays.compareUnsigned(before, next) < 0);
            before = next;
        }
    }
}
