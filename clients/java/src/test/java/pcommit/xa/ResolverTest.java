package pcommit.xa;

import static org.junit.jupiter.api.Assertions.assertEquals;
import static org.junit.jupiter.api.Assertions.assertFalse;
import static org.junit.jupiter.api.Assertions.assertThrows;
import static org.junit.jupiter.api.Assertions.assertTrue;

import java.time.Duration;
import java.util.ArrayList;
import java.util.Collections;
import java.util.List;
import java.util.SortedMap;
import java.util.TreeMap;
import java.util.concurrent.atomic.AtomicInteger;
import javax.transaction.xa.XAException;
import javax.transaction.xa.XAResource;
import javax.transaction.xa.Xid;
import org.junit.jupiter.api.BeforeEach;
import org.junit.jupiter.api.Test;
import pcommit.client.BranchName;
import pcommit.client.ClusterException;
import pcommit.client.DoubledCluster;
import pcommit.client.NodeGoneException;
import pcommit.client.NodeName;
import pcommit.client.Outcome;
import pcommit.client.RefusedException;
import pcommit.client.TransactionName;
import pcommit.xa.ScriptedResource.Call;

/** What a resolver does with branches that it finds, against a double of the nodes. */
final class ResolverTest extends DoubledCluster {
    private final List<String> log = Collections.synchronizedList(new ArrayList<>());
    private final ScriptedResource resource = new ScriptedResource("it", log);
    private Names names;
    private PaxosXid xid;

    @BeforeEach
    void prepare() {
        names = new Names(cluster.file().digest());
        xid = names.xid(names.newGtrid(), 0);
        resource.with(xid);
    }

    private Resolver resolver(final Duration grace) {
        return new Resolver(cluster, 0, () -> new ResourceOpener.OpenResource() {
            @Override
            public XAResource resource() {
                return resource;
            }

            @Override
            public void close() {
                log.add("CLOSE");
            }
        }, Duration.ofMillis(100), grace);
    }

    /** Looks until nothing is under way. */
    private void settle(final Resolver resolver) throws XAException, ClusterException {
        for (int turn = 0; turn < 10 && resolver.round(resource); turn++) {
            assertTrue(turn < 9, "it doesn't come to an end: " + log);
        }
    }

    private TransactionName transaction() {
        return transaction(xid);
    }

    private TransactionName transaction(final PaxosXid branch) {
        return names.transaction(branch.getGlobalTransactionId(), List.of(0, 1));
    }

    /** What the application does between the prepares and its question to a leader. */
    private void say() throws ClusterException {
        say(xid);
    }

    private void say(final PaxosXid branch) throws ClusterException {
        final SortedMap<String, byte[]> row = new TreeMap<>();
        row.put(branch.rowKey(), Participants.write(List.of(0, 1)));
        for (final int manager : List.of(0, 1)) {
            cluster.beginBranch(manager, transaction(branch).branch(manager), row, List.of()).await();
        }
    }

    private long count(final String words) {
        return log.stream().filter(words::equals).count();
    }

    @Test
    void commitsWhatIsCommitted() throws Exception {
        say();
        assertEquals(Outcome.COMMITTED, cluster.settle(transaction()));
        settle(resolver(Duration.ZERO));
        assertEquals(1, count("COMMIT it"));
        assertEquals(0, count("ROLLBACK it"));
    }

    @Test
    void rollsBackWhatIsAborted() throws Exception {
        say();
        cluster.hurry(transaction());
        settle(resolver(Duration.ZERO));
        assertEquals(0, count("COMMIT it"));
        assertEquals(1, count("ROLLBACK it"));
    }

    @Test
    void rollsBackWhatWasNeverSaidAndSpendsItsName() throws Exception {
        settle(resolver(Duration.ZERO));
        assertEquals(1, count("ROLLBACK it"));
        assertThrows(RefusedException.class, this::say, "an application that is late is refused");
    }

    @Test
    void rollsBackWhatWasSaidAndNotAsked() throws Exception {
        say();
        settle(resolver(Duration.ZERO));
        assertEquals(1, count("ROLLBACK it"));
        assertEquals(Outcome.ABORTED, cluster.settle(transaction()), "an application that is late is told so");
    }

    @Test
    void leavesABranchToItsApplicationForAWhile() throws Exception {
        final Resolver resolver = resolver(Duration.ofMillis(300));
        for (int turn = 0; turn < 5; turn++) {
            assertTrue(resolver.round(resource));
        }
        assertEquals(List.of(), nodes.lines());
        Thread.sleep(310);
        settle(resolver);
        assertEquals(1, count("ROLLBACK it"));
    }

    @Test
    void nobodyElsesNamesAreTouched() throws Exception {
        settle(resolver(Duration.ZERO));
        log.clear();
        final byte[] gtrid = names.newGtrid();
        final byte[] bqual = names.bqual(0);
        final byte[] digest = cluster.file().digest();
        digest[0]++;
        resource.with(new PaxosXid(new BranchName(PaxosXid.FORMAT + 1, gtrid, bqual)))
                .with(new PaxosXid(new BranchName(PaxosXid.FORMAT, gtrid, names.bqual(1))))
                .with(new PaxosXid(new BranchName(PaxosXid.FORMAT, gtrid, new Names(digest).bqual(0))))
                .with(new PaxosXid(new BranchName(PaxosXid.FORMAT, new byte[] {1}, bqual)))
                .with(new PaxosXid(new BranchName(PaxosXid.FORMAT, new byte[64], bqual)));
        final int asked = nodes.lines().size();
        assertFalse(resolver(Duration.ZERO).round(resource));
        assertEquals(List.of("RECOVER it"), log);
        assertEquals(asked, nodes.lines().size());
        assertEquals(5, resource.prepared().size());
    }

    @Test
    void heuristicsAreReportedOnceAndNotForgotten() throws Exception {
        resource.on(Call.ROLLBACK, () -> {
            throw ScriptedResource.error(XAException.XA_HEURCOM);
        });
        final Resolver resolver = resolver(Duration.ZERO);
        settle(resolver);
        settle(resolver);
        settle(resolver);
        assertEquals(1, count("ROLLBACK it"));
        assertEquals(0, count("FORGET it"));
        assertEquals(1, resource.prepared().size());
    }

    @Test
    void aBranchThatNobodyKnowsAndIsListedIsTriedAgain() throws Exception {
        final AtomicInteger turns = new AtomicInteger(3);
        resource.on(Call.ROLLBACK, () -> {
            if (turns.getAndDecrement() > 0) {
                throw ScriptedResource.error(XAException.XAER_NOTA);
            }
        });
        settle(resolver(Duration.ZERO));
        assertEquals(4, count("ROLLBACK it"));
        assertEquals(List.of(), resource.prepared());
    }

    @Test
    void aBranchThatAnotherEndedMeanwhileIsDone() throws Exception {
        resource.on(Call.ROLLBACK, () -> {
            resource.lose(xid);
            throw ScriptedResource.error(XAException.XAER_NOTA);
        });
        settle(resolver(Duration.ZERO));
        assertEquals(1, count("ROLLBACK it"));
    }

    @Test
    void nothingIsEndedWhereTheManagerIsGone() throws Exception {
        nodes.kill(NodeName.resourceManager(0));
        final Resolver resolver = resolver(Duration.ZERO);
        assertThrows(NodeGoneException.class, () -> resolver.round(resource));
        assertEquals(1, resource.prepared().size());
        nodes.start(NodeName.resourceManager(0));
        settle(resolver);
        assertEquals(List.of(), resource.prepared());
    }

    @Test
    void nothingIsEndedWhereNoLeaderCanBeAsked() throws Exception {
        nodes.kill(NodeName.leader(0));
        nodes.kill(NodeName.leader(1));
        final Resolver resolver = resolver(Duration.ZERO);
        assertThrows(NodeGoneException.class, () -> resolver.round(resource));
        assertEquals(0, count("ROLLBACK it"));
    }

    @Test
    void whatIsKnownIsEndedThoughNoLeaderCanBeAsked() throws Exception {
        final List<Xid> unsaid = new ArrayList<>(List.of(xid));
        for (int turn = 0; turn < 4; turn++) {
            final PaxosXid committed = names.xid(names.newGtrid(), 0);
            say(committed);
            assertEquals(Outcome.COMMITTED, cluster.settle(transaction(committed)));
            final PaxosXid other = names.xid(names.newGtrid(), 0);
            resource.with(committed).with(other);
            unsaid.add(other);
        }
        nodes.kill(NodeName.leader(0));
        nodes.kill(NodeName.leader(1));
        final Resolver resolver = resolver(Duration.ZERO);
        assertThrows(NodeGoneException.class, () -> resolver.round(resource));
        assertEquals(4, count("COMMIT it"));
        assertEquals(unsaid, resource.prepared());
    }

    @Test
    void aBranchWhoseEndThrowsHoldsUpNoOther() throws Exception {
        resource.with(names.xid(names.newGtrid(), 0));
        final AtomicInteger turns = new AtomicInteger(1);
        resource.on(Call.ROLLBACK, () -> {
            if (turns.getAndDecrement() > 0) {
                throw new IllegalStateException("a driver's fault");
            }
        });
        settle(resolver(Duration.ZERO));
        assertEquals(3, count("ROLLBACK it"));
        assertEquals(List.of(), resource.prepared());
    }

    @Test
    void twoAtOnceEndItOnce() throws Exception {
        say();
        cluster.settle(transaction());
        final Resolver one = resolver(Duration.ZERO);
        final Resolver other = resolver(Duration.ZERO);
        final List<Thread> threads = List.of(new Thread(one), new Thread(other));
        threads.forEach(Thread::start);
        for (int turn = 0; turn < 100 && !resource.prepared().isEmpty(); turn++) {
            Thread.sleep(20);
        }
        one.close();
        other.close();
        for (final Thread thread : threads) {
            thread.join(5000);
            assertFalse(thread.isAlive());
        }
        assertEquals(0, count("ROLLBACK it"));
        assertEquals(List.of(), resource.prepared());
    }

    @Test
    void aResourceThatCannotBeAskedIsOpenedAgain() throws Exception {
        final AtomicInteger turns = new AtomicInteger(2);
        resource.on(Call.RECOVER, () -> {
            if (turns.getAndDecrement() > 0) {
                throw ScriptedResource.error(XAException.XAER_RMFAIL);
            }
        });
        final Resolver resolver = resolver(Duration.ZERO);
        final Thread thread = new Thread(resolver);
        thread.start();
        for (int turn = 0; turn < 200 && !resource.prepared().isEmpty(); turn++) {
            Thread.sleep(20);
        }
        resolver.close();
        thread.join(5000);
        assertEquals(List.of(), resource.prepared());
        assertEquals(3, count("CLOSE"));
    }

    @Test
    void aRowThatNamesNobodyEndsNothing() throws Exception {
        final SortedMap<String, byte[]> row = new TreeMap<>();
        row.put(xid.rowKey(), new byte[] {'?'});
        final TransactionName alone = names.transaction(xid.getGlobalTransactionId(), List.of(0));
        cluster.beginBranch(0, alone.branch(0), row, List.of()).await();
        cluster.settle(alone);
        final PaxosXid other = names.xid(names.newGtrid(), 0);
        resource.with(other);
        final Resolver resolver = resolver(Duration.ZERO);
        for (int turn = 0; turn < 5; turn++) {
            assertTrue(resolver.round(resource));
        }
        assertEquals(List.of(xid), resource.prepared(), "the other is ended all the same");
    }
}
