package pcommit.xa;

import static org.junit.jupiter.api.Assertions.assertEquals;
import static org.junit.jupiter.api.Assertions.assertTrue;

import java.util.ArrayList;
import java.util.Collections;
import java.util.List;
import java.util.concurrent.CountDownLatch;
import java.util.concurrent.TimeUnit;
import javax.transaction.NotSupportedException;
import javax.transaction.RollbackException;
import javax.transaction.Status;
import javax.transaction.SystemException;
import org.junit.jupiter.api.AfterEach;
import org.junit.jupiter.api.BeforeEach;
import pcommit.client.DoubledCluster;

/** What each unit test of transactions has: a manager over a double of the nodes, and two resources that do as the test has them. */
abstract class TwoResources extends DoubledCluster {
    final List<String> log = Collections.synchronizedList(new ArrayList<>());
    final ScriptedResource first = new ScriptedResource("first", log);
    final ScriptedResource second = new ScriptedResource("second", log);
    PaxosTransactionManager manager;

    @BeforeEach
    final void makeManager() {
        manager = new PaxosTransactionManager(cluster, PATIENCE);
        manager.register("one", 0);
        manager.register("two", 1, PrepareAnswer.TRUSTED);
    }

    @AfterEach
    final void closeManager() {
        manager.close();
    }

    final void beginBoth() throws NotSupportedException, RollbackException, SystemException {
        manager.begin();
        manager.enlist("one", first);
        manager.enlist("two", second);
    }

    /** How often a resource was called so. */
    final long count(final String words) {
        synchronized (log) {
            return log.stream().filter(words::equals).count();
        }
    }

    /** Waits until a resource was called so. */
    final void await(final String words) throws InterruptedException {
        for (int turn = 0; turn < 500 && count(words) == 0; turn++) {
            Thread.sleep(10);
        }
        assertEquals(1, count(words), words);
    }

    static void await(final CountDownLatch latch) {
        try {
            assertTrue(latch.await(20, TimeUnit.SECONDS));
        } catch (InterruptedException error) {
            Thread.currentThread().interrupt();
        }
    }

    final void assertNothingIsCommitted() {
        assertEquals(0, count("COMMIT first") + count("COMMIT second"), log.toString());
        assertEquals(List.of(), first.prepared());
        assertEquals(List.of(), second.prepared());
        assertEquals(Status.STATUS_NO_TRANSACTION, manager.getStatus());
    }

    final void assertBothAreCommitted() {
        assertEquals(1, count("COMMIT first"), log.toString());
        assertEquals(1, count("COMMIT second"), log.toString());
        assertEquals(Status.STATUS_NO_TRANSACTION, manager.getStatus());
    }
}
