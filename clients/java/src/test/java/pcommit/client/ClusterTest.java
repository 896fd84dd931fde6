package pcommit.client;

import static org.junit.jupiter.api.Assertions.assertArrayEquals;
import static org.junit.jupiter.api.Assertions.assertDoesNotThrow;
import static org.junit.jupiter.api.Assertions.assertEquals;
import static org.junit.jupiter.api.Assertions.assertThrows;
import static org.junit.jupiter.api.Assertions.assertTrue;

import java.io.IOException;
import java.nio.file.Files;
import java.util.ArrayList;
import java.util.List;
import java.util.SortedMap;
import java.util.TreeMap;
import java.util.concurrent.ExecutionException;
import java.util.concurrent.ExecutorService;
import java.util.concurrent.Executors;
import java.util.concurrent.Future;
import org.junit.jupiter.api.Test;

/** The client alone, against a double of the nodes that answers, stays silent or goes as each test has it. */
final class ClusterTest extends DoubledCluster {
    private static final NodeName L0 = NodeName.leader(0);
    private static final NodeName L1 = NodeName.leader(1);
    private static final NodeName R0 = NodeName.resourceManager(0);

    private static TransactionName transaction(final int number) {
        final SortedMap<Integer, byte[]> bquals = new TreeMap<>();
        bquals.put(0, new byte[] {'a'});
        bquals.put(1, new byte[] {'b'});
        return new TransactionName(1, new byte[] {(byte) (number >> 8), (byte) number}, bquals);
    }

    private static SortedMap<String, byte[]> row(final String key) {
        final SortedMap<String, byte[]> row = new TreeMap<>();
        row.put(key, new byte[] {1});
        return row;
    }

    private Outcome commit(final int number) throws ClusterException {
        final TransactionName tx = transaction(number);
        for (final int manager : tx.bquals().keySet()) {
            cluster.beginBranch(manager, tx.branch(manager), row("%04x".formatted(number)), List.of()).await();
        }
        return cluster.settle(tx);
    }

    @Test
    void commitsAtBoth() throws ClusterException {
        assertEquals(Outcome.COMMITTED, commit(7));
        assertEquals(View.COMMITTED, cluster.view(1, transaction(7)));
        assertArrayEquals(new byte[] {1}, cluster.table(0).get("0007"));
    }

    @Test
    void aBranchThatIsNotEndedAborts() throws ClusterException {
        final TransactionName tx = transaction(8);
        cluster.beginBranch(0, tx.branch(0), row("08"), List.of()).await();
        assertEquals(Outcome.ABORTED, cluster.settle(tx));
    }

    @Test
    void aUsedNameIsRefused() throws ClusterException {
        commit(9);
        final var again = cluster.beginBranch(0, transaction(9).branch(0), row("09"), List.of());
        assertEquals("-8", assertThrows(RefusedException.class, again::await).answer());
    }

    @Test
    void aBusyRowFailsTheBranchThatWritesIt() throws ClusterException {
        cluster.beginBranch(0, transaction(10).branch(0), row("aa"), List.of()).await();
        final var other = cluster.beginBranch(0, transaction(11).branch(0), row("aa"), List.of());
        assertEquals("refused 9", assertThrows(RefusedException.class, other::await).answer());
    }

    @Test
    void aBusyRowThatIsDeletedIsSpared() throws ClusterException {
        cluster.beginBranch(0, transaction(12).branch(0), row("ab"), List.of()).await();
        cluster.beginBranch(0, transaction(13).branch(0), row("ac"), List.of("ab")).await();
    }

    @Test
    void deletesRows() throws ClusterException {
        commit(14);
        final TransactionName tx = transaction(15);
        for (final int manager : tx.bquals().keySet()) {
            cluster.beginBranch(manager, tx.branch(manager), row("000f"), List.of("000e")).await();
        }
        cluster.settle(tx);
        assertEquals(List.of("000f"), List.copyOf(cluster.table(0).keySet()));
    }

    @Test
    void manyShareOneConnection() throws InterruptedException, ExecutionException, ClusterFileException {
        cluster.close();
        // with the usual times: many at once take a while on a busy host
        cluster = new Cluster(nodes.file());
        final ExecutorService threads = Executors.newFixedThreadPool(16);
        final List<Future<Outcome>> outcomes = new ArrayList<>();
        for (int number = 100; number < 400; number++) {
            final int own = number;
            outcomes.add(threads.submit(() -> commit(own)));
        }
        for (final Future<Outcome> outcome : outcomes) {
            assertEquals(Outcome.COMMITTED, outcome.get());
        }
        threads.shutdown();
        assertEquals(1, nodes.connections(R0));
        assertTrue(nodes.connections(L0) <= 16);
    }

    @Test
    void anotherLeaderWhereOneIsGone() throws ClusterException, IOException {
        nodes.kill(L0);
        assertEquals(Outcome.COMMITTED, commit(20));
    }

    @Test
    void anotherLeaderWhereOneIsSilent() throws ClusterException {
        nodes.silence(L0, true);
        assertEquals(Outcome.COMMITTED, commit(21));
        final long begun = System.nanoTime();
        assertEquals(Outcome.COMMITTED, commit(22));
        assertTrue(System.nanoTime() - begun < PATIENCE.toNanos(), "the silent leader is asked last from then on");
    }

    @Test
    void anotherLeaderIsToDecideWhereOneIsSilent() throws ClusterException {
        nodes.silence(L0, true);
        cluster.hurry(transaction(30));
        final long begun = System.nanoTime();
        cluster.hurry(transaction(31));
        assertTrue(System.nanoTime() - begun < PATIENCE.toNanos(), "the silent leader is asked last from then on");
    }

    @Test
    void noAnswerOfAnyLeaderIsUnknown() {
        nodes.silence(L0, true);
        nodes.silence(L1, true);
        final var error = assertThrows(UnknownOutcomeException.class, () -> commit(23));
        assertEquals(transaction(23), error.transaction());
        nodes.silence(L1, false);
        nodes.silence(L0, false);
        final Outcome later = assertDoesSettle(error.transaction());
        assertEquals(Outcome.COMMITTED, later, "it was committed all the while");
    }

    private Outcome assertDoesSettle(final TransactionName tx) {
        return assertDoesNotThrow(() -> cluster.settle(tx));
    }

    @Test
    void noLeaderThatCanBeReachedIsNotUnknown() throws IOException {
        nodes.kill(L0);
        nodes.kill(L1);
        assertThrows(NodeGoneException.class, () -> commit(24));
    }

    @Test
    void aSilentNodeIsWaitedForABoundedTime() {
        nodes.silence(R0, true);
        final long begun = System.nanoTime();
        assertThrows(NodeGoneException.class, () -> cluster.view(0, transaction(25)));
        assertTrue(System.nanoTime() - begun < 3 * PATIENCE.toNanos());
    }

    @Test
    void manyThatConnectToANodeThatHangsWaitNoLongerThanOne() throws InterruptedException, ExecutionException {
        nodes.hang(R0);
        final ExecutorService threads = Executors.newFixedThreadPool(16);
        final List<Future<NodeGoneException>> answers = new ArrayList<>();
        final long begun = System.nanoTime();
        for (int number = 0; number < 16; number++) {
            answers.add(threads.submit(() -> assertThrows(NodeGoneException.class, () -> cluster.view(0, transaction(32)))));
        }
        for (final Future<NodeGoneException> answer : answers) {
            answer.get();
        }
        threads.shutdown();
        assertTrue(System.nanoTime() - begun < 4 * PATIENCE.toNanos());
    }

    @Test
    void aNodeThatIsBackIsAskedAgain() throws ClusterException, IOException {
        commit(26);
        nodes.kill(R0);
        assertThrows(NodeGoneException.class, () -> cluster.view(0, transaction(26)));
        nodes.start(R0);
        assertEquals(View.COMMITTED, cluster.view(0, transaction(26)));
    }

    @Test
    void anotherKeyIsTurnedAway() throws IOException, ClusterFileException {
        Files.writeString(folder.resolve("clients.key"), "ff".repeat(32) + "\n");
        try (Cluster stranger = new Cluster(ClusterFile.read(nodes.file()), PATIENCE, MOST)) {
            final var error = assertThrows(NodeGoneException.class, () -> stranger.view(0, transaction(27)));
            assertTrue(error.getMessage().contains("key") || error.getMessage().contains("broke"), error.getMessage());
        }
    }

    @Test
    void whatIsNoLineIsNotAsked() throws ClusterException {
        for (final List<String> lines : List.of(List.<String>of(), List.of("info", ""), List.of("info\ninfo"))) {
            assertThrows(IllegalArgumentException.class, () -> cluster.ask(R0, lines));
        }
        assertEquals(2, cluster.ask(R0, List.of("info", "info")).size());
        assertEquals(2, asked("info"));
    }

    @Test
    void aNodeThatIsNotThere() {
        assertThrows(NodeGoneException.class, () -> cluster.view(18, transaction(28)));
    }

    @Test
    void afterItsEndNothingIsAsked() {
        cluster.close();
        assertThrows(NodeGoneException.class, () -> cluster.view(0, transaction(29)));
    }
}
