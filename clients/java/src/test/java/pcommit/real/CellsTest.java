package pcommit.real;

import static org.junit.jupiter.api.Assertions.assertEquals;
import static org.junit.jupiter.api.Assertions.assertTrue;

import java.time.Duration;
import java.util.Arrays;
import java.util.List;
import java.util.concurrent.atomic.AtomicBoolean;
import java.util.stream.Stream;
import javax.transaction.RollbackException;
import org.junit.jupiter.api.AfterAll;
import org.junit.jupiter.api.BeforeAll;
import org.junit.jupiter.params.ParameterizedTest;
import org.junit.jupiter.params.provider.Arguments;
import org.junit.jupiter.params.provider.MethodSource;
import pcommit.client.NodeName;
import pcommit.xa.OutcomeUnknownException;
import pcommit.xa.PaxosTransactionManager;
import place.Child;
import place.Database;
import place.Java;
import place.Server;

/** The table of docs/XA.md, cell by cell: who dies, at which step, and how the transaction ends at all three. */
final class CellsTest {
    private static final Duration PATIENCE = Duration.ofSeconds(5);
    private static final int AMOUNT = 10;
    private static RealPlace real;

    /** How a cell ends. */
    private enum End {
        /** The application is told that it is committed, and it is. */
        COMMITTED,
        /** The application is told that it is rolled back, and it is. */
        ROLLED_BACK,
        /** The application is told that nobody knows; it ends, the same everywhere. */
        UNKNOWN,
        /** There is no application any more; it is rolled back. */
        GONE_AND_ROLLED_BACK,
        /** There is no application any more; it is committed. */
        GONE_AND_COMMITTED
    }

    /** Who dies. */
    private enum Party {
        APPLICATION, POSTGRESQL, MARIADB, ACTIVEMQ, ONE_LEADER, BOTH_LEADERS, ONE_ACCEPTOR, TWO_ACCEPTORS, ONE_MANAGER, RESOLVERS
    }

    @BeforeAll
    static void start() throws Exception {
        real = RealPlace.get();
        real.startResolvers();
    }

    @AfterAll
    static void stop() {
        real.stopResolvers();
    }

    static Stream<Arguments> cells() {
        return Arrays.stream(Party.values()).flatMap(party -> Arrays.stream(Step.values()).map(step -> Arguments.of(party, step,
                end(party, step))));
    }

    /** What docs/XA.md says. */
    private static End end(final Party party, final Step step) {
        final boolean isDecided = step == Step.DECIDED || step == Step.ONE_TOLD;
        return switch (party) {
            case APPLICATION -> isDecided ? End.GONE_AND_COMMITTED : End.GONE_AND_ROLLED_BACK;
            case POSTGRESQL -> step == Step.WORKED || step == Step.ONE_PREPARED ? End.ROLLED_BACK : End.COMMITTED;
            case MARIADB, ACTIVEMQ -> step == Step.WORKED || step == Step.ONE_PREPARED ? End.ROLLED_BACK : End.COMMITTED;
            case ONE_LEADER, ONE_ACCEPTOR, RESOLVERS -> End.COMMITTED;
            case BOTH_LEADERS, ONE_MANAGER -> isDecided ? End.COMMITTED : End.ROLLED_BACK;
            case TWO_ACCEPTORS -> isDecided ? End.COMMITTED : End.UNKNOWN;
        };
    }

    @ParameterizedTest(name = "{0} dies at {1}: {2}")
    @MethodSource("cells")
    void cell(final Party party, final Step step, final End end) throws Exception {
        final int account = RealPlace.newAccount();
        final End told = party == Party.APPLICATION ? applicationDies(account, step, end) : runs(account, party, step);
        final long begun = System.nanoTime();
        rise(party);
        final double back = (System.nanoTime() - begun) / 1e9;
        final double took = real.untilNothingIsPrepared(party == Party.TWO_ACCEPTORS ? 10 : 5);
        assertEquals(end, told);
        final int seen = real.seen(account, AMOUNT);
        final int unseen = 3 - seen;
        assertTrue(seen == 3 || unseen == 3 && isUntouched(account), "it is seen at " + seen + " of three");
        if (end == End.COMMITTED || end == End.GONE_AND_COMMITTED) {
            assertEquals(3, seen);
        } else if (end != End.UNKNOWN) {
            assertEquals(0, seen);
        }
        System.out.printf("%s dies at %s: %s, seen at %d, up after %.2f s, free %.2f s later%n", party, step, told, seen, back, took);
    }

    private static boolean isUntouched(final int account) throws Exception {
        return real.place().postgresql().balance(account) == Database.FIRST && real.place().mariadb().balance(account) == Database.FIRST;
    }

    private static End applicationDies(final int account, final Step step, final End end) throws Exception {
        final var place = real.place();
        final Child child = Child.start(Java.command(List.of("-Xmx64m"), ApplicationMain.class.getName(), place.nodes().file().toString(),
                place.postgresql().url(), place.mariadb().url(), place.broker().url(), Integer.toString(account), step.name()),
                place.folder().resolve("application.log"));
        assertEquals(ApplicationMain.DIED, child.await(), child.lastLine());
        return end;
    }

    private static End runs(final int account, final Party party, final Step step) throws Exception {
        final var place = real.place();
        final AtomicBoolean hasFallen = new AtomicBoolean();
        try (PaxosTransactionManager manager = new PaxosTransactionManager(real.cluster(), PATIENCE)) {
            RealPlace.register(manager);
            try (SteppedOrder order = new SteppedOrder(manager, place.postgresql().url(), place.mariadb().url(), place.broker().url(),
                    at -> {
                        if (at == step) {
                            fall(party);
                            hasFallen.set(true);
                        }
                    })) {
                return told(order, account);
            }
        } finally {
            assertTrue(hasFallen.get(), "nobody died");
        }
    }

    private static End told(final SteppedOrder order, final int account) throws Exception {
        try {
            order.place(account, AMOUNT, Integer.toString(account));
            return End.COMMITTED;
        } catch (RollbackException error) {
            return End.ROLLED_BACK;
        } catch (OutcomeUnknownException error) {
            return End.UNKNOWN;
        }
    }

    private static List<NodeName> nodes(final Party party) {
        return switch (party) {
            case ONE_LEADER -> List.of(NodeName.leader(0));
            case BOTH_LEADERS -> List.of(NodeName.leader(0), NodeName.leader(1));
            case ONE_ACCEPTOR -> List.of(NodeName.parse("a0"));
            case TWO_ACCEPTORS -> List.of(NodeName.parse("a0"), NodeName.parse("a1"));
            case ONE_MANAGER -> List.of(NodeName.resourceManager(1));
            default -> List.of();
        };
    }

    private static List<Server> servers(final Party party) {
        return switch (party) {
            case POSTGRESQL -> List.of(real.place().servers().get(0));
            case MARIADB -> List.of(real.place().servers().get(1));
            case ACTIVEMQ -> List.of(real.place().servers().get(2));
            default -> List.of();
        };
    }

    private static void fall(final Party party) {
        try {
            for (final NodeName node : nodes(party)) {
                real.place().nodes().kill(node);
            }
            for (final Server server : servers(party)) {
                server.kill();
            }
            if (party == Party.RESOLVERS) {
                real.stopResolvers();
            }
        } catch (Exception error) {
            throw new IllegalStateException(error);
        }
    }

    private static void rise(final Party party) throws Exception {
        for (final NodeName node : nodes(party)) {
            real.place().nodes().start(node);
        }
        for (final Server server : servers(party)) {
            server.start();
        }
        real.startResolvers();
    }
}
