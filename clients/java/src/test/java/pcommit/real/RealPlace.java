package pcommit.real;

import java.io.IOException;
import java.nio.file.Path;
import java.sql.SQLException;
import java.time.Duration;
import java.util.ArrayList;
import java.util.Arrays;
import java.util.List;
import java.util.concurrent.atomic.AtomicInteger;
import javax.jms.JMSException;
import javax.sql.XADataSource;
import javax.transaction.xa.XAException;
import javax.transaction.xa.XAResource;
import javax.transaction.xa.Xid;
import pcommit.client.Cluster;
import pcommit.client.ClusterFile;
import pcommit.client.ClusterFileException;
import pcommit.xa.PaxosTransactionManager;
import pcommit.xa.PaxosXid;
import pcommit.xa.PrepareAnswer;
import pcommit.xa.Resolver;
import pcommit.xa.ResourceOpener.OpenResource;
import place.Database;
import place.Place;

/** The servers and the cluster that the tests share, with a resolver beside each server. They go when the tests' process ends. */
final class RealPlace {
    private static final AtomicInteger ACCOUNTS = new AtomicInteger();
    private static final int MOST_ACCOUNTS = 500;
    // longer than usual: the applications of the tests are cold, and their host is busy
    private static final Duration GRACE = Duration.ofMillis(1500);
    private static RealPlace shared;

    private final Place place;
    private final Cluster cluster;
    private final List<Resolver> resolvers = new ArrayList<>();

    private RealPlace() throws IOException, InterruptedException, SQLException, ClusterFileException {
        final String program = System.getProperty("pcommit.node");
        if (program == null) {
            throw new IOException("-Dpcommit.node is to name the program of a node");
        }
        place = new Place(Path.of(program).toAbsolutePath(), MOST_ACCOUNTS);
        cluster = new Cluster(ClusterFile.read(place.nodes().file()), Duration.ofSeconds(1), Duration.ofSeconds(4));
    }

    static synchronized RealPlace get() throws IOException, InterruptedException, SQLException, ClusterFileException {
        if (shared == null) {
            shared = new RealPlace();
        }
        return shared;
    }

    static void register(final PaxosTransactionManager manager) {
        manager.register("bank", 0);
        manager.register("shop", 1, PrepareAnswer.TRUSTED);
        manager.register("orders", 2, PrepareAnswer.TRUSTED);
    }

    Place place() {
        return place;
    }

    Cluster cluster() {
        return cluster;
    }

    /** An account that no other test uses. */
    static int newAccount() {
        return ACCOUNTS.getAndIncrement();
    }

    void startResolvers() {
        if (!resolvers.isEmpty()) {
            return;
        }
        for (int manager = 0; manager < 3; manager++) {
            final int number = manager;
            final Resolver resolver = new Resolver(cluster, number, () -> open(number), Duration.ofMillis(500), GRACE);
            resolvers.add(resolver);
            final Thread thread = new Thread(resolver, "resolver " + number);
            thread.setDaemon(true);
            thread.start();
        }
    }

    void stopResolvers() {
        resolvers.forEach(Resolver::close);
        resolvers.clear();
    }

    /** A connection to the resource beside a resource manager. */
    OpenResource open(final int manager) throws SQLException, JMSException {
        return switch (manager) {
            case 0 -> database(place.postgresql().source());
            case 1 -> database(place.mariadb().source());
            default -> {
                final javax.jms.XAConnection connection = place.broker().source().createXAConnection();
                yield new Opened(connection.createXASession().getXAResource(), connection::close);
            }
        };
    }

    private static OpenResource database(final XADataSource source) throws SQLException {
        final var connection = source.getXAConnection();
        return new Opened(connection.getXAResource(), connection::close);
    }

    /** A connection that is closed whatever its closing throws. */
    private record Opened(XAResource resource, AutoCloseable closing) implements OpenResource {
        @Override
        public void close() {
            try {
                closing.close();
            } catch (Exception error) {
                System.err.println("a connection of a test isn't closed: " + error);
            }
        }
    }

    /** How many branches of pcommit are prepared at all three. */
    int prepared() throws SQLException, JMSException, XAException {
        int count = 0;
        for (int manager = 0; manager < 3; manager++) {
            try (OpenResource open = open(manager)) {
                final Xid[] listed = open.resource().recover(XAResource.TMSTARTRSCAN | XAResource.TMENDRSCAN);
                count += (int) Arrays.stream(listed == null ? new Xid[0] : listed)
                        .filter(xid -> xid.getFormatId() == PaxosXid.FORMAT).count();
            }
        }
        return count;
    }

    /** Waits until nothing is prepared. The seconds that took. */
    double untilNothingIsPrepared(final double most) throws SQLException, JMSException, XAException, InterruptedException {
        final long begun = System.nanoTime();
        while (prepared() > 0) {
            if (System.nanoTime() - begun > most * 1e9) {
                throw new AssertionError("after " + most + " s " + prepared() + " branches are prepared still");
            }
            Thread.sleep(20);
        }
        return (System.nanoTime() - begun) / 1e9;
    }

    /** Where an order's work is seen: at how many of the three. */
    int seen(final int account, final int amount) throws SQLException, JMSException {
        int count = 0;
        count += place.postgresql().balance(account) == Database.FIRST - amount ? 1 : 0;
        count += place.mariadb().balance(account) == Database.FIRST + amount ? 1 : 0;
        count += place.broker().messages().contains(Integer.toString(account)) ? 1 : 0;
        return count;
    }
}
