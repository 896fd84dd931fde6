import java.io.File;
import java.nio.file.Files;
import java.nio.file.Path;
import java.sql.SQLException;
import java.util.ArrayList;
import java.util.Arrays;
import java.util.LinkedHashMap;
import java.util.List;
import java.util.Map;
import java.util.concurrent.CountDownLatch;
import java.util.concurrent.TimeUnit;
import java.util.concurrent.atomic.AtomicReference;
import java.util.stream.IntStream;
import javax.jms.JMSException;
import pcommit.client.Cluster;
import pcommit.xa.PaxosTransactionManager;
import place.Database;
import place.Place;

/**
 * Orders over PostgreSQL, MariaDB and ActiveMQ by pcommit, by Bitronix, and with nobody who decides, by turns at the same servers, with 1,
 * 8 and 32 clients: {@code BesideBtm PROGRAM [SECONDS [TURNS]]}. Each client has an account of its own. Printed are transactions a second,
 * the time from the begin of a transaction to the return of its commit, and the processor time of each party. BTM's log is synced, as it is
 * by default.
 */
public final class BesideBtm {
    private static final int[] CLIENTS = {1, 8, 32};
    private static final int MOST = 32;
    private static final int WARM = 4;

    private BesideBtm() { }

    /** What a client does, once. */
    private interface Work {
        void run(int client) throws Exception;
    }

    /** Runs all of it. */
    public static void main(final String[] words) throws Exception {
        final int seconds = words.length > 1 ? Integer.parseInt(words[1]) : 5;
        final int turns = words.length > 2 ? Integer.parseInt(words[2]) : 3;
        try (Place place = new Place(Path.of(words[0]).toAbsolutePath(), MOST); Cluster cluster = new Cluster(place.nodes().file());
                PaxosTransactionManager manager = new PaxosTransactionManager(cluster)) {
            Order.register(manager);
            final String bank = place.postgresql().url();
            final String shop = place.mariadb().url();
            final String broker = place.broker().url();
            final File log = Files.createDirectory(place.folder().resolve("btm")).toFile();
            final List<Order> orders = new ArrayList<>();
            final List<Undecided> undecided = new ArrayList<>();
            for (int client = 0; client < MOST; client++) {
                orders.add(new Order(manager, bank, shop, broker));
                undecided.add(new Undecided(bank, shop, broker));
            }
            try (BtmOrder btm = new BtmOrder(log, MOST + 2, bank, shop, broker)) {
                final Map<String, Work> works = new LinkedHashMap<>();
                works.put("pcommit", client -> orders.get(client).place(client, 1, "pcommit"));
                works.put("BTM", client -> btm.place(client, 1, "btm", null));
                works.put("nobody", client -> undecided.get(client).place(client, 1, "nobody"));
                for (final Work work : works.values()) {
                    run(work, 8, WARM);
                }
                for (final int clients : CLIENTS) {
                    measure(place, works, clients, seconds, turns);
                }
                check(place);
            }
            for (int client = 0; client < MOST; client++) {
                orders.get(client).close();
                undecided.get(client).close();
            }
        }
    }

    private static void measure(final Place place, final Map<String, Work> works, final int clients, final int seconds, final int turns)
            throws Exception {
        final Map<String, List<long[]>> times = new LinkedHashMap<>();
        final Map<String, Costs> costs = new LinkedHashMap<>();
        for (int turn = 0; turn < turns; turn++) {
            for (final Map.Entry<String, Work> work : works.entrySet()) {
                final Costs begun = Costs.now(place);
                times.computeIfAbsent(work.getKey(), any -> new ArrayList<>()).add(run(work.getValue(), clients, seconds));
                costs.merge(work.getKey(), Costs.now(place).since(begun), Costs::and);
            }
        }
        final Map<String, Double> rates = new LinkedHashMap<>();
        times.forEach((who, all) -> rates.put(who, say(who, clients, seconds, all, costs.get(who))));
        System.out.printf("%2d clients: of BTM's rate pcommit's is %.2f, nobody's %.2f%n", clients, rates.get("pcommit") / rates.get("BTM"),
                rates.get("nobody") / rates.get("BTM"));
    }

    /** The times of all transactions that clients end in a while. */
    private static long[] run(final Work work, final int clients, final int seconds) throws Exception {
        final List<List<Long>> times = IntStream.range(0, clients).<List<Long>>mapToObj(client -> new ArrayList<>()).toList();
        final CountDownLatch go = new CountDownLatch(1);
        final AtomicReference<Exception> failure = new AtomicReference<>();
        final List<Thread> threads = new ArrayList<>();
        for (int client = 0; client < clients; client++) {
            final int own = client;
            threads.add(new Thread(() -> {
                try {
                    go.await();
                    final long until = System.nanoTime() + TimeUnit.SECONDS.toNanos(seconds);
                    for (long begun = System.nanoTime(); begun < until;) {
                        work.run(own);
                        final long now = System.nanoTime();
                        times.get(own).add(now - begun);
                        begun = now;
                    }
                } catch (Exception error) {
                    failure.set(error);
                }
            }));
        }
        threads.forEach(Thread::start);
        go.countDown();
        for (final Thread thread : threads) {
            thread.join();
        }
        if (failure.get() != null) {
            throw failure.get();
        }
        return times.stream().flatMap(List::stream).mapToLong(Long::longValue).toArray();
    }

    private static double say(final String name, final int clients, final int seconds, final List<long[]> turns, final Costs costs) {
        final long[] times = turns.stream().flatMapToLong(Arrays::stream).sorted().toArray();
        final double[] rates = turns.stream().mapToDouble(turn -> turn.length / (double) seconds).sorted().toArray();
        final double rate = rates[rates.length / 2];
        System.out.printf("%2d clients: %-8s %6.0f a second (%.0f to %.0f); to the outcome %.2f ms, 99th percentile %.2f; %s%n", clients,
                name, rate, rates[0], rates[rates.length - 1], times[times.length / 2] / 1e6, times[(int) (times.length * 0.99)] / 1e6,
                costs.of(times.length));
        return rate;
    }

    /** The sum over both databases is what it was, and each order has a message. */
    private static void check(final Place place) throws SQLException, JMSException {
        final int accounts = MOST * Database.FIRST;
        final int moved = place.mariadb().sum() - accounts;
        final int messages = place.broker().take(text -> true);
        final boolean isRight = place.postgresql().sum() + moved == accounts && messages == moved;
        System.out.printf("%d orders, %d messages, the sums are %s%n", moved, messages, isRight ? "right" : "WRONG");
        if (!isRight) {
            throw new IllegalStateException("an order is lost or doubled");
        }
    }
}
