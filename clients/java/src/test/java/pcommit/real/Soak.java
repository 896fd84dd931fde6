package pcommit.real;

import java.io.IOException;
import java.nio.file.Files;
import java.nio.file.Path;
import java.sql.SQLException;
import java.util.ArrayList;
import java.util.HashMap;
import java.util.List;
import java.util.Map;
import java.util.Random;
import javax.jms.JMSException;
import pcommit.client.NodeName;
import place.Child;
import place.Database;
import place.Java;
import place.Nodes;
import place.Place;
import place.Server;

/**
 * Eight clients in four JVMs place orders while JVMs, nodes, servers and resolvers are killed and started again, one at a time:
 * {@code Soak PROGRAM MINUTES [SEED]}. At the end the sums and the messages are right, nothing is prepared, and no branch was prepared for
 * longer than 5 s while its server was up.
 */
public final class Soak {
    private static final int JVMS = 4;
    private static final int CLIENTS = 2;
    private static final double MOST_LOCKED = 5;

    private final Place place;
    private final Random random;
    private final List<Child> applications = new ArrayList<>();
    private final List<Child> resolvers = new ArrayList<>();
    private final List<LockWatch> watches = new ArrayList<>();
    private final Map<String, Integer> kills = new HashMap<>();

    private Soak(final Place place, final long seed) {
        this.place = place;
        random = new Random(seed);
    }

    /** Runs it. Its status is 1 where something is wrong. */
    public static void main(final String[] words) throws Exception {
        final double minutes = Double.parseDouble(words[1]);
        final long seed = words.length > 2 ? Long.parseLong(words[2]) : System.currentTimeMillis() / 1000;
        System.out.printf("soak: %.1f minutes, %d clients, seed %d%n", minutes, JVMS * CLIENTS, seed);
        final boolean isRight;
        try (Place place = new Place(Path.of(words[0]).toAbsolutePath(), JVMS * CLIENTS)) {
            isRight = new Soak(place, seed).run(minutes);
        }
        System.out.println(isRight ? "soak: passed" : "soak: FAILED");
        System.exit(isRight ? 0 : 1);
    }

    private boolean run(final double minutes) throws Exception {
        for (int number = 0; number < 3; number++) {
            resolvers.add(place.startResolver(number));
            watches.add(new LockWatch(place, number));
            watches.get(number).start();
        }
        for (int jvm = 0; jvm < JVMS; jvm++) {
            applications.add(startApplication(jvm));
        }
        final long until = System.nanoTime() + (long) (minutes * 60e9);
        while (System.nanoTime() < until) {
            Thread.sleep(1000 + random.nextInt(3000));
            killOne();
        }
        for (final Child application : applications) {
            application.kill();
        }
        return check();
    }

    private Child startApplication(final int jvm) throws IOException {
        return Child.start(Java.command(List.of("-Xmx96m"), SoakClient.class.getName(), place.nodes().file().toString(),
                place.postgresql().url(),
                place.mariadb().url(), place.broker().url(), Integer.toString(jvm * CLIENTS), Integer.toString(CLIENTS)),
                place.folder().resolve("application.log"));
    }

    private void killOne() throws Exception {
        final int kind = random.nextInt(10);
        if (kind < 3) {
            final int jvm = random.nextInt(JVMS);
            applications.get(jvm).kill();
            applications.set(jvm, startApplication(jvm));
            note("a JVM");
        } else if (kind < 7) {
            final NodeName node = Nodes.names().get(random.nextInt(Nodes.names().size()));
            place.nodes().kill(node);
            Thread.sleep(random.nextInt(1000));
            place.nodes().start(node);
            note("a node");
        } else if (kind < 9) {
            final int number = random.nextInt(3);
            final Server server = place.servers().get(number);
            watches.get(number).serverIsDown(true);
            server.kill();
            Thread.sleep(random.nextInt(1000));
            server.start();
            watches.get(number).serverIsDown(false);
            note(server.name());
        } else {
            final int number = random.nextInt(3);
            resolvers.get(number).kill();
            resolvers.set(number, place.startResolver(number));
            note("a resolver");
        }
    }

    private void note(final String what) {
        kills.merge(what, 1, Integer::sum);
    }

    private boolean check() throws Exception {
        final double took = untilNothingIsPrepared();
        double longest = 0;
        for (final LockWatch watch : watches) {
            watch.close();
            longest = Math.max(longest, watch.longest());
            System.out.printf("%s: a branch was prepared for at most %.2f s while its server was up%n",
                    place.servers().get(watch.number()).name(), watch.longest());
        }
        final int accounts = JVMS * CLIENTS * Database.FIRST;
        final int taken = accounts - place.postgresql().sum();
        final int given = place.mariadb().sum() - accounts;
        final int messages = place.broker().take("order"::equals);
        final long committed = said("committed");
        final long unknown = said("unknown");
        System.out.printf("killed: %s%n%d taken at PostgreSQL, %d given at MariaDB, %d messages at ActiveMQ%n", kills, taken, given,
                messages);
        System.out.printf("applications were told: %d committed, %d unknown, %d failed, %d heuristic%n%.2f s later nothing was prepared%n",
                committed, unknown, said("failed"), said("HEURISTIC"), took);
        return taken == given && given == messages && committed > 0 && committed <= given && said("HEURISTIC") == 0 && took < MOST_LOCKED
                && longest < MOST_LOCKED;
    }

    private long said(final String words) throws IOException {
        try (var lines = Files.lines(place.folder().resolve("application.log"))) {
            return lines.filter(line -> line.startsWith(words)).count();
        }
    }

    private double untilNothingIsPrepared() throws SQLException, JMSException, InterruptedException {
        final long begun = System.nanoTime();
        while (watches.stream().anyMatch(LockWatch::sees)) {
            if (System.nanoTime() - begun > 60e9) {
                System.out.println("a minute after the last kill something is prepared still");
                break;
            }
            Thread.sleep(100);
        }
        return (System.nanoTime() - begun) / 1e9;
    }
}
