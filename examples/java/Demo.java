import java.io.IOException;
import java.nio.file.Files;
import java.nio.file.Path;
import java.sql.SQLException;
import java.util.ArrayList;
import java.util.LinkedHashMap;
import java.util.List;
import java.util.Map;
import javax.jms.JMSException;
import javax.transaction.xa.XAException;
import pcommit.client.NodeName;
import place.Child;
import place.Java;
import place.Place;
import place.Prepared;
import place.Watcher;

/**
 * Shows an order over PostgreSQL, MariaDB and ActiveMQ whose application is killed between prepare and commit, with pcommit and with BTM,
 * and a leader that is killed in the middle: {@code Demo PROGRAM}.
 */
public final class Demo {
    private static final int AMOUNT = 10;
    private static final double BACK = 6;
    private final Place place;
    private final Watcher watcher;
    private final Map<String, String> table = new LinkedHashMap<>();
    private int account;

    private Demo(final Place place, final Watcher watcher) {
        this.place = place;
        this.watcher = watcher;
    }

    /** Shows all of it. */
    public static void main(final String[] words) throws Exception {
        say("Two database servers, a broker and the nodes of a cluster are started in a folder of their own, on loopback");
        try (Place place = new Place(Path.of(words[0]).toAbsolutePath(), 16); Watcher watcher = new Watcher(place)) {
            final Demo demo = new Demo(place, watcher);
            demo.say("PostgreSQL (beside it manager r0), MariaDB (r1), ActiveMQ (r2); acceptors a0 a1 a2, leaders l0 l1", 1);
            demo.ordersCommit();
            demo.theApplicationIsKilled();
            demo.theSameWithBtm();
            demo.aLeaderIsKilled();
            demo.tell();
        }
        say("All processes are ended, and their folder is gone");
    }

    private static void say(final String words) {
        System.out.println(words);
    }

    private void say(final String words, final int depth) {
        say("   ".repeat(depth) + words);
    }

    private void say(final long begun, final String words) {
        say("   %5.2f s  %s".formatted(seconds(begun), words));
    }

    private static double seconds(final long begun) {
        return (System.nanoTime() - begun) / 1e9;
    }

    private Child order(final String name, final List<String> options, final String mainClass, final String first) throws IOException {
        return Child.start(Java.command(options, mainClass, first, place.postgresql().url(), place.mariadb().url(), place.broker().url(),
                Integer.toString(account), Integer.toString(AMOUNT)), place.folder().resolve(name + ".log"));
    }

    private void await(final Child child, final String words) throws IOException, InterruptedException {
        while (!child.hasSaid(words)) {
            if (!child.isRunning()) {
                throw new IOException("it ended: " + child.lastLine());
            }
            Thread.sleep(5);
        }
    }

    private String balances() throws SQLException, JMSException {
        return "account %d has %d at PostgreSQL and %d at MariaDB; %d messages at ActiveMQ".formatted(account,
                place.postgresql().balance(account), place.mariadb().balance(account), place.broker().messages().size());
    }

    private void ordersCommit() throws IOException, InterruptedException, SQLException, JMSException {
        say("1. An order: %d go from account 0 at PostgreSQL to account 0 at MariaDB, and a message to ActiveMQ".formatted(AMOUNT));
        say(balances(), 1);
        final Child application = order("order", List.of(), "Order", place.nodes().file().toString());
        await(application, "committed");
        application.await();
        say("the application is told: committed", 1);
        say(balances(), 1);
        say("");
    }

    private void startResolvers() throws IOException, InterruptedException {
        final List<Child> resolvers = new ArrayList<>();
        for (int manager = 0; manager < 3; manager++) {
            resolvers.add(place.startResolver(manager));
        }
        for (final Child resolver : resolvers) {
            await(resolver, "ready");
        }
    }

    private void theApplicationIsKilled() throws Exception {
        say("2. The application's JVM is killed between its prepares and its commit. A resolver runs beside each server");
        startResolvers();
        account = 1;
        say("the resolvers are ready", 1);
        final Child application = order("killed", List.of("-Dstop=PREPARED"), "Order", place.nodes().file().toString());
        await(application, "PREPARED");
        application.kill();
        final long begun = System.nanoTime();
        say(begun, "all three have prepared; the JVM is killed. Nobody starts it again");
        table.put("pcommit: the application's JVM is killed", untilFree(begun));
        say("");
    }

    /** Says what another client sees until rows and message are free. */
    private String untilFree(final long begun) throws SQLException, JMSException, XAException, InterruptedException {
        boolean wasSaid = false;
        while (true) {
            final boolean isHeld = watcher.isHeld(account);
            final Prepared prepared = watcher.prepared();
            if (!isHeld && prepared.isNone()) {
                final String took = "%.2f s".formatted(seconds(begun));
                say(begun, "the rows are free, and no message is in doubt");
                say(balances(), 1);
                return took;
            }
            if (!wasSaid) {
                say(begun, "another client that wants the rows is turned away; prepared at the three: " + prepared);
                wasSaid = true;
            }
            Thread.sleep(20);
        }
    }

    private void theSameWithBtm() throws Exception {
        say("3. The same with Bitronix (BTM), which keeps a log beside the application");
        account = 2;
        final Path log = Files.createDirectory(place.folder().resolve("btm"));
        final Child application = order("btm", List.of("-Dstop=PREPARED"), "BtmOrder", log.toString());
        await(application, "PREPARED");
        application.kill();
        final long begun = System.nanoTime();
        say(begun, "all three have prepared; the JVM is killed");
        say(begun, "another client that wants the rows: %s; prepared at the three: %s".formatted(
                watcher.isHeld(account) ? "turned away" : "served", watcher.prepared()));
        Thread.sleep((long) (1000 * BACK));
        say(begun, "another client that wants the rows: %s. Somebody starts the JVM again, and BTM reads its log".formatted(
                watcher.isHeld(account) ? "still turned away" : "served"));
        final Child again = Child.start(Java.command(List.of(), "BtmOrder", log.toString(), place.postgresql().url(), place.mariadb().url(),
                place.broker().url()), place.folder().resolve("btm-again.log"));
        table.put("BTM: the application's JVM is killed", untilFree(begun) + ", until the JVM was back");
        again.await();
        say("");
    }

    private void aLeaderIsKilled() throws Exception {
        say("4. A leader is killed in the middle of a commit");
        account = 3;
        final Path go = place.folder().resolve("go");
        final Child application = order("leader", List.of("-Dstop=SAID", "-Dgo=" + go), "Order", place.nodes().file().toString());
        await(application, "SAID");
        place.nodes().kill(NodeName.leader(0));
        final long begun = System.nanoTime();
        say(begun, "all three have prepared, and their managers may vote; l0, whom the application is about to ask, is killed");
        Files.createFile(go);
        await(application, "committed");
        say(begun, "the application, which can't reach l0, has asked l1, and is told: committed");
        application.await();
        table.put("pcommit: a leader is killed, the application lives", untilFree(begun));
        account = 4;
        final Child other = order("both", List.of("-Dstop=SAID"), "Order", place.nodes().file().toString());
        await(other, "SAID");
        other.kill();
        final long gone = System.nanoTime();
        say(gone, "another order, with l0 still gone: its JVM is killed when it is about to ask a leader");
        table.put("pcommit: the application's JVM is killed, l0 is gone", untilFree(gone));
        say("");
    }

    private void tell() {
        say("%-52s %s".formatted("who is killed", "rows and message were locked for"));
        table.forEach((who, took) -> say("%-52s %s".formatted(who, took)));
        say("");
    }
}
