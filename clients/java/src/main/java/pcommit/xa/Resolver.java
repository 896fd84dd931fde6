package pcommit.xa;

import java.time.Duration;
import java.util.ArrayList;
import java.util.HashMap;
import java.util.HashSet;
import java.util.List;
import java.util.Map;
import java.util.Optional;
import java.util.Set;
import javax.transaction.xa.XAException;
import javax.transaction.xa.XAResource;
import javax.transaction.xa.Xid;
import pcommit.client.Cluster;
import pcommit.client.NodeGoneException;
import pcommit.client.Outcome;
import pcommit.client.RefusedException;
import pcommit.client.TransactionName;
import pcommit.xa.ResourceOpener.OpenResource;
import pcommit.xa.Verdicts.Verdict;

/**
 * Ends what applications have prepared at a resource and left, as the resource manager beside it says. Any number may run beside one
 * resource; none keeps anything, so each may be killed and started at any time. Branches with other names are never touched.
 */
public final class Resolver implements Runnable, AutoCloseable {
    /** How often the resource is looked at, where nothing else is said. */
    public static final Duration EVERY = Duration.ofSeconds(1);
    /** How long a branch is left to its application, where nothing else is said. */
    public static final Duration GRACE = Duration.ofMillis(700);
    private static final Duration SOON = Duration.ofMillis(100);
    private static final Duration STUCK = Duration.ofSeconds(5);

    private final Cluster cluster;
    private final int manager;
    private final ResourceOpener opener;
    private final Duration every;
    private final Duration grace;
    private final Names names;
    private final Verdicts verdicts;
    private final Map<PaxosXid, Long> firstSeen = new HashMap<>();
    private final Set<PaxosXid> reported = new HashSet<>();
    private String said = "";
    private boolean isReady;
    private volatile boolean isClosed;

    /**
     * A resolver with the usual times.
     *
     * @param cluster the cluster that decides; it isn't closed with the resolver
     * @param manager the number of the resource manager that stands beside the resource
     * @param opener  connects to the resource
     */
    public Resolver(final Cluster cluster, final int manager, final ResourceOpener opener) {
        this(cluster, manager, opener, EVERY, GRACE);
    }

    /**
     * A resolver.
     *
     * @param cluster the cluster that decides; it isn't closed with the resolver
     * @param manager the number of the resource manager that stands beside the resource
     * @param opener  connects to the resource
     * @param every   how often the resource is looked at
     * @param grace   how long a branch is left to its application after it was seen first. An application that takes longer between its
     *                prepare and its commit is rolled back
     */
    public Resolver(final Cluster cluster, final int manager, final ResourceOpener opener, final Duration every, final Duration grace) {
        this.cluster = cluster;
        this.manager = manager;
        this.opener = opener;
        this.every = every;
        this.grace = grace;
        names = new Names(cluster.file().digest());
        verdicts = new Verdicts(cluster, names, manager);
    }

    /** Looks, and ends what there is to end, until it is closed or its thread is interrupted. What fails is said, and tried again. */
    @Override
    public void run() {
        while (!isClosed) {
            try (OpenResource open = opener.open()) {
                watch(open.resource());
            } catch (InterruptedException error) {
                Thread.currentThread().interrupt();
                return;
            } catch (Exception error) {
                // whatever a driver throws: it is said, and tried again
                say("its resource can't be asked: " + XaErrors.text(error));
                if (!pause(SOON)) {
                    return;
                }
            }
        }
    }

    private void watch(final XAResource resource) throws XAException, InterruptedException {
        while (!isClosed) {
            Duration next = SOON;
            try {
                next = round(resource) ? SOON : every;
                sayReady();
            } catch (NodeGoneException error) {
                say("the cluster doesn't say how it ends: " + error.getMessage());
            }
            Thread.sleep(Math.min(next.toMillis(), every.toMillis()));
        }
    }

    /** Before it says that it is ready, it asks the cluster once, so that neither is slow when there is something to end. */
    private void sayReady() throws NodeGoneException {
        if (!isReady) {
            outcomeOfNobody();
            isReady = true;
            Log.info("resolver r%d: ready, it looks every %d ms", manager, every.toMillis());
        }
    }

    private void outcomeOfNobody() throws NodeGoneException {
        try {
            verdicts.greet();
        } catch (RefusedException error) {
            say("its manager refuses: " + error.getMessage());
        }
    }

    private static boolean pause(final Duration time) {
        try {
            Thread.sleep(time.toMillis());
            return true;
        } catch (InterruptedException error) {
            Thread.currentThread().interrupt();
            return false;
        }
    }

    /**
     * Looks once. Whether something is under way, so that it is to look again soon. Only after all is ended whose outcome is known, leaders
     * are asked about the rest: where none can be reached, that holds up nothing else.
     */
    boolean round(final XAResource resource) throws XAException, NodeGoneException {
        final long now = System.nanoTime();
        final Set<PaxosXid> listed = new HashSet<>();
        for (final Xid xid : XaErrors.recover(resource)) {
            names.own(xid, manager).ifPresent(listed::add);
        }
        firstSeen.keySet().retainAll(listed);
        reported.retainAll(listed);
        final List<TransactionName> undecided = new ArrayList<>();
        boolean isUnderWay = false;
        for (final PaxosXid xid : listed) {
            final long since = firstSeen.computeIfAbsent(xid, any -> now);
            if (reported.contains(xid)) {
                continue;
            }
            if (now - since < grace.toNanos()) {
                isUnderWay = true;
                continue;
            }
            final Verdict verdict = verdict(xid);
            verdict.undecided().ifPresent(undecided::add);
            isUnderWay |= verdict.outcome().isEmpty() || !end(resource, xid, verdict.outcome().get(), now - since);
        }
        for (final TransactionName transaction : undecided) {
            cluster.hurry(transaction);
        }
        return isUnderWay;
    }

    /** What is known of a branch. One about which the cluster's answer can't be understood holds up no other. */
    private Verdict verdict(final PaxosXid xid) throws NodeGoneException {
        try {
            return verdicts.of(xid);
        } catch (RefusedException | IllegalArgumentException error) {
            say("how " + xid + " ends can't be understood: " + error.getMessage());
            return Verdict.askAgain();
        }
    }

    /** Ends a branch. Whether nothing more is to be done; whatever its resource throws holds up no other. */
    private boolean end(final XAResource resource, final PaxosXid xid, final Outcome outcome, final long age) {
        try {
            if (outcome == Outcome.COMMITTED) {
                resource.commit(xid, false);
            } else {
                resource.rollback(xid);
            }
            Log.info("resolver r%d: %s is ended: %s", manager, xid, outcome);
            return true;
        } catch (XAException | RuntimeException error) {
            return isEnded(resource, xid, outcome, error, age);
        }
    }

    /** What it means that a branch wasn't ended without an exception. Whether nothing more is to be done. */
    private boolean isEnded(final XAResource resource, final PaxosXid xid, final Outcome outcome, final Exception error, final long age) {
        final Optional<Heuristic> heuristic = Heuristic.of(error);
        if (heuristic.isPresent()) {
            Log.loud("HEURISTIC: resolver r%d: %s is %s, and its resource did by itself: %s. It isn't forgotten: look at its data, then"
                    + " forget it by hand", manager, xid, outcome, heuristic.get());
            reported.add(xid);
            return true;
        }
        try {
            if (XaErrors.isUnknownBranch(error) && !XaErrors.isListed(resource, xid)) {
                Log.debug("resolver r%d: %s was ended by another", manager, xid);
                return true;
            }
        } catch (XAException | RuntimeException other) {
            error.addSuppressed(other);
        }
        if (age > STUCK.toNanos()) {
            say(xid + " is " + outcome + ", and its resource doesn't end it: " + XaErrors.text(error)
                    + (XaErrors.isUnknownBranch(error) ? ". Is the connection that prepared it still open?" : ""));
        }
        return false;
    }

    /** Says what is wrong, once. */
    private void say(final String words) {
        if (!words.equals(said)) {
            said = words;
            Log.warn("resolver r%d: %s", manager, words);
        }
    }

    /** Has it end after the look that it is at. */
    @Override
    public void close() {
        isClosed = true;
    }
}
