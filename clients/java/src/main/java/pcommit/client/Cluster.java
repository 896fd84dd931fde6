package pcommit.client;

import java.nio.file.Path;
import java.time.Duration;
import java.util.ArrayList;
import java.util.Deque;
import java.util.HexFormat;
import java.util.List;
import java.util.Map;
import java.util.Optional;
import java.util.SortedMap;
import java.util.TreeMap;
import java.util.concurrent.CompletableFuture;
import java.util.concurrent.ConcurrentHashMap;
import java.util.concurrent.ConcurrentLinkedDeque;
import java.util.concurrent.ExecutionException;
import java.util.concurrent.TimeUnit;
import java.util.concurrent.TimeoutException;

/**
 * A client of a cluster of {@code pcommit_node} processes, for any number of threads. All lines to a node share one connection, and many
 * are under way at once; only a leader that is asked to end a transaction, whose {@code await} holds up the lines behind it, is asked
 * over connections of their own, which are kept for the next. A connection that broke is made anew with the next line.
 */
public final class Cluster implements AutoCloseable {
    /** How long a node is waited for, where nothing else is said. */
    public static final Duration PATIENCE = Duration.ofSeconds(2);
    /** How long an outcome is asked for, where nothing else is said. */
    public static final Duration MOST = Duration.ofSeconds(30);
    private static final long PAUSE_MILLIS = 20;

    private final ClusterFile file;
    private final Duration patience;
    private final Duration most;
    private final Map<NodeName, Door> doors = new ConcurrentHashMap<>();
    private final List<NodeName> leaders;
    private volatile int preferred;
    private volatile boolean isClosed;

    /**
     * A client of the cluster of a file.
     *
     * @param file the cluster's file; the clients' key stands beside it
     * @throws ClusterFileException where the file can't be read
     */
    public Cluster(final Path file) throws ClusterFileException {
        this(ClusterFile.read(file), PATIENCE, MOST);
    }

    /**
     * A client of a cluster. It connects with the first line to a node.
     *
     * @param file     what the cluster's file says
     * @param patience how long an answer of one node is waited for
     * @param most     how long an outcome is asked for
     */
    public Cluster(final ClusterFile file, final Duration patience, final Duration most) {
        this.file = file;
        this.patience = patience;
        this.most = most;
        leaders = file.addresses().keySet().stream().filter(node -> node.kind() == NodeKind.LEADER).toList();
    }

    /**
     * What its file says.
     *
     * @return addresses and digest
     */
    public ClusterFile file() {
        return file;
    }

    /**
     * The answers of a node to lines.
     *
     * @param node  the node
     * @param lines what it is asked, at least one
     * @return as many answers, in the same order
     * @throws NodeGoneException        where one didn't come in time: what was asked may have happened
     * @throws IllegalArgumentException where one isn't one line
     */
    public List<String> ask(final NodeName node, final List<String> lines) throws NodeGoneException {
        return begin(node, lines).await();
    }

    /**
     * Writes lines to a node, and doesn't wait.
     *
     * @param node  the node
     * @param lines what it is asked, at least one
     * @return what will be answered
     * @throws NodeGoneException        where the node can't be reached
     * @throws IllegalArgumentException where one isn't one line
     */
    public Answers begin(final NodeName node, final List<String> lines) throws NodeGoneException {
        final NodeConnection connection = connection(node);
        return new Answers(node, connection, connection.send(lines), patience);
    }

    /** Answers that are under way. */
    public static final class Answers {
        private final NodeName node;
        private final NodeConnection connection;
        private final CompletableFuture<List<String>> all;
        private final long until;

        Answers(final NodeName node, final NodeConnection connection, final CompletableFuture<List<String>> all, final Duration patience) {
            this.node = node;
            this.connection = connection;
            this.all = all;
            until = System.nanoTime() + patience.toNanos();
        }

        /**
         * Waits for them.
         *
         * @return one for each line, in order
         * @throws NodeGoneException where one doesn't come in time; the connection is given up then
         */
        public List<String> await() throws NodeGoneException {
            try {
                return all.get(Math.max(0, until - System.nanoTime()), TimeUnit.NANOSECONDS);
            } catch (TimeoutException error) {
                connection.fail("it didn't answer in time", error);
                throw new NodeGoneException(node, "it didn't answer in time", error);
            } catch (InterruptedException error) {
                Thread.currentThread().interrupt();
                throw new NodeGoneException(node, "interrupted while it was waited for", error);
            } catch (ExecutionException error) {
                throw new NodeGoneException(node, error.getCause().getMessage(), error.getCause());
            }
        }
    }

    /** The connections to one node. Who connects to a node that hangs holds up nobody who asks another. */
    private static final class Door {
        private final Deque<NodeConnection> kept = new ConcurrentLinkedDeque<>();
        private volatile NodeConnection shared;
        private NodeGoneException failure;
        private long failedAt;
    }

    private Door door(final NodeName node) {
        return doors.computeIfAbsent(node, any -> new Door());
    }

    private NodeConnection connection(final NodeName node) throws NodeGoneException {
        final Door door = door(node);
        final NodeConnection known = door.shared;
        if (known != null && known.isUsable()) {
            return known;
        }
        final long came = System.nanoTime();
        synchronized (door) {
            if (door.shared != null && door.shared.isUsable()) {
                return door.shared;
            }
            if (door.failure != null && door.failedAt - came > 0) {
                // another tried meanwhile: who has waited for that doesn't wait for a try of its own
                throw door.failure;
            }
            return connect(node, door);
        }
    }

    private NodeConnection connect(final NodeName node, final Door door) throws NodeGoneException {
        try {
            door.shared = open(node);
        } catch (NodeGoneException error) {
            door.failure = error;
            door.failedAt = System.nanoTime();
            throw error;
        }
        if (isClosed) {
            // it was closed meanwhile, and this connection wasn't among those that it has closed
            door.shared.close();
        }
        return door.shared;
    }

    private NodeConnection open(final NodeName node) throws NodeGoneException {
        if (isClosed) {
            throw new NodeGoneException(node, "the client is closed", null);
        }
        final var address = file.addresses().get(node);
        if (address == null) {
            throw new NodeGoneException(node, "the cluster's file names no such node with a place for clients", null);
        }
        return NodeConnection.open(node, address, file.proof(node), patience);
    }

    /**
     * Starts a branch, writes rows in it, deletes rows, and ends it, in one go.
     *
     * @param manager the resource manager's number
     * @param branch  the branch's name
     * @param rows    keys with their values, which are written
     * @param deleted keys of rows that are deleted; where one is busy it stays, and the branch doesn't fail for that
     * @return what will be answered
     * @throws NodeGoneException where the manager can't be reached
     */
    public BranchAnswers beginBranch(final int manager, final BranchName branch, final SortedMap<String, byte[]> rows,
            final List<String> deleted)
            throws NodeGoneException {
        final NodeName node = NodeName.resourceManager(manager);
        final String words = " " + node + " " + branch;
        final List<String> lines = new ArrayList<>();
        lines.add("start" + words);
        rows.forEach((key, value) -> lines.add("put" + words + " " + key + " " + text(value)));
        deleted.forEach(key -> lines.add("del" + words + " " + key));
        lines.add("end" + words);
        return new BranchAnswers(begin(node, lines), lines, 1 + rows.size(), deleted.size());
    }

    /** What a resource manager answers to a branch that was started and ended in one go. */
    public static final class BranchAnswers {
        private final Answers answers;
        private final List<String> lines;
        private final int begun;
        private final int spared;

        BranchAnswers(final Answers answers, final List<String> lines, final int begun, final int spared) {
            this.answers = answers;
            this.lines = lines;
            this.begun = begun;
            this.spared = spared;
        }

        /**
         * Waits until the branch is ended.
         *
         * @throws NodeGoneException where an answer doesn't come: the branch may be ended, and isn't committed before a leader is asked
         * @throws RefusedException  where the manager refuses one of the calls
         */
        public void await() throws NodeGoneException, RefusedException {
            final List<String> said = answers.await();
            for (int place = 0; place < said.size(); place++) {
                final boolean isSpared = place >= begun && place < begun + spared;
                if (!isSpared && BranchCode.of(said.get(place)) != BranchCode.DONE) {
                    throw new RefusedException(lines.get(place), said.get(place));
                }
            }
        }
    }

    /**
     * Has a branch rolled back that no leader was asked about, and doesn't wait. Where that gets lost, its manager does so after a while.
     *
     * @param manager the resource manager's number
     * @param branch  the branch's name
     * @throws NodeGoneException where the manager can't be reached
     */
    public void rollBack(final int manager, final BranchName branch) throws NodeGoneException {
        final NodeName node = NodeName.resourceManager(manager);
        begin(node, List.of("end " + node + " " + branch + " fail", "rollback " + node + " " + branch));
    }

    /**
     * Where a resource manager stands in a transaction.
     *
     * @param manager     the resource manager's number
     * @param transaction the transaction
     * @return its view
     * @throws NodeGoneException where it doesn't answer
     * @throws RefusedException  where it refuses
     */
    public View view(final int manager, final TransactionName transaction) throws NodeGoneException, RefusedException {
        final NodeName node = NodeName.resourceManager(manager);
        return View.parse(ask(node, List.of("view " + node + " " + transaction)).get(0));
    }

    /**
     * The transactions that aren't final at a node.
     *
     * @param node a resource manager or a leader
     * @return their names
     * @throws NodeGoneException where it doesn't answer
     * @throws RefusedException  where it refuses
     */
    public List<TransactionName> openAt(final NodeName node) throws NodeGoneException, RefusedException {
        final String line = "open " + node;
        return readOpen(line, ask(node, List.of(line)).get(0));
    }

    private static List<TransactionName> readOpen(final String line, final String answer) throws RefusedException {
        final String[] words = answer.split(" ");
        if (!words[0].equals("open") || words.length % 2 == 0) {
            throw new RefusedException(line, answer);
        }
        final List<TransactionName> open = new ArrayList<>();
        for (int place = 1; place < words.length; place += 2) {
            open.add(TransactionName.parse(words[place]));
        }
        return open;
    }

    /**
     * What stands at a resource manager of one transaction, looked at in one go: first its view of the transaction, then what is open
     * there, then a row.
     *
     * @param manager     the resource manager's number
     * @param transaction the transaction that is asked for
     * @param reader      a name for the branch that reads the row, which nobody else uses
     * @param key         the row's key, in hex
     * @return what was found
     * @throws NodeGoneException where it doesn't answer
     * @throws RefusedException  where it refuses
     */
    public Look look(final int manager, final TransactionName transaction, final BranchName reader, final String key)
            throws NodeGoneException, RefusedException {
        final NodeName node = NodeName.resourceManager(manager);
        final String words = " " + node + " " + reader;
        final List<String> lines = List.of("view " + node + " " + transaction, "open " + node, "start" + words, "get" + words + " " + key,
                "end" + words + " fail", "rollback" + words);
        final List<String> answers = ask(node, lines);
        final String row = answers.get(3);
        final boolean isBusy = BranchCode.of(row) == BranchCode.BUSY;
        if (!isBusy && !row.equals("none") && !row.startsWith("value ")) {
            throw new RefusedException(lines.get(3), row);
        }
        final Optional<byte[]> value = row.startsWith("value ") ? Optional.of(bytes(row.substring("value ".length()))) : Optional.empty();
        return new Look(View.parse(answers.get(0)), readOpen(lines.get(1), answers.get(1)), isBusy, value);
    }

    /**
     * What {@link #look} found.
     *
     * @param view   the manager's view
     * @param open   what is open there
     * @param isBusy whether a branch that isn't final writes the row
     * @param value  the row's value, where there is the row
     */
    public record Look(View view, List<TransactionName> open, boolean isBusy, Optional<byte[]> value) { }

    /**
     * The rows of a resource manager's table.
     *
     * @param manager the resource manager's number
     * @return keys in hex, with their values
     * @throws NodeGoneException where it doesn't answer
     * @throws RefusedException  where it refuses
     */
    public SortedMap<String, byte[]> table(final int manager) throws NodeGoneException, RefusedException {
        final String line = "table " + NodeName.resourceManager(manager);
        final String[] words = ask(NodeName.resourceManager(manager), List.of(line)).get(0).split(" ");
        if (!words[0].equals("rows")) {
            throw new RefusedException(line, String.join(" ", words));
        }
        final SortedMap<String, byte[]> rows = new TreeMap<>();
        for (int place = 1; place < words.length; place++) {
            final String[] row = words[place].split("=");
            rows.put(row[0], bytes(row[1]));
        }
        return rows;
    }

    /**
     * Has a leader decide a transaction by a ballot of its own, and doesn't wait. It is always safe: what has not voted by then is aborted,
     * and what is decided stays as it is.
     *
     * @param transaction the transaction
     * @throws NodeGoneException where no leader could be reached
     */
    public void hurry(final TransactionName transaction) throws NodeGoneException {
        NodeGoneException reason = null;
        for (int turn = 0; turn < leaders.size(); turn++) {
            final int first = preferred;
            final NodeName leader = leaders.get(first % leaders.size());
            try {
                if (ask(leader, List.of("timeout " + leader + " " + transaction)).get(0).equals("ok")) {
                    return;
                }
            } catch (NodeGoneException error) {
                reason = error;
            }
            preferAfter(first);
        }
        throw reason != null ? reason : new NodeGoneException(NodeName.leader(0), "no leader would decide", null);
    }

    /** Connects to all leaders that can be reached, so that the first question to one isn't slower than others. */
    public void greetLeaders() {
        for (final NodeName leader : leaders) {
            try {
                ask(leader, List.of("info"));
            } catch (NodeGoneException error) {
                // it is tried again with the next question
                continue;
            }
        }
    }

    /**
     * The outcome of a transaction that a leader is asked to commit, and another where one doesn't answer.
     *
     * @param transaction the transaction, whose branches are ended
     * @return its outcome
     * @throws NodeGoneException       where no leader could be reached at all, so that none was asked
     * @throws UnknownOutcomeException where none answered an outcome in time: it may be committed now or later
     */
    public Outcome settle(final TransactionName transaction) throws NodeGoneException, UnknownOutcomeException {
        final long until = System.nanoTime() + most.toNanos();
        boolean wasAsked = false;
        NodeGoneException reason = new NodeGoneException(NodeName.leader(0), "the file names no leader with a place for clients", null);
        do {
            for (int turn = 0; turn < leaders.size(); turn++) {
                final int first = preferred;
                final NodeName leader = leaders.get(first % leaders.size());
                try (Lane lane = lane(leader)) {
                    wasAsked = true;
                    final Optional<Outcome> outcome = lane.settle(transaction);
                    if (outcome.isPresent()) {
                        return outcome.get();
                    }
                } catch (NodeGoneException error) {
                    reason = error;
                }
                preferAfter(first);
            }
        } while (pause(until));
        if (wasAsked) {
            throw new UnknownOutcomeException(transaction, reason);
        }
        throw reason;
    }

    /** Another leader is asked first from now on, for everybody. */
    private void preferAfter(final int first) {
        preferred = (first + 1) % leaders.size();
    }

    private static boolean pause(final long until) {
        try {
            Thread.sleep(PAUSE_MILLIS);
            return System.nanoTime() < until;
        } catch (InterruptedException error) {
            Thread.currentThread().interrupt();
            return false;
        }
    }

    private Lane lane(final NodeName leader) throws NodeGoneException {
        final Deque<NodeConnection> kept = door(leader).kept;
        for (NodeConnection connection = kept.poll(); connection != null; connection = kept.poll()) {
            if (connection.isUsable()) {
                return new Lane(leader, connection, kept);
            }
        }
        return new Lane(leader, open(leader), kept);
    }

    /** A connection to a leader that one transaction has for itself, until it is closed. */
    private final class Lane implements AutoCloseable {
        private final NodeName leader;
        private final NodeConnection connection;
        private final Deque<NodeConnection> kept;
        private boolean isQuiet = true;

        Lane(final NodeName leader, final NodeConnection connection, final Deque<NodeConnection> kept) {
            this.leader = leader;
            this.connection = connection;
            this.kept = kept;
        }

        Optional<Outcome> settle(final TransactionName transaction) throws NodeGoneException {
            final String words = " " + leader + " " + transaction;
            isQuiet = false;
            final var all = connection.send(List.of("commit" + words, "await" + words));
            final String answer = new Answers(leader, connection, all, patience).await().get(1);
            isQuiet = true;
            return switch (answer) {
                case "committed" -> Optional.of(Outcome.COMMITTED);
                case "aborted" -> Optional.of(Outcome.ABORTED);
                default -> Optional.empty();
            };
        }

        /** It is kept for the next transaction, unless that would wait behind an answer for which nobody waits any more. */
        @Override
        public void close() {
            if (isQuiet && !isClosed && connection.isUsable()) {
                kept.push(connection);
            } else {
                connection.close();
            }
        }
    }

    /** Bytes as lines have them. */
    private static String text(final byte[] bytes) {
        return bytes.length == 0 ? "-" : HexFormat.of().formatHex(bytes);
    }

    private static byte[] bytes(final String word) {
        return word.equals("-") ? new byte[0] : HexFormat.of().parseHex(word);
    }

    /** Closes all connections. Who waits for an answer gets a {@link NodeGoneException}. */
    @Override
    public void close() {
        isClosed = true;
        for (final Door door : doors.values()) {
            if (door.shared != null) {
                door.shared.close();
            }
            door.kept.forEach(NodeConnection::close);
        }
    }
}
