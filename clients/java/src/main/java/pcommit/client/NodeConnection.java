package pcommit.client;

import java.io.BufferedReader;
import java.io.IOException;
import java.io.InputStreamReader;
import java.io.OutputStream;
import java.net.InetSocketAddress;
import java.net.Socket;
import java.nio.charset.StandardCharsets;
import java.time.Duration;
import java.util.ArrayDeque;
import java.util.ArrayList;
import java.util.Deque;
import java.util.List;
import java.util.Optional;
import java.util.concurrent.CompletableFuture;

/**
 * A connection to a node. Any number of threads write lines; a thread of its own reads the answers, which come in the order of the lines.
 * Once it has failed it stays so, and all that waits for an answer fails with it.
 */
final class NodeConnection implements AutoCloseable {
    private final NodeName node;
    private final Socket socket = new Socket();
    private final OutputStream output;
    private final BufferedReader input;
    private final Object lock = new Object();
    private final Deque<Asked> waiting = new ArrayDeque<>();
    private NodeGoneException failure;
    private volatile boolean hasAnswered;

    private NodeConnection(final NodeName node, final InetSocketAddress address, final int millis) throws IOException {
        this.node = node;
        socket.connect(address, millis);
        socket.setTcpNoDelay(true);
        output = socket.getOutputStream();
        input = new BufferedReader(new InputStreamReader(socket.getInputStream(), StandardCharsets.US_ASCII));
    }

    /** Connects, and proves that the client has the key where there is one. */
    static NodeConnection open(final NodeName node, final InetSocketAddress address, final Optional<Proof> proof, final Duration patience)
            throws NodeGoneException {
        final int millis = (int) Math.max(1, patience.toMillis());
        final NodeConnection connection;
        try {
            connection = new NodeConnection(node, address, millis);
        } catch (IOException error) {
            throw new NodeGoneException(node, "it can't be reached at " + address + ": " + error.getMessage(), error);
        }
        try {
            if (proof.isPresent()) {
                connection.prove(proof.get(), millis);
            }
        } catch (IOException error) {
            connection.close();
            throw new NodeGoneException(node, "it sent no challenge: " + error.getMessage(), error);
        }
        final Thread reader = new Thread(connection::readAll, "pcommit " + node);
        reader.setDaemon(true);
        reader.start();
        return connection;
    }

    private void prove(final Proof proof, final int millis) throws IOException {
        socket.setSoTimeout(millis);
        final String line = input.readLine();
        if (line == null || !line.matches("challenge ([0-9a-f]{2})+")) {
            throw new IOException("is client_key in its file?");
        }
        output.write((proof.line(line.substring("challenge ".length())) + "\n").getBytes(StandardCharsets.US_ASCII));
        socket.setSoTimeout(0);
    }

    /** Lines that were asked together, and the answers that have come. Who waits for them is woken once, by the last. */
    private static final class Asked {
        private final int lines;
        private final List<String> answers;
        private final CompletableFuture<List<String>> all = new CompletableFuture<>();

        Asked(final int lines) {
            this.lines = lines;
            answers = new ArrayList<>(lines);
        }

        /** Whether this answer is the last. */
        boolean take(final String answer) {
            answers.add(answer);
            return answers.size() == lines;
        }
    }

    /** Writes lines at once. Their answers come later, one for each. */
    CompletableFuture<List<String>> send(final List<String> lines) throws NodeGoneException {
        if (lines.isEmpty() || lines.stream().anyMatch(line -> line.isEmpty() || line.indexOf('\n') >= 0)) {
            // each is answered by one line, and whose that is follows from their order
            throw new IllegalArgumentException("no lines, or one that isn't one line: " + lines);
        }
        final Asked asked = new Asked(lines.size());
        final byte[] bytes = (String.join("\n", lines) + "\n").getBytes(StandardCharsets.US_ASCII);
        synchronized (lock) {
            if (failure != null) {
                throw failure;
            }
            waiting.add(asked);
            try {
                output.write(bytes);
            } catch (IOException error) {
                fail("its connection broke: " + error.getMessage(), error);
            }
        }
        return asked.all;
    }

    private void readAll() {
        try {
            for (String line = input.readLine(); line != null; line = input.readLine()) {
                hasAnswered = true;
                take(line);
            }
            fail("it closed the connection" + (hasAnswered ? "" : " before any answer: is the clients' key the right one?"), null);
        } catch (IOException error) {
            fail("its connection broke: " + error.getMessage(), error);
        }
    }

    private void take(final String line) throws IOException {
        final Asked asked;
        final boolean isLast;
        synchronized (lock) {
            asked = waiting.peek();
            if (asked == null) {
                throw new IOException("it answered what nobody asked");
            }
            isLast = asked.take(line);
            if (isLast) {
                waiting.remove();
            }
        }
        if (isLast) {
            asked.all.complete(asked.answers);
        }
    }

    /** It is of no use any more: all that waits fails. */
    void fail(final String reason, final Throwable cause) {
        final NodeGoneException reasonNow = new NodeGoneException(node, reason, cause);
        try {
            // before the lock is taken: a thread that holds it may be writing to a node that doesn't read
            socket.close();
        } catch (IOException error) {
            reasonNow.addSuppressed(error);
        }
        final List<Asked> lost;
        final NodeGoneException told;
        synchronized (lock) {
            if (failure == null) {
                failure = reasonNow;
            }
            told = failure;
            lost = new ArrayList<>(waiting);
            waiting.clear();
        }
        lost.forEach(asked -> asked.all.completeExceptionally(told));
    }

    boolean isUsable() {
        synchronized (lock) {
            return failure == null;
        }
    }

    @Override
    public void close() {
        fail("the client has closed the connection", null);
    }
}
