package pcommit.client;

import java.io.BufferedReader;
import java.io.IOException;
import java.io.InputStreamReader;
import java.io.OutputStream;
import java.net.InetAddress;
import java.net.ServerSocket;
import java.net.Socket;
import java.nio.charset.StandardCharsets;
import java.nio.file.Files;
import java.nio.file.Path;
import java.util.ArrayList;
import java.util.HexFormat;
import java.util.LinkedHashMap;
import java.util.List;
import java.util.Map;
import java.util.Set;
import java.util.concurrent.ConcurrentHashMap;

/**
 * Stands in for the nodes of a cluster in unit tests of the client: it answers lines over TCP, from one process with one memory. It is no
 * implementation of the protocol; what it decides, {@link DecisionsDouble} says. A test can have a node go, or stay silent.
 */
public final class ClusterDouble implements AutoCloseable {
    /** A key of clients. */
    static final String KEY = "00112233445566778899aabbccddeeff00112233445566778899aabbccddeeff";

    private final Path file;
    private final byte[] digest;
    private final Map<NodeName, Node> nodes = new LinkedHashMap<>();
    private final DecisionsDouble decisions = new DecisionsDouble();
    private final Set<NodeName> silent = ConcurrentHashMap.newKeySet();
    private final Set<NodeName> hanging = ConcurrentHashMap.newKeySet();

    /** The nodes of a cluster, with its file in a folder. */
    public ClusterDouble(final Path folder, final int leaders, final int managers) throws IOException, ClusterFileException {
        final StringBuilder text = new StringBuilder("bundled = false\nclient_key = \"clients.key\"\n");
        text.append("[[acceptor]]\nnode = \"127.0.0.1:1\"\n");
        for (int number = 0; number < leaders; number++) {
            add(NodeName.leader(number), text);
        }
        for (int number = 0; number < managers; number++) {
            add(NodeName.resourceManager(number), text);
        }
        Files.writeString(folder.resolve("clients.key"), KEY + "\n");
        file = Files.writeString(folder.resolve("cluster.toml"), text);
        digest = ClusterFile.read(file).digest();
        nodes.values().forEach(Node::serve);
    }

    private void add(final NodeName name, final StringBuilder text) throws IOException {
        final Node node = new Node(name, 0);
        nodes.put(name, node);
        text.append("[[").append(name.kind().section()).append("]]\nnode = \"127.0.0.1:1\"\nclient = \"127.0.0.1:")
                .append(node.server.getLocalPort()).append("\"\n");
    }

    /** The cluster's file. */
    public Path file() {
        return file;
    }

    /** All lines that nodes were asked, in their order. */
    public List<String> lines() {
        return decisions.lines();
    }

    /** Has a node take lines and answer none, or answer again. */
    public void silence(final NodeName node, final boolean isSilent) {
        if (isSilent) {
            silent.add(node);
        } else {
            silent.remove(node);
        }
    }

    /** Has a node take connections and say nothing to them, not even its challenge, as one whose host is gone. */
    void hang(final NodeName node) {
        hanging.add(node);
    }

    /** Has a node go: its connections break, and no new one is taken. */
    public void kill(final NodeName node) throws IOException {
        nodes.get(node).close();
    }

    /** Has a node come back at its place. */
    public void start(final NodeName node) throws IOException {
        final Node again = new Node(node, nodes.get(node).server.getLocalPort());
        nodes.put(node, again);
        again.serve();
    }

    /** How many connections a node has taken. */
    int connections(final NodeName node) {
        return nodes.get(node).taken;
    }

    @Override
    public void close() throws IOException {
        for (final Node node : nodes.values()) {
            node.close();
        }
    }

    /** One node: its place, and its clients. */
    private final class Node {
        private final NodeName name;
        private final ServerSocket server;
        private final List<Socket> clients = new ArrayList<>();
        private Thread acceptor;
        private volatile int taken;

        Node(final NodeName name, final int port) throws IOException {
            this.name = name;
            server = new ServerSocket(port, 100, InetAddress.getLoopbackAddress());
        }

        void serve() {
            acceptor = daemon(() -> {
                while (!server.isClosed()) {
                    final Socket client = server.accept();
                    client.setTcpNoDelay(true);
                    synchronized (clients) {
                        clients.add(client);
                        taken++;
                    }
                    daemon(() -> talk(client));
                }
            });
        }

        private void talk(final Socket client) throws IOException {
            try (client; BufferedReader input = new BufferedReader(new InputStreamReader(client.getInputStream(),
                    StandardCharsets.US_ASCII))) {
                final OutputStream output = client.getOutputStream();
                final String challenge = "000102030405060708090a0b0c0d0e0f";
                if (!hanging.contains(name)) {
                    say(output, "challenge " + challenge);
                }
                final byte[] words = ("client" + name + new String(digest,
                        StandardCharsets.ISO_8859_1)).getBytes(StandardCharsets.ISO_8859_1);
                final String right = new Proof(HexFormat.of().parseHex(KEY), words).line(challenge);
                if (!right.equals(input.readLine())) {
                    return;
                }
                for (String line = input.readLine(); line != null; line = input.readLine()) {
                    final String answer = decisions.answer(name, line);
                    if (!silent.contains(name)) {
                        say(output, answer);
                    }
                }
            }
        }

        private void say(final OutputStream output, final String line) throws IOException {
            output.write((line + "\n").getBytes(StandardCharsets.US_ASCII));
        }

        /** While a thread is in accept, its place is taken still: so it is waited for. */
        void close() throws IOException {
            server.close();
            try {
                acceptor.join();
            } catch (InterruptedException error) {
                Thread.currentThread().interrupt();
            }
            synchronized (clients) {
                for (final Socket client : clients) {
                    client.close();
                }
            }
        }
    }

    /** What a thread of the double does until its sockets are closed. */
    private interface Work {
        void run() throws IOException;
    }

    private static Thread daemon(final Work work) {
        final Thread thread = new Thread(() -> {
            try {
                work.run();
            } catch (IOException error) {
                // its socket was closed: it has nothing more to do
                Thread.currentThread().interrupt();
            }
        });
        thread.setDaemon(true);
        thread.start();
        return thread;
    }
}
