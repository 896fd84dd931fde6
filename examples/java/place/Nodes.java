package place;

import java.io.IOException;
import java.nio.file.Files;
import java.nio.file.Path;
import java.nio.file.attribute.PosixFilePermissions;
import java.security.SecureRandom;
import java.time.Duration;
import java.util.HashSet;
import java.util.HexFormat;
import java.util.LinkedHashMap;
import java.util.List;
import java.util.Map;
import java.util.Set;
import java.util.stream.IntStream;
import pcommit.client.NodeKind;
import pcommit.client.NodeName;

/** The nodes of a cluster on this host: three acceptors, two leaders, and a resource manager for each resource. */
public final class Nodes {
    private static final Map<NodeKind, Integer> COUNTS = new LinkedHashMap<>();

    static {
        COUNTS.put(NodeKind.ACCEPTOR, 3);
        COUNTS.put(NodeKind.LEADER, 2);
        COUNTS.put(NodeKind.RESOURCE_MANAGER, 3);
    }

    private final Path program;
    private final Path folder;
    private final Path file;
    private final Map<NodeName, Child> running = new LinkedHashMap<>();

    Nodes(final Path program, final Path folder) throws IOException {
        this.program = program;
        this.folder = folder;
        Files.createDirectories(folder);
        key("nodes.key");
        key("clients.key");
        file = Files.writeString(folder.resolve("cluster.toml"), text());
    }

    private void key(final String name) throws IOException {
        final byte[] bytes = new byte[32];
        new SecureRandom().nextBytes(bytes);
        final Path key = Files.createFile(folder.resolve(name),
                PosixFilePermissions.asFileAttribute(PosixFilePermissions.fromString("rw-------")));
        Files.writeString(key, HexFormat.of().formatHex(bytes) + "\n");
    }

    private static String text() throws IOException {
        final StringBuilder text = new StringBuilder("bundled = false\nkey = \"nodes.key\"\nclient_key = \"clients.key\"\n");
        final Set<Integer> ports = new HashSet<>();
        for (final var count : COUNTS.entrySet()) {
            final String section = switch (count.getKey()) {
                case ACCEPTOR -> "acceptor";
                case LEADER -> "leader";
                case RESOURCE_MANAGER -> "rm";
            };
            for (int number = 0; number < count.getValue(); number++) {
                text.append("[[").append(section).append("]]\nnode = \"127.0.0.1:").append(port(ports)).append("\"\nclient = \"127.0.0.1:")
                        .append(port(ports)).append("\"\n");
            }
        }
        return text + "[time]\nask = 200\nidle = 60000\n";
    }

    private static int port(final Set<Integer> taken) throws IOException {
        int port = Hosts.freePort();
        while (!taken.add(port)) {
            port = Hosts.freePort();
        }
        return port;
    }

    /** The cluster's file. */
    public Path file() {
        return file;
    }

    /** All nodes. */
    public static List<NodeName> names() {
        return COUNTS.entrySet().stream()
                .flatMap(count -> IntStream.range(0, count.getValue()).mapToObj(number -> new NodeName(count.getKey(), number))).toList();
    }

    void startAll() throws IOException, InterruptedException {
        for (final NodeName name : names()) {
            start(name);
        }
    }

    /** Starts a node over its record, and waits until it takes clients. */
    public void start(final NodeName name) throws IOException, InterruptedException {
        final Path log = folder.resolve(name + ".log");
        Files.deleteIfExists(log);
        final Child child = Child.start(List.of(program.toString(), "--log", "warn", file.toString(), name.toString(), folder.toString()),
                log);
        running.put(name, child);
        child.until(() -> child.hasSaid("pcommit_node " + name));
    }

    /** The processor time that all of them have taken. */
    public Duration processorTime() {
        return running.values().stream().map(Child::processorTime).reduce(Duration.ZERO, Duration::plus);
    }

    /** Kills a node. */
    public void kill(final NodeName name) throws InterruptedException {
        running.get(name).kill();
    }
}
