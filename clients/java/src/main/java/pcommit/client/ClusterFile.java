package pcommit.client;

import java.io.IOException;
import java.net.InetSocketAddress;
import java.nio.ByteBuffer;
import java.nio.charset.StandardCharsets;
import java.nio.file.Files;
import java.nio.file.Path;
import java.security.MessageDigest;
import java.security.NoSuchAlgorithmException;
import java.util.Collections;
import java.util.HexFormat;
import java.util.LinkedHashMap;
import java.util.List;
import java.util.Map;
import java.util.Optional;
import java.util.TreeMap;

/** What a client has to know of a cluster, as its file says: where nodes take clients, the clients' key, the digest. */
public final class ClusterFile {
    private final Map<NodeName, InetSocketAddress> addresses;
    private final byte[] key;
    private final byte[] digest;

    private ClusterFile(final Map<NodeName, InetSocketAddress> addresses, final byte[] key, final byte[] digest) {
        this.addresses = Collections.unmodifiableMap(addresses);
        this.key = key;
        this.digest = digest;
    }

    /**
     * Reads a cluster's file, and the clients' key beside it where it names one.
     *
     * @param file the cluster's file, as nodes read it
     * @return what it says
     * @throws ClusterFileException where it can't be read; the message says what is wrong
     */
    public static ClusterFile read(final Path file) throws ClusterFileException {
        final Map<String, Object> said = TomlReader.read(text(file));
        byte[] key = null;
        if (said.get("client_key") instanceof String name) {
            key = hex("client_key", text(file.toAbsolutePath().resolveSibling(name)).strip());
            if (key.length != 32) {
                throw new ClusterFileException("client_key: a key has 64 hex digits");
            }
        }
        final Map<NodeName, InetSocketAddress> addresses = new LinkedHashMap<>();
        for (final NodeKind kind : NodeKind.values()) {
            final List<Map<String, Object>> nodes = nodes(said, kind);
            for (int number = 0; number < nodes.size(); number++) {
                if (nodes.get(number).get("client") instanceof String address) {
                    addresses.put(new NodeName(kind, number), address(kind.section() + "[" + number + "].client", address));
                }
            }
        }
        return new ClusterFile(addresses, key, digest(said));
    }

    private static String text(final Path file) throws ClusterFileException {
        try {
            return Files.readString(file);
        } catch (IOException error) {
            throw new ClusterFileException(file + " can't be read: " + error);
        }
    }

    private static byte[] hex(final String where, final String digits) throws ClusterFileException {
        try {
            return HexFormat.of().parseHex(digits);
        } catch (IllegalArgumentException error) {
            throw new ClusterFileException(where + ": it isn't in pairs of hex digits");
        }
    }

    private static List<Map<String, Object>> nodes(final Map<String, Object> said, final NodeKind kind) throws ClusterFileException {
        final Object nodes = said.get(kind.section());
        if (!(nodes instanceof List<?>)) {
            throw new ClusterFileException(kind.section() + ": there is none");
        }
        @SuppressWarnings("unchecked")
        final List<Map<String, Object>> tables = (List<Map<String, Object>>) nodes;
        return tables;
    }

    private static InetSocketAddress address(final String where, final String text) throws ClusterFileException {
        final int colon = text.lastIndexOf(':');
        if (colon < 1 || !text.substring(colon + 1).matches("[0-9]{1,5}") || Integer.parseInt(text.substring(colon + 1)) > 65_535) {
            throw new ClusterFileException(where + ": it is no address and port, as 10.0.0.1:7100");
        }
        final String host = text.substring(0, colon).replaceAll("^\\[|\\]$", "");
        return new InetSocketAddress(host, Integer.parseInt(text.substring(colon + 1)));
    }

    /** The hash of all that the cluster's records take as fixed, as docs/FORMATS.md tells. */
    private static byte[] digest(final Map<String, Object> said) throws ClusterFileException {
        final MessageDigest hash = sha256();
        for (final NodeKind kind : NodeKind.values()) {
            hash.update((byte) nodes(said, kind).size());
        }
        hash.update((byte) (Boolean.TRUE.equals(said.get("bundled")) ? 1 : 0));
        for (final Map<String, Object> manager : nodes(said, NodeKind.RESOURCE_MANAGER)) {
            final Map<String, String> rows = new TreeMap<>();
            if (manager.get("table") instanceof Map<?, ?> table) {
                table.forEach((row, value) -> rows.put(row.toString(), value.toString()));
            }
            hash.update(number(rows.size()));
            for (final Map.Entry<String, String> row : rows.entrySet()) {
                for (final String part : List.of(row.getKey(), row.getValue())) {
                    final byte[] bytes = hex("rm.table", part);
                    hash.update(number(bytes.length));
                    hash.update(bytes);
                }
            }
        }
        return hash.digest();
    }

    private static byte[] number(final int value) {
        return ByteBuffer.allocate(Long.BYTES).putLong(value).array();
    }

    private static MessageDigest sha256() {
        try {
            return MessageDigest.getInstance("SHA-256");
        } catch (NoSuchAlgorithmException error) {
            throw new IllegalStateException("every Java has SHA-256", error);
        }
    }

    /**
     * Where each node takes clients. A node without a place for clients isn't there.
     *
     * @return the addresses by the nodes' names
     */
    public Map<NodeName, InetSocketAddress> addresses() {
        return addresses;
    }

    /**
     * What the cluster is known by.
     *
     * @return 32 bytes; NAME.cluster beside a record shows them in hex
     */
    public byte[] digest() {
        return digest.clone();
    }

    /** What begins a proof to a node: the key, and the words in front of the challenge. */
    Optional<Proof> proof(final NodeName node) {
        if (key == null) {
            return Optional.empty();
        }
        final byte[] words = ("client" + node).getBytes(StandardCharsets.US_ASCII);
        return Optional.of(new Proof(key, ByteBuffer.allocate(words.length + digest.length).put(words).put(digest).array()));
    }
}
