package pcommit.client;

import static org.junit.jupiter.api.Assertions.assertEquals;
import static org.junit.jupiter.api.Assertions.assertThrows;
import static org.junit.jupiter.api.Assertions.assertTrue;

import java.io.IOException;
import java.net.InetSocketAddress;
import java.nio.file.Files;
import java.nio.file.Path;
import java.util.HexFormat;
import org.junit.jupiter.api.Test;
import org.junit.jupiter.api.io.TempDir;
import org.junit.jupiter.params.ParameterizedTest;
import org.junit.jupiter.params.provider.CsvSource;

/** How clusters' files are read. */
final class ClusterFileTest {
    private static final String NODES = "[[acceptor]]\nnode = \"127.0.0.1:1\"\n[[leader]]\nnode = \"127.0.0.1:2\"\n"
            + "[[rm]]\nnode = \"127.0.0.1:3\"\n";

    @TempDir
    private Path folder;

    private ClusterFile read(final String text) throws IOException, ClusterFileException {
        return ClusterFile.read(Files.writeString(folder.resolve("cluster.toml"), text));
    }

    /** The digest that docs/FORMATS.md works out. */
    @Test
    void knowsTheCluster() throws IOException, ClusterFileException {
        final ClusterFile file = read("bundled = false # no\n" + NODES + "table = { \"6b\" = \"30\" }\n");
        assertEquals("cd6a70b1c33eabfc69b18c051136e949c6fcf2a802d9516ce40a97e3d36a3209", HexFormat.of().formatHex(file.digest()));
    }

    @Test
    void knowsWhereClientsGo() throws IOException, ClusterFileException {
        final ClusterFile file = read(NODES + "client = \"[::1]:7220\"\n[time]\nask = 200\nidle = 60_000\n");
        assertEquals(new InetSocketAddress("::1", 7220), file.addresses().get(NodeName.resourceManager(0)));
        assertEquals(1, file.addresses().size());
    }

    @Test
    void theFilesOfTheExamplesAreRead() throws ClusterFileException, IOException {
        final String text = Files.readString(Path.of(System.getProperty("pcommit.examples", "examples"), "cluster", "one-host.toml"));
        Files.writeString(folder.resolve("clients.key"), "00".repeat(32) + "\n");
        assertEquals(7, read(text).addresses().size());
    }

    @ParameterizedTest
    @CsvSource(delimiter = '|', value = {
        "bundled = maybe | line 1: a value that can't be read",
        "bundled | line 1: \"=\" is missing",
        "key = \"a | line 1: a string isn't closed",
        "key = \"a\" key | line 1: more on a line than a pair",
        "client_key = \"none.key\" | can't be read",
        "x = 1 | acceptor: there is none"})
    void saysWhatIsWrong(final String text, final String words) {
        final var error = assertThrows(ClusterFileException.class, () -> read(text + "\n"));
        assertTrue(error.getMessage().contains(words), error.getMessage());
    }

    @Test
    void aKeyTwiceIsWrong() {
        final var error = assertThrows(ClusterFileException.class, () -> read("a = 1\na = 2\n"));
        assertEquals("line 2: duplicate key a", error.getMessage());
    }

    @ParameterizedTest
    @CsvSource({"nowhere", "127.0.0.1", "127.0.0.1:port", "127.0.0.1:70000"})
    void anAddressThatIsNone(final String address) {
        final var error = assertThrows(ClusterFileException.class, () -> read(NODES + "client = \"" + address + "\"\n"));
        assertEquals("rm[0].client: it is no address and port, as 10.0.0.1:7100", error.getMessage());
    }

    @Test
    void namesAreReadAsTheyAreWritten() {
        final String text = "1:74/0=61,1=62";
        assertEquals(text, TransactionName.parse(text).toString());
        assertEquals("1:74:62", TransactionName.parse(text).branch(1).toString());
        for (final String wrong : new String[] {"", "1:74", "1:74/", "1:74/0=", "1:74/0=6", "x:74/0=61", "1:74/0=61,"}) {
            assertThrows(IllegalArgumentException.class, () -> TransactionName.parse(wrong), wrong);
        }
        assertEquals("r12", NodeName.parse("r12").toString());
        assertThrows(IllegalArgumentException.class, () -> NodeName.parse("x1"));
        assertThrows(IllegalArgumentException.class, () -> new BranchName(1, new byte[65], new byte[1]));
        assertThrows(IllegalArgumentException.class, () -> new BranchName(-1, new byte[1], new byte[1]));
    }
}
