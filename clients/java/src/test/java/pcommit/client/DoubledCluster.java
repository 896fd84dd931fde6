package pcommit.client;

import java.io.IOException;
import java.nio.file.Path;
import java.time.Duration;
import org.junit.jupiter.api.AfterEach;
import org.junit.jupiter.api.BeforeEach;
import org.junit.jupiter.api.io.TempDir;

/** What each unit test has: a double of the nodes of a cluster, and a client of it that doesn't wait for long. */
public abstract class DoubledCluster {
    /** How long an answer is waited for. */
    protected static final Duration PATIENCE = Duration.ofMillis(400);
    /** How long an outcome is asked for. */
    protected static final Duration MOST = Duration.ofMillis(900);
    private static final int LEADERS = 2;
    private static final int MANAGERS = 18;

    @TempDir
    protected Path folder;
    protected ClusterDouble nodes;
    protected Cluster cluster;

    @BeforeEach
    final void startNodes() throws IOException, ClusterFileException {
        nodes = new ClusterDouble(folder, LEADERS, MANAGERS);
        cluster = new Cluster(ClusterFile.read(nodes.file()), PATIENCE, MOST);
    }

    @AfterEach
    final void stopNodes() throws IOException {
        cluster.close();
        nodes.close();
    }

    /** How many lines nodes were asked that begin so. */
    protected final long asked(final String words) {
        return nodes.lines().stream().filter(line -> line.startsWith(words)).count();
    }
}
