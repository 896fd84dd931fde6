package pcommit.xa;

import java.nio.file.Path;
import java.time.Duration;
import java.util.Arrays;
import java.util.List;
import pcommit.client.Cluster;
import pcommit.client.ClusterFileException;
import pcommit.client.NodeKind;
import pcommit.client.NodeName;

/**
 * The daemon beside a resource: {@code java pcommit.xa.ResolverMain CLUSTER.toml r0 CLASS [PROPERTY=VALUE ...]}. CLASS is the driver's: a
 * {@code javax.sql.XADataSource} or a {@code javax.jms.XAConnectionFactory}. With {@code -Dpcommit.every=MS} and {@code -Dpcommit.grace=MS}
 * its times are set. What it ends and what is wrong it says on standard error.
 */
public final class ResolverMain {
    private static final String FORMAT = "java.util.logging.SimpleFormatter.format";

    private ResolverMain() { }

    /**
     * Runs until it is killed.
     *
     * @param words the cluster's file, the resource manager, the driver's class, and its properties
     */
    public static void main(final String[] words) {
        if (System.getProperty(FORMAT) == null) {
            System.setProperty(FORMAT, "%1$tF %1$tT.%1$tL %4$s %5$s%n");
        }
        if (words.length < 3) {
            fail("usage: pcommit.xa.ResolverMain CLUSTER.toml r0 CLASS [PROPERTY=VALUE ...]");
        }
        try {
            final NodeName node = NodeName.parse(words[1]);
            if (node.kind() != NodeKind.RESOURCE_MANAGER) {
                fail(node + " is no resource manager");
            }
            final List<String> properties = Arrays.asList(words).subList(3, words.length);
            final ResourceOpener opener = Drivers.opener(words[2], properties);
            try (Cluster cluster = new Cluster(Path.of(words[0]));
                    Resolver resolver = new Resolver(cluster, node.number(), opener, millis("pcommit.every", Resolver.EVERY),
                            millis("pcommit.grace", Resolver.GRACE))) {
                resolver.run();
            }
        } catch (ClusterFileException | IllegalArgumentException error) {
            fail(error.getMessage());
        }
    }

    private static Duration millis(final String name, final Duration usual) {
        return Duration.ofMillis(Long.getLong(name, usual.toMillis()));
    }

    private static void fail(final String reason) {
        System.err.println("resolver: " + reason);
        System.exit(2);
    }
}
