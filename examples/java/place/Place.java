package place;

import java.io.IOException;
import java.io.UncheckedIOException;
import java.nio.file.Files;
import java.nio.file.Path;
import java.nio.file.attribute.PosixFilePermissions;
import java.sql.SQLException;
import java.util.Comparator;
import java.util.List;
import java.util.stream.Stream;

/** Two database servers, a broker and the nodes of a cluster, in a folder of their own that goes with them. */
public final class Place implements AutoCloseable {
    private final Path folder;
    private final PostgreSqlServer postgresql;
    private final MariaDbServer mariadb;
    private final BrokerServer broker;
    private final Nodes nodes;

    /** Starts all of them. */
    public Place(final Path program, final int accounts) throws IOException, InterruptedException, SQLException {
        folder = Files.createTempDirectory("pcommit-xa-");
        Files.setPosixFilePermissions(folder, PosixFilePermissions.fromString("rwxr-xr-x"));
        Child.atEnd(this::delete);
        postgresql = new PostgreSqlServer(folder);
        mariadb = new MariaDbServer(folder);
        broker = new BrokerServer(folder);
        nodes = new Nodes(program, folder.resolve("nodes"));
        for (final Server server : servers()) {
            server.start();
        }
        nodes.startAll();
        postgresql.makeAccounts(accounts);
        mariadb.makeAccounts(accounts);
    }

    /** The folder. */
    public Path folder() {
        return folder;
    }

    /** The PostgreSQL server, beside r0. */
    public PostgreSqlServer postgresql() {
        return postgresql;
    }

    /** The MariaDB server, beside r1. */
    public MariaDbServer mariadb() {
        return mariadb;
    }

    /** The broker, beside r2. */
    public BrokerServer broker() {
        return broker;
    }

    /** The cluster. */
    public Nodes nodes() {
        return nodes;
    }

    /** The three servers, by the numbers of the resource managers beside them. */
    public List<Server> servers() {
        return List.of(postgresql, mariadb, broker);
    }

    /** The words for the resolver beside a server. */
    public List<String> resolverWords(final int manager) {
        final String driver = switch (manager) {
            case 0 -> postgresql.driver() + " url=" + postgresql.url();
            case 1 -> mariadb.driver() + " url=" + mariadb.url();
            default -> "org.apache.activemq.ActiveMQXAConnectionFactory brokerURL=" + broker.url() + " watchTopicAdvisories=false";
        };
        return List.of((nodes.file() + " r" + manager + " " + driver).split(" "));
    }

    /** Starts the resolver beside a server, in a process of its own. */
    public Child startResolver(final int manager) throws IOException {
        return Child.start(Java.command(List.of("-Xmx48m"), "pcommit.xa.ResolverMain", resolverWords(manager).toArray(String[]::new)),
                folder.resolve("resolver" + manager + ".log"));
    }

    private synchronized void delete() {
        if (!Files.exists(folder)) {
            return;
        }
        try (Stream<Path> all = Files.walk(folder)) {
            all.sorted(Comparator.reverseOrder()).forEach(path -> path.toFile().delete());
        } catch (IOException | UncheckedIOException error) {
            System.err.println("the folder " + folder + " is left: " + error.getMessage());
        }
    }

    /** Kills all of them, and deletes the folder. */
    @Override
    public void close() {
        Child.killAll();
        delete();
    }
}
